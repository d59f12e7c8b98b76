//! Compares the proved heap with `second`, a heap that was written from the requirements alone and shares nothing with
//! it. Both play the same cases, and after every call answer, record and region must be equal.
//! This crate also writes the script and the transcript of the program `vectors`.

pub mod broken;
pub mod calls;
pub mod case;
pub mod damage;
pub mod duel;
pub mod judge;
pub mod orders;
pub mod patrols;
pub mod puts;
pub mod random;
pub mod script;
pub mod settings;
pub mod side;
pub mod view;
