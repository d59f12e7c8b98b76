//! Copies of `second` with one wrong line each (broken/*.edit, build.rs). The comparison must catch every one.

include!(concat!(env!("OUT_DIR"), "/copies.rs"));
