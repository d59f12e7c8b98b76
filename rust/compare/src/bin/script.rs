//! Writes the script of the program `vectors` and the transcript that its output must equal.

use std::io;
use std::path::Path;

fn main() -> io::Result<()> {
    let script = compare::script::stored();
    let vectors = Path::new(env!("CARGO_MANIFEST_DIR")).join("../../crates/vectors");
    std::fs::write(vectors.join("stdin"), &script.text)?;
    std::fs::write(vectors.join("stdout"), &script.transcript)?;
    println!("{} calls over {} heaps, {} of them damaged", script.calls, script.heaps, script.damaged);
    Ok(())
}
