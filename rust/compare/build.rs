//! Makes the broken copies of `second`: for each broken/NAME.edit a module NAME, its source with one line replaced.

use std::env;
use std::fs;
use std::path::{Path, PathBuf};

/// One edit: the file, the text that must occur there once, and its replacement.
fn edit(path: &Path) -> (String, String, String) {
    let text = fs::read_to_string(path).expect("an edit");
    let part = |name: &str| {
        let line = text.lines().find_map(|line| line.strip_prefix(name));
        line.unwrap_or_else(|| panic!("{}: no line {name}", path.display())).trim().to_string()
    };
    (part("file:"), part("old:"), part("new:"))
}

/// Copies the source to a directory of its own and makes the edit. All copies share `second`'s type of calls.
fn copy(source: &Path, directory: &Path, (file, old, new): (String, String, String)) {
    fs::create_dir_all(directory).expect("a directory");
    for entry in fs::read_dir(source).expect("the source") {
        let path = entry.expect("a file").path();
        let name = path.file_name().expect("a name").to_string_lossy().into_owned();
        let mut text = fs::read_to_string(&path).expect("a text");
        if name == file {
            assert_eq!(text.matches(&old).count(), 1, "{name} must have this once: {old}");
            text = text.replace(&old, &new);
        }
        if name == "call.rs" {
            text = "pub use ::second::Call;\n".to_string();
        }
        fs::write(directory.join(name), text).expect("a copy");
    }
}

fn main() {
    println!("cargo:rerun-if-changed=broken");
    println!("cargo:rerun-if-changed=../second/src");
    let out = PathBuf::from(env::var_os("OUT_DIR").expect("OUT_DIR"));
    let here = PathBuf::from(env!("CARGO_MANIFEST_DIR"));
    let mut edits: Vec<PathBuf> =
        fs::read_dir(here.join("broken")).expect("edits").map(|e| e.expect("an edit").path()).collect();
    edits.sort();
    let (mut modules, mut list) = (String::new(), String::new());
    for path in edits {
        let name = path.file_stem().expect("a name").to_string_lossy().into_owned();
        let directory = out.join(&name);
        copy(&here.join("../second/src"), &directory, edit(&path));
        modules += &format!("#[allow(warnings)]\n#[path = {:?}]\nmod {name};\n", directory.join("lib.rs"));
        list += &format!("({name:?}, {name}::apply as crate::side::Answers), ");
    }
    let all = format!("{modules}\npub const COPIES: &[(&str, crate::side::Answers)] = &[{list}];\n");
    fs::write(out.join("copies.rs"), all).expect("the copies");
}
