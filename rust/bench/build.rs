//! Compiles the peers in C: the check and the patrol by hand, and newlib's two allocators over a fixed arena, from Debian's package
//! newlib-source. Without that package newlib is left out.

use std::env;
use std::path::{Path, PathBuf};
use std::process::Command;

const NEWLIB: &str = "/usr/src/newlib/newlib-3.3.0.tar.xz";

fn run(command: &mut Command) {
    let status = command.status().unwrap_or_else(|error| panic!("{command:?}: {error}"));
    assert!(status.success(), "{command:?} failed");
}

fn compile(out: &Path, name: &str, source: &Path, words: &[String]) -> PathBuf {
    let object = out.join(name).with_extension("o");
    let fixed = ["-O3", "-fPIC", "-w", "-c", "-include", "c/arena.h", "-I../../include"];
    run(Command::new("cc").args(fixed).args(words).arg(source).arg("-o").arg(&object));
    object
}

/// Renames the allocator's functions, so that they do not clash with libc's, and adds the macros that its source needs.
fn words(prefix: &str, more: &[&str]) -> Vec<String> {
    let names =
        ["malloc", "free", "realloc", "calloc", "cfree", "memalign", "valloc", "pvalloc", "mallinfo", "mallopt"];
    let rest = ["malloc_stats", "malloc_usable_size", "malloc_trim"];
    let renamed = names.iter().chain(&rest).map(|name| format!("-D{name}={prefix}_{name}"));
    renamed.chain(more.iter().map(|word| format!("-D{word}"))).collect()
}

fn newlib(out: &Path) -> Vec<PathBuf> {
    let sources = "newlib-salsa/newlib/libc/stdlib";
    let (full, nano) = (format!("{sources}/mallocr.c"), format!("{sources}/nano-mallocr.c"));
    run(Command::new("tar").arg("xf").arg(NEWLIB).arg("-C").arg(out).args([&full, &nano]));
    let of_full = ["HAVE_MMAP=0", "MORECORE=full_sbrk", "MORECORE_CLEARS=0", "malloc_getpagesize=4096"];
    let parts = ["DEFINE_MALLOC", "DEFINE_FREE", "DEFINE_REALLOC", "DEFINE_CALLOC", "DEFINE_MALLOC_USABLE_SIZE"];
    let of_nano = [&["_sbrk_r=nano_sbrk"], &parts[..]].concat();
    vec![
        compile(out, "full", &out.join(full), &words("full", &of_full)),
        compile(out, "nano", &out.join(nano), &words("nano", &of_nano)),
        compile(out, "arena", Path::new("c/arena.c"), &[]),
    ]
}

fn main() {
    println!("cargo:rerun-if-changed=c");
    println!("cargo:rerun-if-changed=../../include/kruzhvela.h");
    println!("cargo:rerun-if-changed={NEWLIB}");
    println!("cargo:rustc-check-cfg=cfg(newlib)");
    let out = PathBuf::from(env::var_os("OUT_DIR").expect("OUT_DIR"));
    let mut objects = vec![
        compile(&out, "limit", Path::new("c/limit.c"), &[]),
        compile(&out, "patrol", Path::new("c/patrol.c"), &[]),
    ];
    if Path::new(NEWLIB).is_file() {
        objects.extend(newlib(&out));
        println!("cargo:rustc-cfg=newlib");
    }
    let archive = out.join("libpeers.a");
    let _ = std::fs::remove_file(&archive);
    run(Command::new("ar").arg("rcs").arg(&archive).args(&objects));
    println!("cargo:rustc-link-search=native={}", out.display());
    println!("cargo:rustc-link-lib=static=peers");
}
