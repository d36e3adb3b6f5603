//! Links the archive that `rt lib` writes in crates/capi, and the plain C
//! program that it is timed beside.

use std::env;
use std::path::{Path, PathBuf};
use std::process::Command;

const GCC: [&str; 6] = [
    "-std=c99",
    "-Wall",
    "-Wextra",
    "-Werror",
    "-pedantic",
    "-O3",
];

fn main() {
    let root = Path::new(env!("CARGO_MANIFEST_DIR")).join("..");
    let proved = root.join("crates/capi/out");
    println!(
        "cargo:rerun-if-changed={}",
        proved.join("libcapi.a").display()
    );
    link(&proved, "capi");
    let out = PathBuf::from(env::var_os("OUT_DIR").expect("cargo names a folder for output"));
    compile_plain(&root, &out);
    link(&out, "plain");
}

fn link(folder: &Path, archive: &str) {
    println!("cargo:rustc-link-search=native={}", folder.display());
    println!("cargo:rustc-link-lib=static={archive}");
}

fn compile_plain(root: &Path, out: &Path) {
    let (bench, include) = (root.join("bench"), root.join("include"));
    for file in [
        bench.join("plain.c"),
        bench.join("plain.h"),
        include.join("shares.h"),
    ] {
        println!("cargo:rerun-if-changed={}", file.display());
    }
    let (object, archive) = (out.join("plain.o"), out.join("libplain.a"));
    run(Command::new("gcc")
        .args(GCC)
        .arg("-I")
        .arg(include)
        .arg("-c")
        .arg(bench.join("plain.c"))
        .arg("-o")
        .arg(&object));
    run(Command::new("ar").arg("crs").arg(archive).arg(object));
}

fn run(command: &mut Command) {
    let status = command.status();
    assert!(
        status.as_ref().is_ok_and(|status| status.success()),
        "{command:?}: {status:?}"
    );
}
