// Links the archive that `tools/archive` writes.
use std::path::PathBuf;

fn main() {
    let package = PathBuf::from(std::env::var("CARGO_MANIFEST_DIR").unwrap());
    let root = package.ancestors().nth(2).expect("the package is in rust/raugvite");
    let folder = root.join("target/staticlib");
    let archive = folder.join("libbindings.a");
    println!("cargo::rerun-if-changed={}", archive.display());
    // Said here, where the command is known: the linker would only say that it finds no library of this name.
    if !archive.is_file() {
        println!("cargo::error=the resolver's archive {} is missing", archive.display());
        println!("cargo::error=make it with `tools/archive` in {}, which also proves it", root.display());
        return;
    }
    println!("cargo::rustc-link-search=native={}", folder.display());
    println!("cargo::rustc-link-lib=static=bindings");
}
