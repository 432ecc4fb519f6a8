//! Links the static library that `rt lib` in crates/vurzhelik writes.
use std::path::Path;

fn main() {
    let folder = Path::new(env!("CARGO_MANIFEST_DIR")).join("../crates/vurzhelik/out");
    let archive = folder.join("libvurzhelik.a");
    println!("cargo:rerun-if-changed={}", archive.display());
    if !archive.exists() {
        eprintln!(
            "no {}: run `rt lib` in crates/vurzhelik of the repository first",
            archive.display()
        );
        std::process::exit(1);
    }
    println!("cargo:rustc-link-search=native={}", folder.display());
    println!("cargo:rustc-link-lib=static=vurzhelik");
}
