// Links the archive that `rt lib --cpu=x86-64` leaves in the folder of the crate mewilovang.

use std::env;
use std::path::Path;

fn main() {
    let here = env::var("CARGO_MANIFEST_DIR").expect("cargo names the package's folder");
    let folder = Path::new(&here).join("../crates/mewilovang/out");
    let archive = folder.join("libmewilovang.a");
    if !archive.exists() {
        panic!(
            "{} is missing: run `rt lib --cpu=x86-64` in crates/mewilovang first",
            archive.display()
        );
    }
    println!("cargo:rustc-link-search=native={}", folder.display());
    println!("cargo:rustc-link-lib=static=mewilovang");
    println!("cargo:rerun-if-changed={}", archive.display());
}
