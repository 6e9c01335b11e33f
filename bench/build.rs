//! Links `bitwise`, which counts bit by bit: from the folder that `ZVONUREL_LIB` names, or from where `rt lib` writes it.
//! A name that can't be used is refused by the package `zvonurel`, whose build script runs first.

use std::env;
use std::path::PathBuf;

fn main() {
    println!("cargo:rerun-if-env-changed=ZVONUREL_LIB");
    let folder = match env::var_os("ZVONUREL_LIB").filter(|folder| !folder.is_empty()) {
        Some(folder) => PathBuf::from(folder),
        None => PathBuf::from(env::var_os("CARGO_MANIFEST_DIR").expect("cargo names the package's folder"))
            .join("../crates/bitwise/out"),
    };
    let library = folder.join("libbitwise.a");
    println!("cargo:rerun-if-changed={}", library.display());
    if !library.is_file() {
        let missing = library.display();
        eprintln!("there is no {missing}: `rt lib --cpu x86-64` in the folder crates/bitwise writes it");
        std::process::exit(1);
    }
    println!("cargo:rustc-link-search=native={}", folder.display());
    println!("cargo:rustc-link-lib=static=bitwise");
}
