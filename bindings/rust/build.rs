//! Links the proved library: from the folder that `ZVONUREL_LIB` names, or from `target/staticlib` of the repository.

use std::env;
use std::path::PathBuf;

fn main() {
    println!("cargo:rerun-if-env-changed=ZVONUREL_LIB");
    let folder = match env::var_os("ZVONUREL_LIB").filter(|folder| !folder.is_empty()) {
        Some(folder) => PathBuf::from(folder),
        None => PathBuf::from(env::var_os("CARGO_MANIFEST_DIR").expect("cargo names the package's folder"))
            .join("../../target/staticlib"),
    };
    // cargo runs this in the package's folder, so what a relative path was meant from can't be known
    if !folder.is_absolute() {
        let given = folder.display();
        refuse(&format!("ZVONUREL_LIB is the relative path `{given}`: name the folder by its whole path, from / on"));
    }
    if folder.to_str().is_none() {
        refuse(&format!("`{}` is no name in UTF-8, which cargo needs: use another folder", folder.display()));
    }
    let library = folder.join("libzvonurel_c.a");
    println!("cargo:rerun-if-changed={}", library.display());
    if !library.is_file() {
        let missing = library.display();
        refuse(&format!(
            "there is no {missing}: `./build` at the repository's root writes it, or name its folder in ZVONUREL_LIB"
        ));
    }
    println!("cargo:rustc-link-search=native={}", folder.display());
    println!("cargo:rustc-link-lib=static=zvonurel_c");
}

fn refuse(why: &str) -> ! {
    eprintln!("{why}");
    std::process::exit(1);
}
