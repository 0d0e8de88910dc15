//! Links `libaxcut.a` from the folder that `AXCUT_LIB` names, or from `target/staticlib` of the
//! repository.

use std::env;
use std::path::PathBuf;

fn main() {
    println!("cargo:rerun-if-env-changed=AXCUT_LIB");
    let folder = match env::var_os("AXCUT_LIB") {
        Some(folder) => PathBuf::from(folder),
        None => PathBuf::from(env!("CARGO_MANIFEST_DIR")).join("../../target/staticlib"),
    };
    let library = folder.join("libaxcut.a");
    let place = library.display();
    assert!(
        library.is_file(),
        "no library at {place}: run `make library` in the repository"
    );
    println!("cargo:rerun-if-changed={place}");
    println!("cargo:rustc-link-search=native={}", folder.display());
    println!("cargo:rustc-link-lib=static=axcut");
}
