//! With the feature `library`, links `libaxcut.a` from the folder that `AXCUT_LIB` names, or from
//! `target/staticlib` of the repository.

use std::env;
use std::path::PathBuf;

fn main() {
    println!("cargo::rerun-if-env-changed=AXCUT_LIB");
    if env::var_os("CARGO_FEATURE_LIBRARY").is_none() {
        return;
    }
    let folder: PathBuf = match env::var_os("AXCUT_LIB") {
        Some(folder) => folder.into(),
        None => {
            PathBuf::from(env::var_os("CARGO_MANIFEST_DIR").unwrap()).join("../../target/staticlib")
        }
    };
    let library = folder.join("libaxcut.a");
    assert!(library.is_file(), "no library at {}", library.display());
    println!("cargo::rerun-if-changed={}", library.display());
    println!("cargo::rustc-link-search=native={}", folder.display());
    println!("cargo::rustc-link-lib=static=axcut");
}
