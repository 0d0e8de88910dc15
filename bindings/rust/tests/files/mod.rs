//! The files of `examples/`.

use std::fs;
use std::path::Path;

pub fn file(example: &str, name: &str) -> Vec<u8> {
    let folder = Path::new(env!("CARGO_MANIFEST_DIR")).join("../../examples");
    fs::read(folder.join(example).join(name)).unwrap()
}
