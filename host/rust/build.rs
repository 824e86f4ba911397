//! Links the archives, each of which `tools/build.sh` writes by its name, from `VIRTIO_VIDEO_LIB_DIR`
//! or else from the repository's own `target/staticlib`.

use std::path::PathBuf;
use std::{env, process};

fn main() {
    println!("cargo:rerun-if-env-changed=VIRTIO_VIDEO_LIB_DIR");
    let dir = match env::var_os("VIRTIO_VIDEO_LIB_DIR") {
        Some(dir) => PathBuf::from(dir),
        None => {
            PathBuf::from(env::var_os("CARGO_MANIFEST_DIR").unwrap()).join("../../target/staticlib")
        }
    };
    println!("cargo:rustc-link-search=native={}", dir.display());
    for name in ["decoder", "sound"] {
        let archive = dir.join(format!("lib{name}.a"));
        println!("cargo:rerun-if-changed={}", archive.display());
        if !archive.is_file() {
            eprintln!(
                "{} is not there: run `tools/build.sh {name}` in the root of the repository, \
                 or set VIRTIO_VIDEO_LIB_DIR to the folder that has it",
                archive.display()
            );
            process::exit(1);
        }
        println!("cargo:rustc-link-lib=static={name}");
    }
}
