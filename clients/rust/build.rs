//! Links the archive `libcedar.a` that the environment's `CEDAR_ARCHIVE` names; without it the shared object
//! `libcedar.so`, in the folder that `CEDAR_LIBRARY_FOLDER` names or where the system finds it.

use std::env;
use std::path::Path;

fn main() {
    println!("cargo::rerun-if-env-changed=CEDAR_ARCHIVE");
    println!("cargo::rerun-if-env-changed=CEDAR_LIBRARY_FOLDER");
    match env::var_os("CEDAR_ARCHIVE") {
        Some(archive) => link_archive(Path::new(&archive)),
        None => link_shared_object(),
    }
}

fn link_archive(path: &Path) {
    let name = path.file_name().and_then(|name| name.to_str());
    let Some((_, folder)) = name.filter(|name| *name == "libcedar.a").zip(path.parent()) else {
        panic!(
            "CEDAR_ARCHIVE names {}, which is no libcedar.a",
            path.display()
        );
    };
    println!("cargo::rerun-if-changed={}", path.display());
    println!("cargo::rustc-link-search=native={}", folder.display());
    println!("cargo::rustc-link-lib=static=cedar");
}

fn link_shared_object() {
    if let Ok(folder) = env::var("CEDAR_LIBRARY_FOLDER") {
        println!("cargo::rustc-link-search=native={folder}");
    }
    println!("cargo::rustc-link-lib=dylib=cedar");
}
