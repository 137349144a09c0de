//! Links the proved static library: `libtizulgech.a` in the folder `TIZULGECH_LIB_DIR`, or in `target/library` of the repository that
//! this crate stands in, or in `lib` of the prefix or the archive that it stands in, or where pkg-config knows it.
use std::path::PathBuf;
use std::process::Command;

fn main() {
    println!("cargo:rerun-if-env-changed=TIZULGECH_LIB_DIR");
    println!("cargo:rerun-if-env-changed=PKG_CONFIG_PATH");
    let folder = folder();
    let library = folder.join("libtizulgech.a");
    assert!(library.is_file(), "there is no {}: run `make library`, or set TIZULGECH_LIB_DIR", library.display());
    println!("cargo:rerun-if-changed={}", library.display());
    println!("cargo:rustc-link-search=native={}", folder.display());
    println!("cargo:rustc-link-lib=static=tizulgech");
}

fn folder() -> PathBuf {
    if let Some(folder) = std::env::var_os("TIZULGECH_LIB_DIR") {
        return PathBuf::from(folder);
    }
    let here = PathBuf::from(std::env::var_os("CARGO_MANIFEST_DIR").expect("cargo sets it"));
    let places = ["../../target/library", "../../../../lib"].map(|place| here.join(place));
    if let Some(place) = places.iter().find(|place| place.join("libtizulgech.a").is_file()) {
        return place.clone();
    }
    match Command::new("pkg-config").args(["--variable=libdir", "tizulgech"]).output() {
        Ok(found) if found.status.success() => PathBuf::from(String::from_utf8_lossy(&found.stdout).trim()),
        _ => places[0].clone(),
    }
}
