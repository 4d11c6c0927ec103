//! Tells the linker where the station's static library is, if the feature `station` is on.

use std::env;

fn main() {
    println!("cargo::rerun-if-changed=build.rs");
    println!("cargo::rerun-if-env-changed=STATION_LIB");
    if env::var_os("CARGO_FEATURE_STATION").is_none() {
        return;
    }
    let Some(archives) = env::var_os("STATION_LIB") else {
        println!("cargo::error=the feature `station` needs STATION_LIB=path/to/archive.a");
        return;
    };
    for archive in env::split_paths(&archives) {
        let Ok(path) = archive.canonicalize() else {
            println!("cargo::error=STATION_LIB: there is no file {}", archive.display());
            return;
        };
        println!("cargo::rerun-if-changed={}", path.display());
        println!("cargo::rustc-link-arg={}", path.display());
    }
}
