//! Links the archive of the calls: ../target/staticlib/libcapi.a, or libcapi.a in the folder that OY_ARCHIVE_DIR names; and for the benchmarks
//! the C peer, libpeer.a in the folder that OY_PEER_DIR names, where it is set.
use std::env;
use std::path::PathBuf;

fn main() {
    let here = PathBuf::from(env::var("CARGO_MANIFEST_DIR").expect("cargo sets CARGO_MANIFEST_DIR"));
    let folder = match env::var("OY_ARCHIVE_DIR") {
        Ok(named) => PathBuf::from(named),
        Err(_) => here.join("../target/staticlib"),
    };
    let archive = folder.join("libcapi.a");
    println!("cargo:rerun-if-env-changed=OY_ARCHIVE_DIR");
    println!("cargo:rerun-if-changed={}", archive.display());
    if !archive.is_file() {
        println!("cargo:warning=the archive {} is not there", archive.display());
        println!("cargo:warning=build it with `make archive`, or set OY_ARCHIVE_DIR to its folder");
        std::process::exit(1);
    }
    println!("cargo:rustc-link-search=native={}", folder.display());
    println!("cargo:rustc-link-lib=static=capi");
    println!("cargo:rustc-check-cfg=cfg(peer)");
    println!("cargo:rerun-if-env-changed=OY_PEER_DIR");
    if let Ok(peer) = env::var("OY_PEER_DIR") {
        println!("cargo:rerun-if-changed={peer}/libpeer.a");
        println!("cargo:rustc-cfg=peer");
        println!("cargo:rustc-link-search=native={peer}");
        println!("cargo:rustc-link-lib=static=peer");
        println!("cargo:rustc-link-lib=dylib=h2o");
    }
}
