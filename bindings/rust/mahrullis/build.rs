//! Finds `libmahrullis.a` and links it: in `MAHRULLIS_LIB_DIR`, else in `target/staticlib` of the repository that this crate stands in.
use std::env;
use std::path::{Path, PathBuf};
use std::process::exit;

fn refuse(why: &str) -> ! {
    eprintln!("mahrullis: {why}");
    exit(1);
}

fn main() {
    println!("cargo:rerun-if-env-changed=MAHRULLIS_LIB_DIR");
    if env::var("CARGO_CFG_TARGET_ARCH").as_deref() != Ok("x86_64") || env::var("CARGO_CFG_TARGET_OS").as_deref() != Ok("linux") {
        refuse("the archive is for x86-64 Linux, so this crate can only be built for that target");
    }
    let folder = match env::var_os("MAHRULLIS_LIB_DIR") {
        Some(folder) => PathBuf::from(folder),
        None => Path::new(&env::var_os("CARGO_MANIFEST_DIR").expect("cargo sets it")).join("../../../target/staticlib"),
    };
    let archive = folder.join("libmahrullis.a");
    println!("cargo:rerun-if-changed={}", archive.display());
    if !archive.is_file() {
        refuse(&format!(
            "there is no {}: run `tools/archive` in the repository first, or set MAHRULLIS_LIB_DIR to the folder that has libmahrullis.a",
            archive.display()
        ));
    }
    println!("cargo:rustc-link-search=native={}", folder.display());
    println!("cargo:rustc-link-lib=static=mahrullis");
}
