//! Links libsimmerroof.a from the directory SIMMERROOF_LIB, or from ../crates/simmerroof/out, where `rt lib` puts it.
use std::env;
use std::path::PathBuf;

fn main() {
    println!("cargo:rerun-if-env-changed=SIMMERROOF_LIB");
    let dir = match env::var("SIMMERROOF_LIB") {
        Ok(dir) => PathBuf::from(dir),
        Err(_) => {
            let arch = env::var("CARGO_CFG_TARGET_ARCH").unwrap();
            assert!(
                arch == "x86_64",
                "the library is for x86-64, not {arch}: set SIMMERROOF_LIB to the directory of one for it"
            );
            PathBuf::from(env::var("CARGO_MANIFEST_DIR").unwrap()).join("../crates/simmerroof/out")
        }
    };
    let archive = dir.join("libsimmerroof.a");
    assert!(
        archive.is_file(),
        "{} is not there: run `rt lib` in crates/simmerroof, or set SIMMERROOF_LIB to the directory of libsimmerroof.a",
        archive.display()
    );
    println!("cargo:rerun-if-changed={}", archive.display());
    println!("cargo:rustc-link-search=native={}", dir.display());
    println!("cargo:rustc-link-lib=static=simmerroof");
}
