//! Copies the published texts, byte for byte, to where rustc reads them as modules. They are never kept in this
//! repository.
//!
//! CRATE_TEXT names the directory that holds them (with `src/optimize_projections/mod.rs` below it). Without it,
//! `shared/docs/src` beside the nearest directory above this one is taken. Lengths and a 64-bit sum of each text are
//! pinned, so that a changed text stops the build.
use std::path::{Path, PathBuf};
use std::{env, fs};

/// path below `src/`, bytes, FNV-1a 64
const TEXTS: [(&str, usize, u64); 3] = [
    ("optimize_projections/mod.rs", 37088, 0x0fc3_7e80_f9ad_a370),
    ("optimize_projections/required_indices.rs", 7374, 0x12ca_79b8_894f_83d9),
    ("utils.rs", 8953, 0x4340_92c5_b34c_f73d),
];

fn fnv(bytes: &[u8]) -> u64 {
    bytes.iter().fold(0xcbf2_9ce4_8422_2325, |h, &b| (h ^ b as u64).wrapping_mul(0x100_0000_01b3))
}

fn texts() -> PathBuf {
    if let Ok(dir) = env::var("CRATE_TEXT") {
        return PathBuf::from(dir);
    }
    let here = PathBuf::from(env::var("CARGO_MANIFEST_DIR").unwrap());
    here.ancestors()
        .map(|a| a.join("shared/docs/src"))
        .find(|d| d.is_dir())
        .expect("the crate's texts: no shared/docs/src above; set CRATE_TEXT")
}

fn copy(from: &Path, to: &Path, len: usize, sum: u64) {
    println!("cargo:rerun-if-changed={}", from.display());
    let bytes = fs::read(from).unwrap_or_else(|e| panic!("{}: {e} (set CRATE_TEXT)", from.display()));
    assert!(
        bytes.len() == len && fnv(&bytes) == sum,
        "{}: {} bytes, sum {:#x}; pinned {len}, {sum:#x}",
        from.display(),
        bytes.len(),
        fnv(&bytes)
    );
    fs::create_dir_all(to.parent().unwrap()).unwrap();
    fs::write(to, &bytes).unwrap();
}

fn main() {
    println!("cargo:rerun-if-env-changed=CRATE_TEXT");
    println!("cargo:rerun-if-changed=build.rs");
    let dir = texts().join("src");
    let out = PathBuf::from(env::var("OUT_DIR").unwrap());
    for (path, len, sum) in TEXTS {
        copy(&dir.join(path), &out.join(path), len, sum);
    }
    // `include!` of a text fails on its `//!` lines and on `mod required_indices;`, so it is a module with a path
    let module = |file: &str| format!("#[path = {:?}]", out.join(file));
    let lines = format!(
        "{}\npub mod optimize_projections;\n#[allow(dead_code)]\n{}\nmod utils;\n",
        module("optimize_projections/mod.rs"),
        module("utils.rs")
    );
    fs::write(out.join("text.rs"), lines).unwrap();
}
