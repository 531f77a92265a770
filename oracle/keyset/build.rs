//! Copies join_key_set.rs, byte for byte, and cuts two functions out of eliminate_cross_join.rs, to where rustc reads them. They are
//! looked for as optimizer/build.rs says, and their lengths and sums are pinned.
use std::path::PathBuf;
use std::{env, fs};

/// path below `src/`, bytes, FNV-1a 64
const SET: (&str, usize, u64) = ("join_key_set.rs", 4878, 0x2b25_2ea9_357b_50dd);
const RULE: (&str, usize, u64) = ("eliminate_cross_join.rs", 17096, 0xb695_7edb_1ea7_124c);

fn fnv(bytes: &[u8]) -> u64 {
    bytes.iter().fold(0xcbf2_9ce4_8422_2325, |h, &b| (h ^ b as u64).wrapping_mul(0x100_0000_01b3))
}

fn texts() -> PathBuf {
    if let Ok(dir) = env::var("CRATE_TEXT") {
        return PathBuf::from(dir);
    }
    let here = PathBuf::from(env::var("CARGO_MANIFEST_DIR").unwrap());
    here.ancestors()
        .map(|a| a.join("shared/docs/src"))
        .find(|d| d.is_dir())
        .expect("the crate's texts: no shared/docs/src above; set CRATE_TEXT")
}

fn text((path, len, sum): (&str, usize, u64)) -> String {
    let from = texts().join("src").join(path);
    println!("cargo:rerun-if-changed={}", from.display());
    let text = fs::read_to_string(&from).unwrap_or_else(|e| panic!("{}: {e} (set CRATE_TEXT)", from.display()));
    let found = (text.len(), fnv(text.as_bytes()));
    assert!(found == (len, sum), "{}: {found:x?}; pinned {:x?}", from.display(), (len, sum));
    text
}

/// The whole function of that name, from its first line to its closing brace.
fn function<'a>(text: &'a str, name: &str) -> &'a str {
    let start = text.find(&format!("\nfn {name}(")).expect(name) + 1;
    let end = start + text[start..].find("\n}\n").expect(name) + 3;
    &text[start..end]
}

fn main() {
    println!("cargo:rerun-if-env-changed=CRATE_TEXT");
    println!("cargo:rerun-if-changed=build.rs");
    let out = PathBuf::from(env::var("OUT_DIR").unwrap());
    let set = out.join("join_key_set.rs");
    fs::write(&set, text(SET)).unwrap();
    // `include!` of a text fails on its `//!` lines, so it is a module with a path
    fs::write(out.join("text.rs"), format!("#[allow(dead_code)]\n#[path = {set:?}]\nmod join_key_set;\n")).unwrap();
    let rule = text(RULE);
    let both = ["extract_possible_join_keys", "remove_join_expressions"].map(|name| function(&rule, name));
    fs::write(out.join("functions.rs"), both.concat()).unwrap();
}
