//! Turns `rules.plan` into `isle.rs`.

use std::path::PathBuf;
use std::{env, fs};

fn main() {
    println!("cargo:rerun-if-changed=rules.plan");
    let plan = fs::read("rules.plan").expect("rules.plan");
    let text = rizhavel::emit_to_vec(&plan, 1 << 20).unwrap_or_else(|refusal| panic!("rules.plan: {refusal}"));
    if text.odd_literals > 0 {
        println!("cargo:warning=rules.plan: integer literals outside their type's range: {}", text.odd_literals);
    }
    let out = PathBuf::from(env::var_os("OUT_DIR").unwrap()).join("isle.rs");
    fs::write(out, text.bytes).expect("isle.rs");
}
