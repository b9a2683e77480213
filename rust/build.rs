//! Tells cargo where libjilgyemot.a is.

use std::{env, path};

fn main() {
    let named = env::var_os("JILGYEMOT_LIB_DIR").filter(|folder| !folder.is_empty());
    let folder = named.unwrap_or_else(|| "../target/staticlib".into());
    // Cargo runs this in the package's folder, but the linker in another one.
    let folder = path::absolute(folder).expect("the package's folder");
    println!("cargo::rerun-if-env-changed=JILGYEMOT_LIB_DIR");
    println!("cargo::rerun-if-changed={}", folder.join("libjilgyemot.a").display());
    println!("cargo::rustc-link-search=native={}", folder.display());
}
