//! Links libkmer.a, from target/staticlib at the repository's root or from the folder KMER_LIB_DIR. The build
//! script of tests/ and, by its path, of host/, which both stand next to target/.

use std::env;
use std::path::PathBuf;

fn main() {
    println!("cargo:rerun-if-env-changed=KMER_LIB_DIR");
    let root = PathBuf::from(env::var_os("CARGO_MANIFEST_DIR").expect("cargo sets the package's folder"));
    let folder = match env::var_os("KMER_LIB_DIR") {
        Some(folder) => PathBuf::from(folder),
        None => root.join("../target/staticlib"),
    };
    let library = folder.join("libkmer.a");
    if !library.is_file() {
        panic!("{} is not there: run `tools/build kmer` first", library.display());
    }
    println!("cargo:rerun-if-changed={}", library.display());
    println!("cargo:rustc-link-search=native={}", folder.display());
    println!("cargo:rustc-link-lib=static=kmer");
}
