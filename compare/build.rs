//! Links the library under comparison, libmulgreddi.a, from the folder that
//! the environment variable MULGREDDI_LIB names, once the declarations that it
//! is called by are those of its header.

use std::path::Path;
use std::{env, fs};

mod declarations;

fn main() {
    println!("cargo:rerun-if-env-changed=MULGREDDI_LIB");
    let folder = env::var("MULGREDDI_LIB")
        .expect("MULGREDDI_LIB must name the folder that holds libmulgreddi.a");
    println!("cargo:rerun-if-changed={folder}/libmulgreddi.a");
    println!("cargo:rustc-link-search=native={folder}");
    println!("cargo:rustc-link-lib=static=mulgreddi");

    println!("cargo:rerun-if-env-changed=CC");
    println!("cargo:rerun-if-changed=build.rs");
    println!("cargo:rerun-if-changed=declarations.rs");
    println!("cargo:rerun-if-changed=src/library.rs");
    println!("cargo:rerun-if-changed=../include/mulgreddi.h");
    let rust = fs::read_to_string("src/library.rs").unwrap();
    let header = fs::read_to_string("../include/mulgreddi.h").unwrap();
    let out = env::var("OUT_DIR").unwrap();
    let file = Path::new(&out).join("declarations.c");
    match declarations::hold(&rust, &header, "../include", &file) {
        Ok(told) => println!("cargo:rustc-env=DECLARATIONS={told}"),
        Err(fault) => panic!("compare/src/library.rs is not as include/mulgreddi.h says: {fault}"),
    }
}
