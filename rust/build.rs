//! Makes the declarations of the calls of include/overlay.h, and says where the library is: in the folder that OVERLAY_LIB names, else where `./build capi`
//! puts it, else where the linker looks, as it is installed.

use std::env::var;
use std::fs::{read_to_string, write};
use std::path::Path;

/// A scalar of C in Rust's words.
fn scalar(word: &str) -> &'static str {
    match word {
        "double" => "f64",
        "int32_t" => "i32",
        "uint8_t" => "u8",
        "uint32_t" => "u32",
        "uint64_t" => "u64",
        "size_t" => "usize",
        _ => panic!("{word} is no scalar of the interface"),
    }
}

/// A parameter of C, as `const int32_t *cells` or `uint32_t sizes[6]`: a pointer to fixed cells is a pointer to the first.
fn parameter(text: &str) -> String {
    let (pointer, text) = text.strip_prefix("const ").map_or(("*mut ", text), |rest| ("*const ", rest));
    let (word, name) = text.split_once(' ').expect("a type and a name");
    let bare = name.trim_start_matches('*').split('[').next().expect("a name");
    format!("{bare}: {}{}", if bare == name { "" } else { pointer }, scalar(word))
}

/// What the header marks as a call: every prototype behind OVERLAY_CHECKED.
fn declarations(header: &str) -> String {
    let code: String = header.split("/*").map(|part| part.rsplit("*/").next().expect("a part")).collect();
    let mut made = String::from("extern \"C\" {\n");
    for text in code.split("OVERLAY_CHECKED ").skip(1).filter_map(|text| text.split_once(");")) {
        let Some((start, list)) = text.0.split_once('(').filter(|_| !text.0.starts_with('_')) else {
            continue;
        };
        let (result, name) = start.split_once(' ').expect("a type and a function");
        let list = list.split_whitespace().collect::<Vec<_>>().join(" ");
        let parameters = list.split(", ").filter(|part| *part != "void").map(parameter).collect::<Vec<_>>();
        made += &format!("    pub fn {name}({}) -> {};\n", parameters.join(", "), scalar(result));
    }
    made + "}\n"
}

fn main() {
    let here = var("CARGO_MANIFEST_DIR").expect("cargo sets it");
    let header = format!("{here}/../include/overlay.h");
    println!("cargo:rerun-if-changed={header}");
    let text = read_to_string(&header).unwrap_or_else(|error| panic!("{header}: {error}"));
    let made = format!("{}/sys.rs", var("OUT_DIR").expect("cargo sets it"));
    write(&made, declarations(&text)).unwrap_or_else(|error| panic!("{made}: {error}"));

    println!("cargo:rerun-if-env-changed=OVERLAY_LIB");
    let folder = var("OVERLAY_LIB").unwrap_or_else(|_| format!("{here}/../target/staticlib"));
    for name in ["capi", "overlay"] {
        let library = format!("{folder}/lib{name}.a");
        println!("cargo:rerun-if-changed={library}");
        if Path::new(&library).exists() {
            println!("cargo:rustc-link-search=native={folder}");
            println!("cargo:rustc-link-lib=static={name}");
            return;
        }
    }
    println!("cargo:rustc-link-lib=overlay");
}
