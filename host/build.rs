//! Links the archive of the proved library, which host/archive makes, and makes its calls for Rust
//! from include/hac.h: what C declares, once more for Rust, and a safe call for each.

#[allow(dead_code)]
#[path = "../include/calls.rs"]
mod calls;

use calls::{Call, Header, Parameter, Shape};
use std::path::{Path, PathBuf};
use std::{env, fs};

fn main() {
    link();
    name_toolchain();
    if let Err(why) = make_calls() {
        println!("cargo::error={why}");
    }
}

fn folder(variable: &str) -> PathBuf {
    env::var_os(variable)
        .expect("cargo names its folders")
        .into()
}

fn link() {
    let folder = folder("CARGO_MANIFEST_DIR").join("../target/archive");
    let archive = folder.join("libarchive.a");
    println!("cargo::rerun-if-changed={}", archive.display());
    if archive.is_file() {
        println!("cargo::rustc-link-search=native={}", folder.display());
        println!("cargo::rustc-link-lib=static=archive");
    } else {
        println!("cargo::error=target/archive/libarchive.a is missing: run host/archive");
    }
}

/// Tells the command which toolchain proved and made the archive, as host/archive noted it.
fn name_toolchain() {
    let path = folder("CARGO_MANIFEST_DIR").join("../target/archive/toolchain");
    println!("cargo::rerun-if-changed={}", path.display());
    let toolchain = fs::read_to_string(&path).unwrap_or("unknown".into());
    println!("cargo::rustc-env=HAC_TOOLCHAIN={}", toolchain.trim());
}

/// Writes calls.rs, which src/call.rs takes in.
fn make_calls() -> Result<(), String> {
    let include = folder("CARGO_MANIFEST_DIR").join("../include");
    println!("cargo::rerun-if-changed={}", include.display());
    let path = include.join("hac.h");
    let text = fs::read_to_string(&path).map_err(|error| told(&path, error))?;
    let header = Header::of(&text)?;
    let made = folder("OUT_DIR").join("calls.rs");
    fs::write(&made, of_header(&header)).map_err(|error| told(&made, error))
}

fn told(path: &Path, error: std::io::Error) -> String {
    format!("{}: {error}", path.display())
}

fn of_header(header: &Header) -> String {
    let mut text = String::from("mod declared {\n    extern \"C\" {\n");
    for call in &header.calls {
        text.push_str(&declaration(call));
    }
    text.push_str("    }\n}\n");
    for call in &header.calls {
        text.push_str(&wrapper(call));
    }
    text.push_str("\n#[allow(dead_code)]\nmod numbers {\n");
    for (name, number) in &header.constants {
        text.push_str(&format!("    pub(crate) const {name}: usize = {number};\n"));
    }
    text.push_str("}\n\npub(crate) use numbers::*;\n");
    text
}

/// A name that Rust may keep for itself.
fn raw(parameter: &Parameter) -> String {
    format!("r#{}", parameter.name)
}

/// The call as C declares it.
fn declaration(call: &Call) -> String {
    let mut handed = String::new();
    for parameter in &call.parameters {
        let name = raw(parameter);
        handed.push_str(&match parameter.shape {
            Shape::Number(number) => format!("{name}: {}, ", number.rust),
            Shape::Flag => format!("{name}: bool, "),
            Shape::Slice { element, lent } => {
                let pointer = if lent { "*mut" } else { "*const" };
                format!(
                    "{name}: {pointer} {}, {}_length: usize, ",
                    element.rust, parameter.name
                )
            }
        });
    }
    format!(
        "        pub fn hac_{}({handed}answer: *mut u64, entries: usize) -> u8;\n",
        call.name
    )
}

/// The call made safe.
fn wrapper(call: &Call) -> String {
    let (mut taken, mut handed) = (String::new(), String::new());
    for parameter in &call.parameters {
        let name = raw(parameter);
        let kind = match parameter.shape {
            Shape::Number(number) => number.rust.to_string(),
            Shape::Flag => "bool".to_string(),
            Shape::Slice {
                element,
                lent: false,
            } => format!("&[{}]", element.rust),
            Shape::Slice {
                element,
                lent: true,
            } => format!("&mut [{}]", element.rust),
        };
        taken.push_str(&format!("{name}: {kind}, "));
        handed.push_str(&match parameter.shape {
            Shape::Number(_) | Shape::Flag => format!("{name}, "),
            Shape::Slice { lent: false, .. } => format!("{name}.as_ptr(), {name}.len(), "),
            Shape::Slice { lent: true, .. } => format!("{name}.as_mut_ptr(), {name}.len(), "),
        });
    }
    let (name, entries) = (&call.name, call.entries);
    format!(
        "
#[allow(clippy::too_many_arguments)]
pub(crate) fn {name}({taken}) -> Answer<{entries}> {{
    // SAFETY: as src/call.rs says of every call.
    answered(|answer, entries| unsafe {{ declared::hac_{name}({handed}answer, entries) }})
}}
"
    )
}
