//! Writes the modules of the Rust being ported, each by the absolute path of its file, for
//! src/lib.rs to include, and hands on what the drivers say about their own build.

use std::path::{Path, PathBuf};
use std::process::Command;
use std::{env, fs};

const AD: [&str; 8] = [
    "blocklist",
    "constant",
    "dual",
    "expr",
    "forward",
    "node",
    "scalar",
    "tape",
];
const UTILS: [&str; 1] = ["errors"];

fn main() {
    let sources = PathBuf::from(variable("INGTHABOR_RUST")).join("src");
    let text = folder(&sources, "ad", &AD) + &folder(&sources, "utils", &UTILS);
    let written = PathBuf::from(variable("OUT_DIR")).join("rust.rs");
    fs::write(written, text).expect("OUT_DIR can be written");

    println!("cargo:rerun-if-env-changed=INGTHABOR_RUST");
    println!("cargo:rerun-if-changed=build.rs");
    println!("cargo:rustc-env=ORACLE_RUSTC={}", compiler());
    println!("cargo:rustc-env=ORACLE_PROFILE={}", variable("PROFILE"));
}

fn variable(name: &str) -> String {
    env::var(name).unwrap_or_else(|_| panic!("{name} is not set; build through oracle/run"))
}

/// One module for a folder, with a public module for each of its files.
fn folder(sources: &Path, name: &str, files: &[&str]) -> String {
    let modules: String = files
        .iter()
        .map(|file| module(&sources.join(name).join(format!("{file}.rs")), file))
        .collect();
    format!("pub mod {name} {{\n{modules}}}\n")
}

fn module(path: &Path, name: &str) -> String {
    let path = path.to_str().expect("the path of the Rust is UTF-8");
    format!("#[path = {path:?}]\npub mod {name};\n")
}

/// What the compiler says of itself, `rustc 1.2.3 (hash date)`.
fn compiler() -> String {
    let said = Command::new(variable("RUSTC"))
        .arg("--version")
        .output()
        .expect("rustc answers --version");
    String::from_utf8_lossy(&said.stdout).trim().to_string()
}
