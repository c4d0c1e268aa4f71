//! Finds the proved library: in the folder that `DL_ARCHIVES` names, or as `rt`, the toolchain's command, proves and builds it.

use std::path::{Path, PathBuf};
use std::process::Command;
use std::{env, fs};

/// The archives: the loader's, and that of its heap.
const ARCHIVES: [&str; 2] = ["dl_loader_c", "libc_c"];

const ADVICE: &str = "set DL_ARCHIVES to the absolute path of the folder that has both archives";

fn main() {
    println!("cargo:rerun-if-env-changed=DL_ARCHIVES");
    let folders = match env::var_os("DL_ARCHIVES") {
        Some(folder) => vec![PathBuf::from(folder)],
        None => built_by_rt(),
    };
    for name in ARCHIVES {
        let file = format!("lib{name}.a");
        let folder = folders.iter().find(|folder| folder.join(&file).exists());
        let folder = folder.unwrap_or_else(|| panic!("there is no {file} in {folders:?}: {ADVICE}"));
        let archive = fs::canonicalize(folder.join(&file)).expect("it is there");
        println!("cargo:rerun-if-changed={}", archive.display());
        println!("cargo:rustc-link-search=native={}", archive.parent().expect("it has a folder").display());
        println!("cargo:rustc-link-lib=static={name}");
    }
}

/// Has `rt` prove and build the library: the folders of both archives.
fn built_by_rt() -> Vec<PathBuf> {
    let top = Path::new(env!("CARGO_MANIFEST_DIR")).parent().expect("the crate is in a clone");
    watch_sources(top);
    let library = top.join("crates/dl_loader_c");
    said_by(Command::new("rt").arg("lib").current_dir(&library));
    let page = said_by(Command::new("rt").arg("doc"));
    let kit = Path::new(page.trim()).parent().expect("the page is in a folder");
    vec![library.join("out"), kit.join("c")]
}

/// Has cargo build again once a source of the library changes: one of its own, or of a crate that its line of crates.txt names.
fn watch_sources(top: &Path) {
    let list = top.join("crates.txt");
    println!("cargo:rerun-if-changed={}", list.display());
    let lines = fs::read_to_string(&list).expect("a clone has the list of its crates");
    let line = lines.lines().find(|line| line.starts_with("dl_loader_c ")).expect("the list has the library");
    for name in line.split([' ', ':']) {
        let sources = top.join("crates").join(name).join("src");
        if !name.is_empty() && sources.exists() {
            println!("cargo:rerun-if-changed={}", sources.display());
        }
    }
}

/// What a command prints, if it ends well.
fn said_by(command: &mut Command) -> String {
    let output = command.output().unwrap_or_else(|fault| panic!("{command:?}: {fault}; or {ADVICE}"));
    assert!(output.status.success(), "{command:?}: {}", String::from_utf8_lossy(&output.stderr));
    String::from_utf8_lossy(&output.stdout).into_owned()
}
