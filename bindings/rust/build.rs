//! Links the proved archive, `libgelvanh.a`, and with the feature `line` also `libgelvanh_line.a`: those in the folder that `GELVANH_LIB` names,
//! else those for the target's processor, of this crate's `lib` in a release, or of `bindings/prebuilt` in the sources.
use std::env;
use std::path::{Path, PathBuf};

fn variable(name: &str) -> String {
    env::var(name).unwrap_or_default()
}

/// The processors whose archives run on the target, the best one first: x86-64-v2 if the compiler may use its instructions, as with
/// `-C target-cpu=x86-64-v2`. That has `cmpxchg16b` too, which Rust 1.63 doesn't report.
fn processors() -> Vec<String> {
    let arch = variable("CARGO_CFG_TARGET_ARCH");
    if arch != "x86_64" {
        return vec![arch];
    }
    let features = variable("CARGO_CFG_TARGET_FEATURE");
    let has = |name: &&str| features.split(',').any(|feature| feature == *name);
    let is_v2 = ["popcnt", "sse4.1", "sse4.2", "ssse3"].iter().all(has);
    let names = if is_v2 { vec!["x86-64-v2", "x86-64"] } else { vec!["x86-64"] };
    names.into_iter().map(String::from).collect()
}

fn has_archive(folder: &Path) -> bool {
    folder.join("libgelvanh.a").exists()
}

/// The folder of the archive, or that in which it is missing.
fn folder() -> PathBuf {
    if let Ok(named) = env::var("GELVANH_LIB") {
        return named.into();
    }
    let own = PathBuf::from(variable("CARGO_MANIFEST_DIR"));
    let released = own.join("lib");
    let top = if released.exists() { released } else { own.join("../prebuilt") };
    let folders: Vec<PathBuf> = processors().iter().map(|name| top.join(name)).collect();
    folders.iter().find(|folder| has_archive(folder)).unwrap_or(&folders[0]).clone()
}

/// Links an archive of a folder.
fn link(folder: &Path, name: &str) {
    let archive = format!("lib{name}.a");
    println!("cargo:rerun-if-changed={}/{archive}", folder.display());
    if !folder.join(&archive).exists() {
        let folder = folder.display();
        println!("cargo:warning={folder} has no {archive}, so nothing can be linked: bindings/release makes it, and GELVANH_LIB names another folder");
    }
    println!("cargo:rustc-link-lib=static={name}");
}

fn main() {
    let folder = folder();
    println!("cargo:rerun-if-env-changed=GELVANH_LIB");
    println!("cargo:rustc-link-search=native={}", folder.display());
    link(&folder, "gelvanh");
    if env::var_os("CARGO_FEATURE_LINE").is_some() {
        link(&folder, "gelvanh_line");
    }
}
