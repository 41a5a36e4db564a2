//! With the feature `engine`, links the proved library's seven archives.
//! Without it there is nothing to do.

use std::env;
use std::path::{Path, PathBuf};
use std::process;

/// Names the folder of the archives, if it is not where `scripts/proved` puts
/// them.
const FOLDER: &str = "SOLKVERVA_LIB";
/// An archive `libNAME.a` for each.
const NAMES: [&str; 7] = [
    "c_questions",
    "c_message_bytes",
    "c_message_values",
    "c_message_long",
    "c_who",
    "c_long",
    "c_control",
];

fn main() {
    println!("cargo:rerun-if-changed=build.rs");
    println!("cargo:rerun-if-env-changed={FOLDER}");
    if env::var_os("CARGO_FEATURE_ENGINE").is_some() {
        if let Err(problem) = link() {
            eprintln!("{problem}");
            process::exit(1);
        }
    }
}

fn link() -> Result<(), String> {
    let processor = env::var("CARGO_CFG_TARGET_ARCH").unwrap_or_default();
    if processor != "x86_64" {
        return Err(format!(
            "the proved library is for x86-64, and this build is for {processor}: use the settings that \
             scripts/host-env prints, and --target \"$HOST_TARGET\""
        ));
    }
    let folder = archive_folder();
    println!("cargo:rustc-link-search=native={}", folder.display());
    for name in NAMES {
        let archive = folder.join(format!("lib{name}.a"));
        println!("cargo:rerun-if-changed={}", archive.display());
        if !archive.exists() {
            return Err(format!(
                "the proved library is missing: {} is not there. Make it with 'scripts/proved library' at the top of \
                 the repository, or name its folder in {FOLDER}",
                archive.display()
            ));
        }
        println!("cargo:rustc-link-lib=static={name}");
    }
    Ok(())
}

fn archive_folder() -> PathBuf {
    match env::var_os(FOLDER) {
        Some(folder) => PathBuf::from(folder),
        None => {
            let package = env::var_os("CARGO_MANIFEST_DIR").unwrap_or_default();
            Path::new(&package).join("../target/built/target/staticlib")
        }
    }
}
