//! Links libsafepoint_wait.a, libsafepoint.a and the archive by which that takes memory.
//!
//! SAFEPOINT_ARCHIVES names these archives, separated by spaces. Where it isn't set, pkg-config names what is installed
//! as the package `safepoint`, and PKG_CONFIG may name another command for it.
use std::env;
use std::path::Path;
use std::process::Command;

fn main() {
    for name in [
        "SAFEPOINT_ARCHIVES",
        "PKG_CONFIG",
        "PKG_CONFIG_PATH",
        "PKG_CONFIG_LIBDIR",
        "PKG_CONFIG_SYSROOT_DIR",
    ] {
        println!("cargo:rerun-if-env-changed={name}");
    }
    match env::var("SAFEPOINT_ARCHIVES") {
        Ok(archives) => archives
            .split_whitespace()
            .for_each(|archive| link_archive(Path::new(archive))),
        Err(_) => match installed() {
            Ok(words) => link_installed(&words),
            // (`cargo check` and `cargo doc` link nothing)
            Err(why) => {
                println!("cargo:warning=no program links: SAFEPOINT_ARCHIVES isn't set, and {why}")
            }
        },
    }
}

fn link_archive(archive: &Path) {
    if let Some(folder) = archive.parent() {
        println!("cargo:rustc-link-search=native={}", folder.display());
    }
    let name = archive
        .file_stem()
        .and_then(|name| name.to_str())
        .unwrap_or_default();
    println!(
        "cargo:rustc-link-lib=static={}",
        name.strip_prefix("lib").unwrap_or(name)
    );
    println!("cargo:rerun-if-changed={}", archive.display());
}

/// The words by which a linker finds the installed package, or why there are none.
fn installed() -> Result<String, String> {
    let command = env::var("PKG_CONFIG").unwrap_or_else(|_| "pkg-config".to_string());
    let ran = Command::new(&command)
        .args(["--libs", "safepoint"])
        .output();
    let ran = ran.map_err(|why| format!("{command} doesn't run: {why}"))?;
    if !ran.status.success() {
        return Err(format!("{command} finds no package safepoint"));
    }
    String::from_utf8(ran.stdout).map_err(|_| format!("{command} names a folder that isn't UTF-8"))
}

/// Links each `-lNAME`: as an archive where one of the folders, which are named before it, has it.
fn link_installed(words: &str) {
    let mut folders = Vec::new();
    for word in words.split_whitespace() {
        if let Some(folder) = word.strip_prefix("-L") {
            println!("cargo:rustc-link-search=native={folder}");
            folders.push(Path::new(folder));
        } else if let Some(name) = word.strip_prefix("-l") {
            let archive = format!("lib{name}.a");
            match folders
                .iter()
                .map(|folder| folder.join(&archive))
                .find(|path| path.is_file())
            {
                Some(path) => {
                    println!("cargo:rustc-link-lib=static={name}");
                    println!("cargo:rerun-if-changed={}", path.display());
                }
                None => println!("cargo:rustc-link-lib={name}"),
            }
        }
    }
}
