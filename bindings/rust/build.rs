//! Finds or makes libalac.a, the proved library, and has it linked.

use std::env;
use std::fs;
use std::io::ErrorKind;
use std::path::{Path, PathBuf};
use std::process::{exit, Command};

fn main() {
    let folder = PathBuf::from(env::var_os("OUT_DIR").expect("cargo sets OUT_DIR"));
    if let Err(why) = put_archive(&folder.join("libalac.a")) {
        eprintln!("mosilapu: {why}");
        exit(1);
    }
    println!("cargo:rustc-link-search=native={}", folder.display());
    println!("cargo:rustc-link-lib=static=alac");
}

/// A ready archive where MOSILAPU_ARCHIVE names one; else it is proved and compiled here.
fn put_archive(archive: &Path) -> Result<(), String> {
    println!("cargo:rerun-if-env-changed=MOSILAPU_ARCHIVE");
    if let Some(ready) = env::var_os("MOSILAPU_ARCHIVE") {
        let ready = Path::new(&ready);
        println!("cargo:rerun-if-changed={}", ready.display());
        return copy(ready, archive);
    }
    let root = Path::new(env!("CARGO_MANIFEST_DIR")).join("../..");
    for source in ["crates.txt", "tools/native-staticlib", "tools/native-kit"] {
        println!("cargo:rerun-if-changed={}", root.join(source).display());
    }
    // A crate's out/ is what proving leaves there, and not a source.
    for folder in fs::read_dir(root.join("crates")).map_err(|why| format!("crates/ cannot be read: {why}"))?.flatten() {
        for part in ["src", "specs", "proofs"].map(|part| folder.path().join(part)).iter().filter(|part| part.exists()) {
            println!("cargo:rerun-if-changed={}", part.display());
        }
    }
    let target = |part: &str| env::var(format!("CARGO_CFG_TARGET_{part}")).unwrap_or_default();
    match (target("OS").as_str(), target("ARCH").as_str()) {
        ("linux", "x86_64") => {
            let crate_folder = root.join("crates/alac_c");
            run(Command::new("rt").arg("lib"), &crate_folder)?;
            copy(&crate_folder.join("out/libalac_c.a"), archive)
        }
        ("linux", "aarch64") => {
            println!(
                "cargo:warning=on Arm the library is compiled for development only: the product is the x86-64 archive"
            );
            run(Command::new("rt").arg("version"), &root)?;
            run(Command::new(root.join("tools/native-staticlib")).arg("alac_c").arg(archive), &root)
        }
        (os, arch) => Err(format!("there is no library for {os} on {arch}, only for Linux on x86-64 and Arm")),
    }
}

fn run(command: &mut Command, root: &Path) -> Result<(), String> {
    let name = command.get_program().to_string_lossy().into_owned();
    match command.current_dir(root).output() {
        Ok(done) if done.status.success() => Ok(()),
        Ok(done) => {
            let said = String::from_utf8_lossy(&done.stdout) + String::from_utf8_lossy(&done.stderr);
            Err(format!("'{name}' did not make the library:\n{said}"))
        }
        Err(why) if why.kind() == ErrorKind::NotFound => Err(format!(
            "the command '{name}' is not here: put the Rattle kit's bin folder on PATH, \
             or name a ready libalac.a in MOSILAPU_ARCHIVE"
        )),
        Err(why) => Err(format!("'{name}' could not be run: {why}")),
    }
}

fn copy(from: &Path, to: &Path) -> Result<(), String> {
    let copied = fs::copy(from, to);
    copied.map(|_| ()).map_err(|why| format!("the archive {} cannot be copied: {why}", from.display()))
}
