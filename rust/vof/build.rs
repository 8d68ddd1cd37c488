//! Links the proved archive: the file that VOF_LIBRARY names, or this repository's own. One of another
//! version is refused: its numbers would be misread.

use std::env::{current_dir, var, var_os};
use std::fs::write;
use std::path::{Path, PathBuf};
use std::process::Command;

/// VOF_VERSION of include/vof.h, as this crate reads it.
const VERSION: &str = "2";

/// The archive's version, or what kept it from being told: a program is linked with it, and run.
fn version(folder: &Path, name: &str) -> Result<String, String> {
    let out = PathBuf::from(var_os("OUT_DIR").unwrap());
    let (source, program) = (out.join("version.rs"), out.join("version"));
    let text = "extern \"C\" { fn vof_version() -> u64; }
        fn main() { println!(\"{}\", unsafe { vof_version() }); }";
    write(&source, text).map_err(|error| error.to_string())?;
    let mut rustc = Command::new(var_os("RUSTC").unwrap());
    rustc.arg("-L").arg(folder).arg(format!("-lstatic={name}"));
    rustc.arg(&source).arg("-o").arg(&program);
    for command in [&mut rustc, &mut Command::new(&program)] {
        let done = command.output().map_err(|error| error.to_string())?;
        if !done.status.success() {
            return Err(String::from_utf8_lossy(&done.stderr).into());
        }
        if !done.stdout.is_empty() {
            return Ok(String::from_utf8_lossy(&done.stdout).trim().into());
        }
    }
    Err("nothing is told".into())
}

fn main() {
    // Cargo runs a build script in its package's folder.
    let archive = match var_os("VOF_LIBRARY") {
        Some(file) => PathBuf::from(file),
        None => current_dir()
            .unwrap()
            .join("../../target/staticlib/libvof.a"),
    };
    if !archive.exists() {
        panic!("no {}: bin/archive writes it", archive.display());
    }
    let folder = archive.parent().unwrap();
    let stem = archive.file_stem().unwrap().to_string_lossy();
    let name = stem
        .strip_prefix("lib")
        .expect("an archive is named lib*.a");
    // Where programs cannot be run, nothing is compared.
    if var("HOST") == var("TARGET") {
        match version(folder, name) {
            Ok(told) if told == VERSION => {}
            Ok(told) => panic!(
                "{} has version {told}, and {VERSION} is wanted",
                archive.display()
            ),
            // The first version had no number.
            Err(why) => panic!(
                "{} tells no version, and {VERSION} is wanted: {why}",
                archive.display()
            ),
        }
    }
    println!("cargo:rerun-if-env-changed=VOF_LIBRARY");
    println!("cargo:rerun-if-changed={}", archive.display());
    println!("cargo:rustc-link-search=native={}", folder.display());
    println!("cargo:rustc-link-lib=static={name}");
}
