//! Links the archive of the proved entries: the file that L2CAP_CHANNELS_ARCHIVE names, or the one that `bindings/proved` writes. What is wrong with it is
//! one sentence, and not the linker's.

#[path = "build/archive.rs"]
mod archive;

use archive::{judge, judge_target, Machine, Target, HOW};
use std::path::{Path, PathBuf};
use std::{env, fs};

/// The folder in which cargo was called, which runs this in the package's. PWD is what a shell last said, and a program that calls cargo elsewhere needn't tell it: on
/// Linux cargo itself, the parent of this process, shows where it is.
fn called_in() -> Option<PathBuf> {
    #[cfg(target_os = "linux")]
    if let Ok(folder) = fs::read_link(format!("/proc/{}/cwd", std::os::unix::process::parent_id())) {
        return Some(folder);
    }
    env::var_os("PWD").map(PathBuf::from)
}

/// The file, and who says so. A relative path is looked for from the folder in which cargo was called first, then from here.
fn looked_for() -> Result<(PathBuf, &'static str), String> {
    println!("cargo::rerun-if-env-changed=L2CAP_CHANNELS_ARCHIVE");
    let package = Path::new(env!("CARGO_MANIFEST_DIR"));
    let Some(named) = env::var_os("L2CAP_CHANNELS_ARCHIVE").map(PathBuf::from) else {
        let root = package.ancestors().nth(2).unwrap_or(package);
        return Ok((root.join("target/staticlib/libentries.a"), "where `bindings/proved` writes it"));
    };
    if named.as_os_str().is_empty() {
        return Err("L2CAP_CHANNELS_ARCHIVE is empty: it names the archive's file, or isn't set at all".into());
    }
    let by = "which L2CAP_CHANNELS_ARCHIVE names";
    if named.is_absolute() {
        return Ok((named, by));
    }
    println!("cargo::rerun-if-env-changed=PWD");
    Ok(match called_in().map(|folder| folder.join(&named)) {
        Some(file) if file.is_file() || !package.join(&named).is_file() => (file, by),
        _ => (package.join(named), by),
    })
}

fn link() -> Result<(), String> {
    let told = |name: &str| env::var(name).unwrap_or_default();
    let (arch, pointer_width) = (told("CARGO_CFG_TARGET_ARCH"), told("CARGO_CFG_TARGET_POINTER_WIDTH"));
    let (os, vendor) = (told("CARGO_CFG_TARGET_OS"), told("CARGO_CFG_TARGET_VENDOR"));
    let target = Target { arch: &arch, pointer_width: &pointer_width, os: &os, vendor: &vendor };
    judge_target(&target)?;
    let (file, by) = looked_for()?;
    let name = file.display().to_string();
    println!("cargo::rerun-if-changed={name}");
    let octets = fs::read(&file).map_err(|error| format!("no archive can be read from {name}, {by} ({error}); {HOW}"))?;
    if judge(&name, &octets, &target)? == Machine::Unknown {
        println!("cargo::warning=whether {name} is for {arch} can't be told: an object of it is no ELF file");
    }
    // rustc wants a name of its own form: the archive is linked from a copy, whatever it is called.
    let copies = PathBuf::from(told("OUT_DIR"));
    fs::write(copies.join("libl2cap_channels.a"), octets)
        .map_err(|error| format!("{name} can't be copied to {} ({error})", copies.display()))?;
    println!("cargo::rustc-link-search=native={}", copies.display());
    println!("cargo::rustc-link-lib=static=l2cap_channels");
    Ok(())
}

fn main() {
    println!("cargo::rerun-if-changed=build/archive.rs");
    println!("cargo::rerun-if-changed=build.rs");
    if let Err(sentence) = link() {
        println!("cargo::error={sentence}");
    }
}
