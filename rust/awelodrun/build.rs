//! Links the static library: the one in the folder that AWELODRUN_LIB_DIR names, or one that is built from this repository.

use std::env;
use std::fs;
use std::path::{Path, PathBuf};
use std::process::{exit, Command, Stdio};

/// The name of the archive, in whatever folder it is.
const ARCHIVE: &str = "libawelodrun.a";

/// What the archive is built from, in the repository, beside the sources of the crates.
const SOURCES: [&str; 3] = ["crates.txt", "tools/build", "tools/native-archive"];

/// The folders of a crate that hold sources. Beside them stands out, which every check changes.
const PARTS: [&str; 3] = ["src", "specs", "proofs"];

/// Runs a command of the repository, whose messages are shown, and gives what it writes.
fn said(command: &mut Command) -> Result<String, String> {
    let name = command.get_program().to_string_lossy().into_owned();
    let output = command.stdin(Stdio::null()).stderr(Stdio::inherit()).output();
    let output = output.map_err(|error| format!("{name} does not start: {error}"))?;
    if !output.status.success() {
        return Err(format!("{name} failed: {}", output.status));
    }
    Ok(String::from_utf8_lossy(&output.stdout).into_owned())
}

/// The archive for x86-64, which is the one that is delivered.
fn delivered(root: &Path) -> Result<PathBuf, String> {
    let archive = root.join("target/staticlib").join(ARCHIVE);
    said(Command::new(root.join("tools/build")).args(["staticlib", "awelodrun"]))?;
    Ok(archive)
}

/// The archive for this machine, where it is another one. The tool's last line is its path.
fn native(root: &Path) -> Result<PathBuf, String> {
    let said = said(Command::new(root.join("tools/native-archive")).arg("awelodrun"))?;
    said.lines().last().map(PathBuf::from).ok_or("tools/native-archive wrote no path".into())
}

/// All that the archive is built from. Cargo looks through whole folders.
fn sources(root: &Path) -> Vec<PathBuf> {
    let crates = fs::read_dir(root.join("crates")).into_iter().flatten().flatten();
    let parts = crates.flat_map(|entry| PARTS.map(|part| entry.path().join(part))).filter(|part| part.is_dir());
    SOURCES.iter().map(|source| root.join(source)).chain(parts).collect()
}

/// Builds the archive for the machine that the crate is compiled for.
fn built() -> Result<PathBuf, String> {
    let package = PathBuf::from(env::var_os("CARGO_MANIFEST_DIR").ok_or("cargo names no folder of the package")?);
    let root = package.join("../..");
    if !root.join("tools/native-archive").is_file() {
        return Err("this crate does not stand in the repository that the archive is built from".into());
    }
    sources(&root).iter().for_each(|source| println!("cargo:rerun-if-changed={}", source.display()));
    let target = env::var("CARGO_CFG_TARGET_ARCH").unwrap_or_default();
    match target.as_str() {
        "x86_64" => delivered(&root),
        _ if target == env::consts::ARCH => native(&root),
        _ => Err(format!("an archive for {target} is not built on {}", env::consts::ARCH)),
    }
}

/// The archive that is linked.
fn archive() -> Result<PathBuf, String> {
    match env::var_os("AWELODRUN_LIB_DIR").filter(|folder| !folder.is_empty()) {
        Some(folder) if Path::new(&folder).is_absolute() => Ok(Path::new(&folder).join(ARCHIVE)),
        Some(folder) => Err(format!("AWELODRUN_LIB_DIR is {folder:?}, and has to be a whole path, from / on")),
        None => built(),
    }
}

fn main() {
    println!("cargo:rerun-if-changed=build.rs");
    println!("cargo:rerun-if-env-changed=AWELODRUN_LIB_DIR");
    let found = archive().and_then(|archive| match archive.parent() {
        Some(folder) if archive.is_file() => {
            println!("cargo:rerun-if-changed={}", archive.display());
            Ok(folder.to_path_buf())
        }
        _ => Err(format!("{}: there is no such file", archive.display())),
    });
    match found {
        Ok(folder) => {
            println!("cargo:rustc-link-search=native={}", folder.display());
            println!("cargo:rustc-link-lib=static=awelodrun");
        }
        Err(message) => {
            eprintln!("the static library of awelodrun: {message}");
            eprintln!(
                "set AWELODRUN_LIB_DIR to a folder with {ARCHIVE}, or build in the repository with rt on the path"
            );
            exit(1);
        }
    }
}
