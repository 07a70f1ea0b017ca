//! Finds libcarryfs.a: in CARRYFS_LIB_DIR, else in target/staticlib of the repository, where `tools/build` brings it up to date.
//! For the tests it also finds the reference's source (CARRYFS_SRC, else ../shared/docs/src from the top of the repository);
//! where CARRYFS_SRC isn't set and there is none, the tests that need it are left out.
use std::env;
use std::fs;
use std::path::{Path, PathBuf};
use std::process::{Command, exit};

const LIBRARY: &str = "libcarryfs.a";

fn fail(message: &str) -> ! {
    println!("cargo::error={message}");
    exit(1)
}

fn changed(path: &Path) {
    println!("cargo::rerun-if-changed={}", path.display());
}

/// The folder that a variable names, where it is set, and not empty.
fn given(name: &str) -> Option<PathBuf> {
    println!("cargo::rerun-if-env-changed={name}");
    let folder = env::var_os(name).filter(|value| !value.is_empty()).map(PathBuf::from)?;
    if folder.is_relative() {
        fail(&format!("{name} is {}: give the whole path, from / on", folder.display()));
    }
    Some(folder)
}

/// What the library is made of: not a crate's out, where every run of `rt` writes.
fn sources(top: &Path) {
    changed(&top.join("crates.txt"));
    for folder in fs::read_dir(top.join("crates")).into_iter().flatten().flatten() {
        for part in ["src", "specs", "proofs"] {
            let part = folder.path().join(part);
            // cargo takes one that isn't there as changed
            if part.is_dir() {
                changed(&part);
            }
        }
    }
}

fn library_given(folder: PathBuf) -> PathBuf {
    if !folder.join(LIBRARY).is_file() {
        fail(&format!("CARRYFS_LIB_DIR is {}, and there is no {LIBRARY} in it", folder.display()));
    }
    folder
}

fn library_of_repository(top: &Path) -> PathBuf {
    let folder = top.join("target/staticlib");
    let help = "build it with `tools/build staticlib carryfs` at the top of the repository, or name its folder in CARRYFS_LIB_DIR";
    if !top.join("crates.txt").is_file() {
        fail(&format!(
            "no {LIBRARY}: {} isn't the project's repository; name its folder in CARRYFS_LIB_DIR",
            top.display()
        ));
    }
    if Command::new("rt").arg("version").output().is_ok_and(|output| output.status.success()) {
        // rt lib in crates/carryfs_c, where something has changed
        match Command::new(top.join("tools/build")).args(["staticlib", "carryfs"]).current_dir(top).output() {
            Ok(output) if output.status.success() => {}
            Ok(output) => {
                eprint!("{}", String::from_utf8_lossy(&output.stderr));
                fail(&format!("`tools/build staticlib carryfs` failed in {}", top.display()))
            }
            Err(error) => fail(&format!("tools/build can't be run: {error}; {help}")),
        }
    } else if folder.join(LIBRARY).is_file() {
        println!("cargo::warning=there is no `rt` to bring {LIBRARY} up to date: it is taken as it is");
    }
    if !folder.join(LIBRARY).is_file() {
        fail(&format!("no {LIBRARY} in {}; {help}", folder.display()));
    }
    sources(top);
    folder
}

/// Writes OUT_DIR/reference.rs, the reference's three files as modules, and sets the cfg `reference`.
fn reference(top: &Path) {
    // MODULE is a name in the reference's text.
    println!("cargo::rustc-check-cfg=cfg(reference, MODULE)");
    let given = given("CARRYFS_SRC");
    let folder = given.clone().unwrap_or_else(|| top.join("../shared/docs/src")).join("ondisk/src");
    let mut text = String::new();
    for part in ["crc", "error", "format"] {
        let file = folder.join(part).with_extension("rs");
        if !file.is_file() {
            let Some(given) = given else { return };
            fail(&format!(
                "CARRYFS_SRC is {}, and {} isn't there: name the folder that holds ondisk/src of carry-fs/carryfs, or none",
                given.display(),
                file.display()
            ));
        }
        changed(&file);
        text += &format!("#[path = {:?}]\npub mod {part};\n", file);
    }
    let out = env::var_os("OUT_DIR").map(PathBuf::from).unwrap_or_default().join("reference.rs");
    match fs::write(&out, text) {
        Ok(()) => println!("cargo::rustc-cfg=reference"),
        Err(error) => fail(&format!("{} can't be written: {error}", out.display())),
    }
}

fn main() {
    let target = |what| env::var(format!("CARGO_CFG_TARGET_{what}")).unwrap_or_default();
    if target("OS") != "linux" || target("ARCH") != "x86_64" {
        fail("libcarryfs.a is for Linux on x86-64 alone, with SSE4.2 (x86-64-v2)");
    }
    changed(Path::new("build.rs"));
    let here = env::var_os("CARGO_MANIFEST_DIR").map(PathBuf::from).unwrap_or_default();
    let top = here.join("../..");
    let top = top.canonicalize().unwrap_or(top);
    let folder = match given("CARRYFS_LIB_DIR") {
        Some(folder) => library_given(folder),
        None => library_of_repository(&top),
    };
    changed(&folder.join(LIBRARY));
    println!("cargo::rustc-link-search=native={}", folder.display());
    println!("cargo::rustc-link-lib=static=carryfs");
    reference(&top);
}
