// Links libuskelzar.a, the printer's functions, and with the feature `office` libuskelzar-office.a, the others, from ../target/staticlib or the folder that USKELZAR_LIB names. Where one is missing, says
// so in words and stops: the linker would say it in its own.
use std::env;
use std::path::{Path, PathBuf};

/// The archives that are asked for, by their names at the linker.
fn archives() -> impl Iterator<Item = &'static str> {
    let office = env::var_os("CARGO_FEATURE_OFFICE").map(|_| "uskelzar-office");
    ["uskelzar"].into_iter().chain(office)
}

/// Where it is not this, the archives can't be linked: they hold x86-64 code for Linux.
const TARGET: [(&str, &str); 2] = [("CARGO_CFG_TARGET_ARCH", "x86_64"), ("CARGO_CFG_TARGET_OS", "linux")];

fn stop(words: &str) -> ! {
    eprintln!("uskelzar: {words}");
    std::process::exit(1);
}

/// Checking, clippy and documentation link nothing, and are done without the archive too: they set this.
fn is_asked() -> bool {
    println!("cargo:rerun-if-env-changed=USKELZAR_UNLINKED");
    env::var_os("USKELZAR_UNLINKED").is_none()
}

fn check_target() {
    for (name, wanted) in TARGET {
        let target = env::var(name).unwrap_or_default();
        if target != wanted {
            stop(&format!("the archive is for x86-64 and Linux, and {name} is {target:?}: build with --target x86_64-unknown-linux-gnu (host/x86-64.sh shows how, with an emulator)"));
        }
    }
}

fn check_archive(archive: &Path) {
    let advice = match env::var_os("USKELZAR_LIB") {
        Some(_) => "USKELZAR_LIB names that folder: name the one that has it".to_string(),
        None => "write it with `tools/archives` in the repository, or name the folder of one that is there, such as a release's lib, in USKELZAR_LIB".to_string(),
    };
    if !archive.is_file() {
        stop(&format!("there is no {}: {advice}", archive.display()));
    }
    let bytes = std::fs::read(archive).unwrap_or_else(|error| stop(&format!("{}: {error}", archive.display())));
    if !bytes.starts_with(b"!<arch>\n") {
        stop(&format!("{} is no archive: {advice}", archive.display()));
    }
}

fn main() {
    let beside = PathBuf::from(env!("CARGO_MANIFEST_DIR")).join("../target/staticlib");
    let folder = env::var_os("USKELZAR_LIB").map_or(beside, PathBuf::from);
    println!("cargo:rerun-if-env-changed=USKELZAR_LIB");
    let asked = is_asked();
    if asked {
        check_target();
    }
    println!("cargo:rustc-link-search=native={}", folder.display());
    for name in archives() {
        let archive = folder.join(format!("lib{name}.a"));
        println!("cargo:rerun-if-changed={}", archive.display());
        if asked {
            check_archive(&archive);
        }
        println!("cargo:rustc-link-lib=static={name}");
    }
}
