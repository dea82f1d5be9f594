//! Finds the archive `libdoorvervain.a`: in DOORVERVAIN_DIR (a prefix, or the folder itself), by pkg-config, where
//! `make install` put it beside these sources, or in the repository's out/lib or out/unproved/lib.
use std::env;
use std::fs;
use std::path::{Path, PathBuf};
use std::process::Command;

const ARCHIVE: &str = "libdoorvervain.a";

/// The folders that DOORVERVAIN_DIR names.
fn named() -> Vec<PathBuf> {
    let named = env::var_os("DOORVERVAIN_DIR").map(PathBuf::from);
    named.map_or(Vec::new(), |it| vec![it.join("lib"), it])
}

fn reported_by_pkg_config() -> Option<PathBuf> {
    let words = ["--variable=libdir", "doorvervain"];
    let said = Command::new("pkg-config").args(words).output().ok()?;
    let folder = String::from_utf8(said.stdout).ok()?.trim().to_owned();
    (said.status.success() && !folder.is_empty()).then(|| PathBuf::from(folder))
}

/// Where the archive lies from here: in a prefix that `make install` filled, and in the repository, where `make` left the proved
/// library or `make UNPROVED=1` the other.
fn near() -> Vec<PathBuf> {
    let here = env::var_os("CARGO_MANIFEST_DIR").map_or_else(PathBuf::new, PathBuf::from);
    ["../../../../lib", "../../out/lib", "../../out/unproved/lib"]
        .map(|it| here.join(it))
        .to_vec()
}

fn has_archive(folder: &Path) -> bool {
    folder.join(ARCHIVE).is_file()
}

/// What the archive says that it was built from (packaging/build.c).
fn build_of(archive: &Path) -> Option<String> {
    const BEFORE: &[u8] = b"doorvervain build: ";
    let bytes = fs::read(archive).ok()?;
    let mut places = bytes.windows(BEFORE.len()).enumerate();
    places.find_map(|(at, it)| {
        let rest = &bytes[at + BEFORE.len()..];
        let line = rest
            .split(|&byte| byte == 0)
            .next()
            .filter(|line| it == BEFORE && !line.is_empty())?;
        String::from_utf8(line.to_vec()).ok()
    })
}

fn main() {
    println!("cargo:rerun-if-env-changed=DOORVERVAIN_DIR");
    println!("cargo:rerun-if-env-changed=PKG_CONFIG_PATH");
    println!("cargo:rerun-if-changed=build.rs");
    let mut folders = named().into_iter().chain(reported_by_pkg_config()).chain(near());
    let folder = folders.find(|it| has_archive(it)).unwrap_or_else(|| {
        panic!("{ARCHIVE} is not found: `make install` puts it into a prefix, and DOORVERVAIN_DIR names one")
    });
    println!("cargo:rerun-if-changed={}", folder.join(ARCHIVE).display());
    let build = build_of(&folder.join(ARCHIVE)).unwrap_or_else(|| "unknown".to_owned());
    println!("cargo:rustc-env=DOORVERVAIN_BUILD={build}");
    println!("cargo:rustc-link-search=native={}", folder.display());
    println!("cargo:rustc-link-lib=static=doorvervain");
}
