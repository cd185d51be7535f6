//! Links the library for C: the one in lib/TARGET, which a release has, or in the folder that
//! `DATA_ENCODING_DIR` names.
//!
//! Without one, `cargo check` and `cargo doc` work. A build then refers to a library with the name
//! of the missing target, so that only linking fails.

use std::path::{Path, PathBuf};
use std::{env, fs, process};

const ARCHIVE: &str = "libdata_encoding.a";

/// The targets that have a library in `lib`.
fn targets(lib: &Path) -> Vec<String> {
    let mut names: Vec<String> = fs::read_dir(lib)
        .into_iter()
        .flatten()
        .filter_map(|entry| entry.ok()?.file_name().into_string().ok())
        .collect();
    names.sort();
    names
}

/// The processor of the first object of an archive, by the header that each object has.
fn processor(archive: &Path) -> Option<&'static str> {
    let bytes = fs::read(archive).ok()?;
    let start = bytes.windows(4).position(|four| four == b"\x7fELF")?;
    match *bytes.get(start + 18..start + 20)? {
        [62, 0] => Some("x86_64"),
        [183, 0] => Some("aarch64"),
        _ => None,
    }
}

fn link(folder: &Path) {
    println!("cargo:rerun-if-changed={}", folder.join(ARCHIVE).display());
    println!("cargo:rustc-link-search=native={}", folder.display());
    println!("cargo:rustc-link-lib=static=data_encoding");
}

fn main() {
    println!("cargo:rerun-if-env-changed=DATA_ENCODING_DIR");
    let lib = Path::new(&env::var_os("CARGO_MANIFEST_DIR").unwrap()).join("lib");
    if lib.is_dir() {
        println!("cargo:rerun-if-changed=lib");
    }
    let target = env::var("TARGET").unwrap();
    if let Some(folder) = env::var_os("DATA_ENCODING_DIR").map(PathBuf::from) {
        if !folder.is_absolute() || !folder.join(ARCHIVE).is_file() {
            eprintln!(
                "DATA_ENCODING_DIR has to be the absolute path of a folder with {ARCHIVE}: the \
                 files data-encoding-c of a release have one, and \
                 `crates/data_encoding_c/build.sh FOLDER` makes one from the sources of Bamsturk"
            );
            process::exit(1);
        }
        let found = processor(&folder.join(ARCHIVE));
        if found != env::var("CARGO_CFG_TARGET_ARCH").ok().as_deref() {
            eprintln!(
                "the library of DATA_ENCODING_DIR is for {}, and the target is {target}",
                found.unwrap_or("another processor")
            );
            process::exit(1);
        }
        link(&folder);
    } else if lib.join(&target).join(ARCHIVE).is_file() {
        link(&lib.join(&target));
    } else {
        println!(
            "cargo:warning=no library for {target}: this package has those for [{}], and \
             DATA_ENCODING_DIR may name the folder of another",
            targets(&lib).join(", ")
        );
        println!("cargo:rustc-link-lib=static=data_encoding-for-{target}");
    }
}
