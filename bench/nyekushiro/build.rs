//! Links the archive of the proved services. NYEKUSHIRO_ARCHIVE_DIR says where it stands, as PREFIX/lib after `tools/install PREFIX`;
//! target/staticlib if it is not set.

use std::path::PathBuf;

fn main() {
    println!("cargo:rerun-if-env-changed=NYEKUSHIRO_ARCHIVE_DIR");
    let dir = std::env::var_os("NYEKUSHIRO_ARCHIVE_DIR")
        .map_or_else(|| PathBuf::from(env!("CARGO_MANIFEST_DIR")).join("../../target/staticlib"), PathBuf::from);
    let archive = dir.join("libnyekushiro.a");
    println!("cargo:rerun-if-changed={}", archive.display());
    if !archive.is_file() {
        eprintln!(
            "no archive at {}: run `tools/archive`, or set NYEKUSHIRO_ARCHIVE_DIR to the folder that has libnyekushiro.a, \
             as PREFIX/lib after `tools/install PREFIX`",
            archive.display()
        );
        std::process::exit(1);
    }
    println!("cargo:rustc-link-search=native={}", dir.display());
    println!("cargo:rustc-link-lib=static=nyekushiro");
}
