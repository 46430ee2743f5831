// Links the archive that `tools/build --library fabrwent` writes, or the one that FABRWENT_ARCHIVE_DIR has.
use std::env;

fn main() {
    println!("cargo:rerun-if-env-changed=FABRWENT_ARCHIVE_DIR");
    if env::var_os("CARGO_FEATURE_ARCHIVE").is_none() {
        return;
    }
    let here = env::var("CARGO_MANIFEST_DIR").expect("cargo sets the package's folder");
    let folder = env::var("FABRWENT_ARCHIVE_DIR").unwrap_or(format!("{here}/../target/staticlib"));
    println!("cargo:rustc-link-search=native={folder}");
    println!("cargo:rustc-link-lib=static=fabrwent");
    println!("cargo:rerun-if-changed={folder}/libfabrwent.a");
}
