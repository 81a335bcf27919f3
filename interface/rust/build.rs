//! Where the archive stands: the folder in `OCCOV_ARCHIVE`, or that where `bin/build-proved exports` puts it.
fn main() {
    let own = std::env::var("CARGO_MANIFEST_DIR").expect("cargo names the package's folder");
    let archive = std::env::var("OCCOV_ARCHIVE").unwrap_or(format!("{own}/../../target/staticlib"));
    println!("cargo:rerun-if-env-changed=OCCOV_ARCHIVE");
    println!("cargo:rerun-if-changed={archive}/libexports.a");
    println!("cargo:rustc-link-search=native={archive}");
}
