//! Links libmc146818.a, or the archive that MC146818_ARCHIVE names. A relative path starts at the repository root.

use std::env;
use std::path::Path;

const DEFAULT: &str = "target/staticlib/libmc146818.a";

fn main() {
    println!("cargo:rerun-if-changed=build.rs");
    println!("cargo:rerun-if-env-changed=MC146818_ARCHIVE");
    let manifest = env::var("CARGO_MANIFEST_DIR").expect("cargo names the package's folder");
    let root = Path::new(&manifest).join("../..");
    let archive = root.join(env::var("MC146818_ARCHIVE").unwrap_or_else(|_| DEFAULT.to_owned()));
    println!("cargo:rerun-if-changed={}", archive.display());
    let archive = archive.canonicalize().unwrap_or_else(|error| panic!("{}: {error}", archive.display()));
    let folder = archive.parent().expect("a file stands in a folder");
    let name = archive.file_name().and_then(|name| name.to_str()).expect("a name in UTF-8");
    println!("cargo:rustc-link-search=native={}", folder.display());
    println!("cargo:rustc-link-lib=static:+verbatim={name}");
}
