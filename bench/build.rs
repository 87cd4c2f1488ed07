//! Links the static library of the proved hub, where `bench/run` has put it.

use std::path::Path;

fn main() {
    let folder = Path::new(env!("CARGO_MANIFEST_DIR")).join("target/library");
    let library = folder.join("libbench_hub.a");
    assert!(library.exists(), "{} is not there: bench/run builds it", library.display());
    println!("cargo:rustc-link-search=native={}", folder.display());
    println!("cargo:rustc-link-lib=static=bench_hub");
    println!("cargo:rerun-if-changed={}", library.display());
}
