//! Links the archives that `rt lib` makes. LANES_ARCHIVES names a folder that has them; without it, each lies in its crate's `out/`.

use std::env;
use std::path::PathBuf;

fn main() {
    println!("cargo:rerun-if-env-changed=LANES_ARCHIVES");
    let home = PathBuf::from(env::var_os("CARGO_MANIFEST_DIR").unwrap());
    let folder = env::var_os("LANES_ARCHIVES").map(PathBuf::from);
    let link = |program: &str, library: &str| {
        let out = || home.join(format!("../crates/{library}/out"));
        let path = folder.clone().unwrap_or_else(out).join(format!("lib{library}.a"));
        println!("cargo:rerun-if-changed={}", path.display());
        println!("cargo:rustc-link-arg-bin={program}={}", path.display());
    };
    link("compare", "installer");
    link("bench", "installer");
    link("bench", "bench_exports");
}
