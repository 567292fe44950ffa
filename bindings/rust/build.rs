// Where the static library is: TRA_LIBRARY_DIR, or crates/tra_engine/out of the repository.
use std::env;
use std::path::PathBuf;

fn main() {
    let default = PathBuf::from(env::var("CARGO_MANIFEST_DIR").unwrap()).join("../../crates/tra_engine/out");
    let folder = env::var_os("TRA_LIBRARY_DIR").map(PathBuf::from).unwrap_or(default);
    println!("cargo:rustc-link-search=native={}", folder.display());
    println!("cargo:rustc-link-lib=static=tra_engine");
    println!("cargo:rerun-if-env-changed=TRA_LIBRARY_DIR");
    println!("cargo:rerun-if-changed={}", folder.join("libtra_engine.a").display());
}
