//! Links the archive that `make lib` writes: from the folder named by TOADTRELLIS_LIB, or from target/staticlib at the repository's top.
use std::env;
use std::path::PathBuf;

fn main() {
    let folder = match env::var_os("TOADTRELLIS_LIB") {
        Some(folder) => PathBuf::from(folder),
        None => {
            let here = PathBuf::from(env::var_os("CARGO_MANIFEST_DIR").expect("cargo names the crate's folder"));
            here.join("../../target/staticlib")
        }
    };
    println!("cargo:rustc-link-search=native={}", folder.display());
    println!("cargo:rustc-link-lib=static=toadtrellis");
    println!("cargo:rerun-if-env-changed=TOADTRELLIS_LIB");
    println!("cargo:rerun-if-changed={}", folder.join("libtoadtrellis.a").display());
}
