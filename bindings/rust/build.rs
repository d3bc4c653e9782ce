//! Links libboostmap.a from the folder that `BOOSTMAP_LIB` names, `PREFIX/lib` of `install.sh PREFIX`. Without it, a crate that
//! install.sh has installed takes the one that was installed with it.
use std::path::{Path, PathBuf};
use std::{env, process};

fn main() {
    println!("cargo:rerun-if-env-changed=BOOSTMAP_LIB");
    let named = env::var_os("BOOSTMAP_LIB").map(PathBuf::from);
    let beside = || Path::new(&env::var_os("CARGO_MANIFEST_DIR").unwrap()).join("../../../lib");
    let folder = named.clone().unwrap_or_else(beside);
    let archive = folder.join("libboostmap.a");
    if !archive.is_file() {
        match named {
            Some(folder) => eprintln!("boostmap: BOOSTMAP_LIB is {}, which has no libboostmap.a", folder.display()),
            None => eprintln!("boostmap: BOOSTMAP_LIB is not set"),
        }
        eprintln!("boostmap: set it to the folder of libboostmap.a, PREFIX/lib of `bindings/install.sh PREFIX`");
        process::exit(1);
    }
    println!("cargo:rustc-link-search=native={}", folder.display());
    println!("cargo:rerun-if-changed={}", archive.display());
    println!("cargo:rustc-link-lib=static=boostmap");
}
