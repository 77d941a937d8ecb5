// Links the static libraries that `c/staticlib` writes of link, bitwise and side_follow; c/build writes the first. NOSPRIDDA_LIB
// names another folder that has them.
use std::env;
use std::path::PathBuf;

fn main() {
    println!("cargo:rerun-if-env-changed=NOSPRIDDA_LIB");
    let folder = match env::var_os("NOSPRIDDA_LIB") {
        Some(folder) => PathBuf::from(folder),
        None => {
            PathBuf::from(env::var_os("CARGO_MANIFEST_DIR").unwrap()).join("../target/staticlib")
        }
    };
    println!("cargo:rustc-link-search=native={}", folder.display());
    for name in ["link", "bitwise", "side_follow"] {
        let library = folder.join(format!("lib{name}.a"));
        println!("cargo:rerun-if-changed={}", library.display());
        if !library.is_file() {
            panic!(
                "{} is not there: `c/staticlib {name}` writes it",
                library.display()
            );
        }
        println!("cargo:rustc-link-lib=static={name}");
    }
}
