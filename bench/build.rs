//! Links the engine's static library and the kit's C code, from the folders that `bench/run` names.

fn main() {
    for folder in ["ENGINE_FOLDER", "KIT_FOLDER"] {
        println!("cargo:rerun-if-env-changed={folder}");
        let path = std::env::var(folder).expect("start the comparison by bench/run");
        println!("cargo:rustc-link-search=native={path}");
    }
    println!("cargo:rustc-link-lib=static=engine");
    println!("cargo:rustc-link-lib=static=libc_c");
    if let Ok(folder) = std::env::var("ENGINE_FOLDER") {
        println!("cargo:rerun-if-changed={folder}/libengine.a");
    }
}
