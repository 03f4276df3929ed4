//! Links the proved library, whose files the script `bench/run` names.

fn main() {
    for name in ["BENCH_LIBRARY", "BENCH_HEAP"] {
        println!("cargo:rerun-if-env-changed={name}");
        let file = std::env::var(name).unwrap_or_else(|_| panic!("{name} is not set: start bench/run"));
        println!("cargo:rerun-if-changed={file}");
        let path = std::path::Path::new(&file);
        let folder = path.parent().expect("a folder").display();
        let stem = path.file_stem().expect("a name").to_string_lossy();
        let library = stem.strip_prefix("lib").expect("a library's name");
        println!("cargo:rustc-link-search=native={folder}");
        println!("cargo:rustc-link-lib=static={library}");
    }
}
