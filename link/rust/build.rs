// Says where the static library is: the folder that DELUNKPAWI_LIB names.
fn main() {
    println!("cargo:rerun-if-env-changed=DELUNKPAWI_LIB");
    let folder = std::env::var("DELUNKPAWI_LIB")
        .expect("DELUNKPAWI_LIB names the folder of liblinked.a: run link/build");
    println!("cargo:rerun-if-changed={folder}/liblinked.a");
    println!("cargo:rustc-link-search=native={folder}");
    println!("cargo:rustc-link-lib=static=linked");
}
