fn main() {
    println!("cargo:rerun-if-env-changed=RASCAL_VERIFIED_LIB");
    if std::env::var_os("CARGO_FEATURE_LINKED").is_some() {
        let folder = std::env::var("RASCAL_VERIFIED_LIB").expect("RASCAL_VERIFIED_LIB must name the folder of librascal.a");
        println!("cargo:rerun-if-changed={folder}/librascal.a");
        println!("cargo:rustc-link-search=native={folder}");
        println!("cargo:rustc-link-lib=static=rascal");
    }
}
