//! With feature `proved`, links libhost.a from the folder that POKHVETI_HOST names.

fn main() {
    println!("cargo::rerun-if-env-changed=POKHVETI_HOST");
    if std::env::var_os("CARGO_FEATURE_PROVED").is_some() {
        let folder = std::env::var("POKHVETI_HOST").expect("POKHVETI_HOST names the folder of libhost.a");
        println!("cargo::rustc-link-search=native={folder}");
        println!("cargo::rustc-link-lib=static=host");
        println!("cargo::rerun-if-changed={folder}/libhost.a");
    }
}
