// With the feature `before`, links libbefore.a from the directory named in BEFORE_LIB_DIR.
fn main() {
    println!("cargo:rerun-if-env-changed=BEFORE_LIB_DIR");
    if std::env::var_os("CARGO_FEATURE_BEFORE").is_none() {
        return;
    }
    let dir = std::env::var("BEFORE_LIB_DIR").expect("the feature `before` needs BEFORE_LIB_DIR");
    println!("cargo:rerun-if-changed={dir}/libbefore.a");
    println!("cargo:rustc-link-search=native={dir}");
    println!("cargo:rustc-link-lib=static=before");
}
