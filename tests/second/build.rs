// With the feature `host`, links libhost.a from the directory named in HOST_LIB_DIR.
fn main() {
    println!("cargo:rerun-if-env-changed=HOST_LIB_DIR");
    if std::env::var_os("CARGO_FEATURE_HOST").is_none() {
        return;
    }
    let dir = std::env::var("HOST_LIB_DIR").expect("the feature `host` needs HOST_LIB_DIR, the directory of libhost.a");
    println!("cargo:rerun-if-changed={dir}/libhost.a");
    println!("cargo:rustc-link-search=native={dir}");
    println!("cargo:rustc-link-lib=static=host");
}
