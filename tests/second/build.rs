//! Tells the linker where the real static libraries stand, if they are wanted.

fn main() {
    println!("cargo:rerun-if-env-changed=CAMPAIGN_LIB_DIR");
    println!("cargo:rerun-if-changed=build.rs");
    if std::env::var_os("CARGO_FEATURE_REAL").is_none() {
        return;
    }
    let folder = std::env::var("CAMPAIGN_LIB_DIR")
        .expect("feature `real` needs CAMPAIGN_LIB_DIR, the folder of libcampaign.a and libpartner.a");
    println!("cargo:rerun-if-changed={folder}/libcampaign.a");
    println!("cargo:rerun-if-changed={folder}/libpartner.a");
    println!("cargo:rustc-link-search=native={folder}");
}
