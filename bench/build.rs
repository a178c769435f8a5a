//! Links the static libraries whose folder stands in CAMPAIGN_LIB_DIR.

fn main() {
    println!("cargo:rerun-if-env-changed=CAMPAIGN_LIB_DIR");
    let folder = std::env::var("CAMPAIGN_LIB_DIR")
        .expect("CAMPAIGN_LIB_DIR: the folder of libcampaign.a and libpartner.a");
    println!("cargo:rustc-link-search=native={folder}");
    for name in ["campaign", "partner"] {
        println!("cargo:rerun-if-changed={folder}/lib{name}.a");
        println!("cargo:rustc-link-lib=static={name}");
    }
}
