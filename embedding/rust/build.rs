// Links libembed.a, from the folder that SRP_ARCHIVE names or else from where `embedding/archive TARGET` leaves that of the target.
use std::env;
use std::path::Path;

/// What cargo says of the target.
fn target(what: &str) -> String {
    env::var(format!("CARGO_CFG_TARGET_{what}")).unwrap()
}

fn main() {
    let arch = target("ARCH");
    assert!(
        target("ENDIAN") == "little" && target("POINTER_WIDTH") == "64",
        "there is no archive for a processor of 32 bits or with the most significant octet first"
    );
    let folder = env::var("SRP_ARCHIVE").unwrap_or_else(|_| {
        format!("{}/../../target/staticlib/{arch}", env::var("CARGO_MANIFEST_DIR").unwrap())
    });
    if !Path::new(&folder).join("libembed.a").is_file() {
        println!("cargo:warning={folder} has no libembed.a: embedding/archive {arch} makes it");
    }
    println!("cargo:rustc-link-search=native={folder}");
    println!("cargo:rustc-link-lib=static=embed");
    println!("cargo:rerun-if-changed={folder}/libembed.a");
    println!("cargo:rerun-if-env-changed=SRP_ARCHIVE");
}
