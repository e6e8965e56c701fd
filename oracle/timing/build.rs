//! Links the archives of the port's crates `sar_speed` and `entries`: libspeed.a and libentries.a of the folder PORT_ARCHIVES.

use std::env;

fn main() {
    println!("cargo:rerun-if-env-changed=PORT_ARCHIVES");
    let folder = env::var("PORT_ARCHIVES").expect("PORT_ARCHIVES names the folder of libspeed.a and libentries.a: start ../speed");
    println!("cargo:rustc-link-search=native={folder}");
    for archive in ["speed", "entries"] {
        println!("cargo:rerun-if-changed={folder}/lib{archive}.a");
        println!("cargo:rustc-link-lib=static={archive}");
    }
}
