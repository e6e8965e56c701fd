//! Puts the original's files in place for the compiler, unchanged. They stay where they are (`../shared/docs/src` beside the project, or
//! the folder named by TROUBLE_HOST_SRC); OUT_DIR gets copies at the original's own relative paths, since `rt ci` refuses a link anywhere.
//! The two files whose private fields the driver must read are included whole, each with one child module of ours behind it. A file whose
//! sum isn't listed stops the build.

#[path = "sha256.rs"]
mod sha256;

use std::path::{Path, PathBuf};
use std::{env, fs};

/// Copied as they are.
const COPIED: [&str; 7] = ["codec.rs", "connection.rs", "connection_manager.rs", "cursor.rs", "l2cap.rs", "pdu.rs", "types/l2cap.rs"];
/// Included whole, before a child module that reads their private fields.
const INCLUDED: [&str; 2] = ["channel_manager.rs", "l2cap/sar.rs"];

/// Every feature that the files ask for. `channel-metrics` is on where the package has it (document 02, vi). The others are off: the first three by document 01, the rest because they add nothing to a channel.
const FEATURES: [&str; 13] = [
    "l2cap-sdu-reassembly-optimization",
    "allow-reserved-l2cap-psu",
    "connection-params-update",
    "channel-metrics",
    "att-queued-writes",
    "central",
    "connection-metrics",
    "defmt",
    "gatt",
    "legacy-pairing",
    "security",
    "serde",
    "subrating",
];

fn main() {
    let package = PathBuf::from(env::var("CARGO_MANIFEST_DIR").expect("run by cargo"));
    let oracle = package.parent().expect("a folder of oracle/").to_path_buf();
    let source = match env::var_os("TROUBLE_HOST_SRC") {
        Some(path) => PathBuf::from(path),
        None => oracle.join("../../shared/docs/src/src"),
    };
    let source = fs::canonicalize(&source).unwrap_or_else(|e| panic!("the original isn't at {}: {e}", source.display()));
    println!("cargo:rerun-if-env-changed=TROUBLE_HOST_SRC");
    guard(&source, &oracle.join("original.sha256"));
    println!("cargo:rustc-check-cfg=cfg(feature, values(\"{}\"))", FEATURES.join("\", \""));

    let name = env::var("CARGO_PKG_NAME").expect("run by cargo");
    let d = name["original-d".len()..].split('-').next().expect("a digit");
    println!("cargo:rustc-env=L2CAP_RX_QUEUE_SIZE={d}");

    let out = PathBuf::from(env::var("OUT_DIR").expect("run by cargo")).join("original");
    let _ = fs::remove_dir_all(&out);
    for folder in ["l2cap", "types"] {
        fs::create_dir_all(out.join(folder)).expect("OUT_DIR can be written");
    }
    for file in COPIED {
        fs::copy(source.join(file), out.join(file)).expect("OUT_DIR can be written");
    }
    for file in INCLUDED {
        let eyes = oracle.join("original/src/eyes").join(Path::new(file).file_name().expect("a file"));
        let text =
            format!("include!({:?});\n#[warn(warnings, clippy::all)]\n#[path = {:?}]\npub(crate) mod eyes;\n", source.join(file), eyes);
        fs::write(out.join(file), text).expect("OUT_DIR can be written");
    }
    let mut root = String::new();
    for module in ["channel_manager", "codec", "connection", "connection_manager", "cursor", "l2cap", "pdu"] {
        root.push_str(&format!("#[allow(warnings, clippy::all)]\npub(crate) mod {module};\n"));
    }
    root.push_str("pub(crate) mod types {\n    #[allow(warnings, clippy::all)]\n    pub mod l2cap;\n}\n");
    fs::write(out.join("root.rs"), root).expect("OUT_DIR can be written");
}

/// Stops the build unless every file used has the sum listed for it.
fn guard(source: &Path, list: &Path) {
    println!("cargo:rerun-if-changed={}", list.display());
    let listed = fs::read_to_string(list).expect("oracle/original.sha256");
    for file in COPIED.iter().chain(&INCLUDED) {
        let path = source.join(file);
        println!("cargo:rerun-if-changed={}", path.display());
        let octets = fs::read(&path).unwrap_or_else(|e| panic!("{}: {e}", path.display()));
        let line = format!("{}  {file}", sha256::sum(&octets));
        assert!(listed.lines().any(|l| l == line), "{file} isn't the file of trouble-host 0.8.0 that was recorded: {line}");
    }
}
