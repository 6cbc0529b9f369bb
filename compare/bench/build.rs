// Writes the modules of m17core as they stand in the folder M17_RUST, each file included unchanged, and links the archive of crate iflazrud that stands in the folder ARCHIVE.
use std::{env, fs, path::Path};

fn main() {
    println!("cargo:rerun-if-env-changed=M17_RUST");
    let here = env::var("CARGO_MANIFEST_DIR").unwrap();
    let folder = env::var("M17_RUST").unwrap_or(format!("{here}/../../../shared/docs/src/src"));
    let folder = fs::canonicalize(&folder).unwrap_or_else(|e| panic!("the folder of the Rust, {folder}: {e}"));
    let file = |name: &str| format!("include!({:?});", folder.join(name).display().to_string());
    let modem = fs::read_to_string(folder.join("modem.rs")).expect("modem.rs");
    let from = modem.find("pub enum ModulatorFrame {").expect("ModulatorFrame in modem.rs");
    let to = from + modem[from..].find("\n}").expect("the end of ModulatorFrame") + 2;
    let text = [
        format!("#[allow(dead_code)] pub mod address {{ {} }}", file("address.rs")),
        format!("pub mod crc {{ use crate::stand_ins::crc; {} }}", file("crc.rs")),
        format!(
            "#[allow(dead_code)] pub mod kiss {{ {} pub fn inside_escape(src: &[u8], dst: &mut [u8]) -> usize {{ escape(src, dst) }} pub fn inside_unescape(src: &[u8], dst: &mut [u8]) -> usize {{ unescape(src, dst) }} }}",
            file("kiss.rs")
        ),
        format!("#[allow(dead_code)] pub mod protocol {{ {} }}", file("protocol.rs")),
        format!("pub mod modem {{ use crate::protocol::{{LsfFrame, PacketFrame, StreamFrame}};\n{}\n}}", &modem[from..to]),
        format!("#[allow(dead_code)] pub mod tnc {{ use crate::stand_ins::log; {} }}", file("tnc.rs")),
        "pub mod bits { pub use crate::stand_ins::bits::*; }".to_string(),
    ]
    .join("\n");
    fs::write(Path::new(&env::var("OUT_DIR").unwrap()).join("m17core.rs"), text).unwrap();
    let archive = env::var("ARCHIVE").expect("ARCHIVE, the folder of libiflazrud.a");
    println!("cargo:rustc-link-search=native={archive}");
    println!("cargo:rustc-link-lib=static=iflazrud");
    println!("cargo:rerun-if-changed={archive}/libiflazrud.a");
    println!("cargo:rerun-if-env-changed=ARCHIVE");
    println!("cargo:rerun-if-env-changed=PAD");
    println!("cargo:rustc-env=PAD={}", env::var("PAD").unwrap_or("0".to_string()));
}
