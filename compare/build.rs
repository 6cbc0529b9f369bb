// Writes the modules of m17core as they stand in the folder M17_RUST, each file included unchanged, with our accessors beside it.
use std::{env, fs, path::Path};

fn main() {
    println!("cargo:rerun-if-env-changed=M17_RUST");
    let here = env::var("CARGO_MANIFEST_DIR").unwrap();
    let folder = env::var("M17_RUST").unwrap_or(format!("{here}/../../shared/docs/src/src"));
    let folder = fs::canonicalize(&folder).unwrap_or_else(|e| panic!("the folder of the Rust, {folder}: {e}"));
    let file = |name: &str| -> String {
        let path = folder.join(name);
        println!("cargo:rerun-if-changed={}", path.display());
        assert!(path.is_file(), "{} is missing", path.display());
        format!("include!({:?});", path.display().to_string())
    };
    let ours = |name: &str| format!("include!({:?});", format!("{here}/src/{name}"));

    let modem = fs::read_to_string(folder.join("modem.rs")).expect("modem.rs");
    println!("cargo:rerun-if-changed={}", folder.join("modem.rs").display());
    let from = modem.find("pub enum ModulatorFrame {").expect("ModulatorFrame in modem.rs");
    let to = from + modem[from..].find("\n}").expect("the end of ModulatorFrame") + 2;

    let text = [
        format!("pub mod address {{ {} }}", file("address.rs")),
        format!("pub mod crc {{ use crate::stand_ins::crc; {} }}", file("crc.rs")),
        format!("pub mod kiss {{ {} {} }}", file("kiss.rs"), ours("inside_kiss.rs")),
        format!("#[allow(dead_code)] pub mod protocol {{ {} }}", file("protocol.rs")),
        format!(
            "pub mod modem {{ use crate::protocol::{{LsfFrame, PacketFrame, StreamFrame}};\n{}\n}}",
            &modem[from..to]
        ),
        format!(
            "pub mod tnc {{ use crate::stand_ins::log; {} {} }}",
            file("tnc.rs"),
            ours("inside_tnc.rs")
        ),
        "pub mod bits { pub use crate::stand_ins::bits::*; }".to_string(),
    ]
    .join("\n");
    fs::write(Path::new(&env::var("OUT_DIR").unwrap()).join("m17core.rs"), text).unwrap();
}
