//! Finds the installed library: in the folder that NOGCUVEMA_LIB names, otherwise by pkg-config.
use std::env;
use std::path::Path;
use std::process::Command;

fn link_from(folder: &str, named_by: &str) {
    let archive = Path::new(folder).join("libnogcuvema.a");
    if folder.is_empty() || !archive.is_file() {
        panic!("{named_by} names no folder with libnogcuvema.a: {folder:?}");
    }
    println!("cargo:rustc-link-search=native={folder}");
    println!("cargo:rustc-link-lib=static=nogcuvema");
}

fn main() {
    println!("cargo:rerun-if-env-changed=NOGCUVEMA_LIB");
    println!("cargo:rerun-if-env-changed=PKG_CONFIG_PATH");
    if let Ok(folder) = env::var("NOGCUVEMA_LIB") {
        return link_from(&folder, "NOGCUVEMA_LIB");
    }
    let words = ["--variable=libdir", "nogcuvema"];
    let said = Command::new("pkg-config").args(words).output();
    match said {
        Ok(said) if said.status.success() => {
            link_from(String::from_utf8_lossy(&said.stdout).trim(), "libdir of nogcuvema.pc")
        }
        Ok(said) => panic!(
            "nogcuvema is not installed where pkg-config looks; set PKG_CONFIG_PATH, or NOGCUVEMA_LIB to the folder of \
             libnogcuvema.a: {}",
            String::from_utf8_lossy(&said.stderr).trim()
        ),
        Err(error) => panic!("there is no pkg-config ({error}); set NOGCUVEMA_LIB to the folder of libnogcuvema.a"),
    }
}
