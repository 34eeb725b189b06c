//! How the comparisons reach the proved calls. The archives of `tools/archive` are x86-64 code: there a build script links them
//! (`link`), and elsewhere a server that holds them is asked (`Server`; tools/build-server makes it).

mod server;

pub use server::{Answers, Requests, Server};

use std::path::Path;

/// For a build script: links these archives where the target is x86-64, and says so with the cfg `linked`.
pub fn link(names: &[&str]) {
    println!("cargo:rustc-check-cfg=cfg(linked)");
    println!("cargo:rerun-if-changed=build.rs");
    if std::env::var("CARGO_CFG_TARGET_ARCH").as_deref() != Ok("x86_64") {
        return;
    }
    let folder = Path::new(env!("CARGO_MANIFEST_DIR")).join("../../target/lib");
    for name in names {
        let archive = folder.join(format!("lib{name}.a"));
        println!("cargo:rerun-if-changed={}", archive.display());
        assert!(archive.exists(), "there is no {}: `tools/archive {name}` makes it", archive.display());
        println!("cargo:rustc-link-lib=static={name}");
    }
    println!("cargo:rustc-cfg=linked");
    println!("cargo:rustc-link-search=native={}", folder.display());
}
