//! Names the shared library: programs that are linked with it look for this name, which changes with each version that
//! changes the interface.
#![forbid(unsafe_code)]

use std::env::var;

fn main() {
    let part = |name: &str| var(format!("CARGO_PKG_VERSION_{name}")).unwrap_or_default();
    // before 1.0 a minor version may change the interface
    let major = part("MAJOR");
    let version = if major == "0" { format!("0.{}", part("MINOR")) } else { major };
    let argument = match var("CARGO_CFG_TARGET_OS").unwrap_or_default().as_str() {
        "linux" | "freebsd" | "netbsd" | "openbsd" | "dragonfly" => Some(format!("-Wl,-soname,liboffset_allocator_c.so.{version}")),
        // not tried
        "macos" | "ios" => Some(format!("-Wl,-install_name,@rpath/liboffset_allocator_c.{version}.dylib")),
        _ => None,
    };
    if let Some(argument) = argument {
        println!("cargo:rustc-cdylib-link-arg={argument}");
    }
    println!("cargo:rerun-if-changed=build.rs");
}
