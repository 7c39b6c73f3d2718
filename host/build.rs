//! Links the archive that the proved crates are compiled to. Where it is for another processor than
//! the tests, a server is linked with it instead, for an emulator to run (cfg `bridged`).

use std::path::{Path, PathBuf};
use std::process::Command;
use std::{env, fs};

/// The calls, and what the tests measure of the closure.
const ARCHIVE: &str = "../crates/rubblewaltz/out/librubblewaltz.a";
const GAUGE: &str = "../crates/gauge/out/libgauge.a";

/// How a C program is compiled for x86-64, without its C library: start.c stands in for that.
const CROSS_COMPILER: [&str; 7] = [
    "clang",
    "--target=x86_64-unknown-linux-gnu",
    "-fuse-ld=lld",
    "-nostdlib",
    "-static",
    "-ffreestanding",
    "bridge/start.c",
];

fn main() {
    println!("cargo::rustc-check-cfg=cfg(bridged)");
    println!("cargo::rerun-if-changed={ARCHIVE}");
    println!("cargo::rerun-if-changed={GAUGE}");
    match (fs::read(ARCHIVE), fs::read(GAUGE)) {
        (Ok(bytes), Ok(_)) if is_native(&bytes) => link(),
        (Ok(_), Ok(_)) => build_bridge(),
        _ => println!(
            "cargo::error=an archive is absent: run rt lib in crates/rubblewaltz and in crates/gauge"
        ),
    }
}

/// Do the archive's objects name the tests' processor? The number stands 18 bytes into an ELF file.
fn is_native(archive: &[u8]) -> bool {
    let object = archive.windows(4).position(|word| word == b"\x7fELF");
    let processor = object.map(|start| archive[start + 18]);
    match env::var("CARGO_CFG_TARGET_ARCH").as_deref() {
        Ok("x86_64") => processor == Some(62),
        Ok("aarch64") => processor == Some(183),
        _ => false,
    }
}

fn link() {
    for archive in [ARCHIVE, GAUGE] {
        let file = Path::new(env!("CARGO_MANIFEST_DIR")).join(archive);
        let folder = file.parent().expect("the archive's folder");
        println!("cargo::rustc-link-search=native={}", folder.display());
    }
    println!("cargo::rustc-link-lib=static=rubblewaltz");
    println!("cargo::rustc-link-lib=static=gauge");
    println!("cargo::rustc-env=RUBBLEWALTZ_CC=cc");
    println!("cargo::rustc-env=RUBBLEWALTZ_EMULATOR=");
}

fn build_bridge() {
    println!("cargo::rustc-cfg=bridged");
    println!("cargo::rerun-if-changed=bridge");
    println!("cargo::rerun-if-changed=../include/rubblewaltz.h");
    println!("cargo::rerun-if-env-changed=RUBBLEWALTZ_EMULATOR");
    let server = Path::new(&env::var("OUT_DIR").expect("set by cargo")).join("serve");
    let compiled = Command::new(CROSS_COMPILER[0])
        .args(&CROSS_COMPILER[1..])
        .args(["-O2", "-Wall", "-Wextra", "-Werror", "-I../include"])
        .args(["bridge/serve.c", ARCHIVE, GAUGE, "-o"])
        .arg(&server)
        .status();
    if !compiled.is_ok_and(|status| status.success()) {
        println!("cargo::error=bridge/serve.c was not built for x86-64 by clang and lld");
    }
    println!("cargo::rustc-env=RUBBLEWALTZ_SERVER={}", server.display());
    println!(
        "cargo::rustc-env=RUBBLEWALTZ_CC={}",
        CROSS_COMPILER.join(" ")
    );
    println!(
        "cargo::rustc-env=RUBBLEWALTZ_EMULATOR={}",
        emulator().display()
    );
}

/// The one named by RUBBLEWALTZ_EMULATOR, else the proof kit's own, else whatever is on the path.
fn emulator() -> PathBuf {
    if let Some(named) = env::var_os("RUBBLEWALTZ_EMULATOR") {
        return named.into();
    }
    kit()
        .map(|kit| {
            kit.join("on")
                .join(env::consts::ARCH)
                .join("toolchain/bin/qemu-x86_64")
        })
        .filter(|emulator| emulator.is_file())
        .unwrap_or_else(|| "qemu-x86_64".into())
}

/// The kit's folder: its command prints the path of a guide in the folder docs there.
fn kit() -> Option<PathBuf> {
    let output = Command::new("rt").arg("doc").output().ok()?;
    let guide = PathBuf::from(String::from_utf8(output.stdout).ok()?.trim());
    Some(guide.parent()?.parent()?.to_path_buf())
}
