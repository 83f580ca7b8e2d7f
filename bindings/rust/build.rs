//! Links the proved library, and behind it the functions by which it takes memory (they call `malloc`,
//! `realloc` and `free`).
//!
//! The archives lie in `lib/TARGET/`, with `PROOF`, which has their sums and the line by which they were proved.
//! With the feature `strict` the library is the one with no plain store, as it was proved and built; for aarch64 that is the only one.
//! `VAHEPITO_LIB` names another library, and `VAHEPITO_HEAP` other functions for memory. A line of
//! `cargo build -vv` says which archives are linked. With `--cfg vahepito_unproved` none is.
use std::env;
use std::path::{Path, PathBuf};
use std::process::exit;

/// The targets that the archives are built for.
const SUPPORTED: [&str; 2] = ["x86_64-unknown-linux-gnu", "aarch64-unknown-linux-gnu"];

/// The target for which the library also has plain stores: the law that they can't be seen is one of x86.
const WITH_PLAIN_STORES: &str = "x86_64-unknown-linux-gnu";

fn target() -> String {
    env::var("TARGET").expect("cargo sets it")
}

fn stop(lines: &[&str]) -> ! {
    for line in lines {
        println!("cargo::error={line}");
    }
    exit(1)
}

/// The archive that this variable names.
fn named(variable: &str) -> Option<PathBuf> {
    println!("cargo::rerun-if-env-changed={variable}");
    let path = PathBuf::from(env::var_os(variable)?);
    match path.canonicalize() {
        Ok(path) if path.is_file() => {
            println!("cargo::warning={variable} names {}", path.display());
            Some(path)
        }
        _ => stop(&[&format!(
            "{variable} names {}, and no such file can be read",
            path.display()
        )]),
    }
}

/// The archive of this name.
fn archive(name: &str) -> PathBuf {
    let target = target();
    if !SUPPORTED.contains(&target.as_str()) {
        stop(&[
            &format!(
                "the proved queue of vahepito is built for {} alone, and the target is {target}",
                SUPPORTED.join(" and ")
            ),
            "on any other target set RUSTFLAGS='--cfg vahepito_unproved': a lock stands in the place of the proved queue, and nothing is proved",
            "or name archives that were built for this target by VAHEPITO_LIB and VAHEPITO_HEAP",
        ]);
    }
    let root = PathBuf::from(env::var_os("CARGO_MANIFEST_DIR").expect("cargo sets it"));
    let path = root.join("lib").join(target).join(name);
    if !path.is_file() {
        stop(&[&format!(
            "{} is missing in the crate's folder",
            path.display()
        )]);
    }
    path
}

/// Warns if what is built runs here, and this processor lacks instructions of the archives.
fn check_processor() {
    #[cfg(target_arch = "x86_64")]
    {
        let is_native = env::var("HOST") == env::var("TARGET");
        let is_v2 = is_x86_feature_detected!("sse3")
            && is_x86_feature_detected!("ssse3")
            && is_x86_feature_detected!("sse4.1")
            && is_x86_feature_detected!("sse4.2")
            && is_x86_feature_detected!("popcnt")
            && is_x86_feature_detected!("cmpxchg16b");
        if is_native && !is_v2 {
            println!(
                "cargo::warning=this processor isn't an x86-64-v2, which the archives are built for: a program that is built here won't run here"
            );
        }
    }
}

/// Links the archive `libNAME.a` at this path.
fn link(archive: &Path) {
    let name = archive
        .file_stem()
        .and_then(|name| name.to_str()?.strip_prefix("lib"));
    let (Some(name), Some(folder)) = (name, archive.parent()) else {
        stop(&[&format!("{} isn't named lib*.a", archive.display())]);
    };
    println!("vahepito: links {}", archive.display());
    println!("cargo::rerun-if-changed={}", archive.display());
    println!("cargo::rustc-link-search=native={}", folder.display());
    println!("cargo::rustc-link-lib=static={name}");
}

fn main() {
    println!("cargo::rerun-if-changed=build.rs");
    if env::var_os("CARGO_CFG_VAHEPITO_UNPROVED").is_some() {
        println!(
            "cargo::warning=vahepito_unproved is set: a lock stands in the place of the proved queue, and nothing is proved"
        );
        return;
    }
    let library = named("VAHEPITO_LIB").unwrap_or_else(|| {
        check_processor();
        let is_strict = env::var_os("CARGO_FEATURE_STRICT").is_some();
        archive(if is_strict || target() != WITH_PLAIN_STORES {
            "libvahepito_strict.a"
        } else {
            "libvahepito.a"
        })
    });
    link(&library);
    link(&named("VAHEPITO_HEAP").unwrap_or_else(|| archive("libvahepito_heap.a")));
}
