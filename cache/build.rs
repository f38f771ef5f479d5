//! Compiles the observer, a library that the driver loads into other programs, so that the driver has it in
//! itself.
use std::env;
use std::fs;
use std::path::{Path, PathBuf};
use std::process::Command;

/// The library that has `dlsym` in older C libraries. Newer ones have one of this name too, which is empty.
const LOADER: &str = "libdl.so.2";

/// The C compiler for the target: the one that links there, if cargo has it from somebody.
fn compiler() -> String {
    let is_native = env::var("TARGET") == env::var("HOST");
    let of_host = env::var("CC").ok().filter(|compiler| is_native && !compiler.is_empty());
    env::var("RUSTC_LINKER").ok().or(of_host).unwrap_or_else(|| "cc".into())
}

fn compile(words: &[&str], output: &Path) {
    let compiler = compiler();
    let status = Command::new(&compiler).args(["-shared", "-nostdlib", "-o"]).arg(output).args(words).status();
    assert!(status.as_ref().is_ok_and(std::process::ExitStatus::success), "{compiler} doesn't compile the observer: {status:?}");
}

fn main() {
    println!("cargo::rerun-if-changed=observer.c");
    println!("cargo::rerun-if-env-changed=CC");
    let folder = PathBuf::from(env::var_os("OUT_DIR").unwrap_or_default());
    let target = ["OS", "POINTER_WIDTH"].map(|name| env::var(format!("CARGO_CFG_TARGET_{name}")).unwrap_or_default());
    if target != ["linux", "64"] {
        // (its calls of the kernel are Linux's; without a library nothing is observed)
        return fs::write(folder.join("observer.so"), "").expect("there is a folder for what is built");
    }
    let loader = folder.join(LOADER);
    compile(&["-Wl,-soname,libdl.so.2", "-x", "c", "/dev/null"], &loader);
    // It wraps functions that headers say take no null pointers, or have checked forms.
    let language = ["-std=c11", "-O2", "-fPIC", "-w", "-fno-stack-protector", "-fno-delete-null-pointer-checks", "-U_FORTIFY_SOURCE"];
    let linking = ["-s", "-Wl,--no-as-needed", "-Wl,-z,now", "-Wl,--build-id=none", "observer.c"];
    let loader = loader.to_string_lossy();
    compile(&[&language[..], &linking, &[&*loader]].concat(), &folder.join("observer.so"));
}
