//! Compiles the plain C implementation with the C compiler (`CC`, or `cc`) at -O3.

use std::env;
use std::path::Path;
use std::process::Command;

/// Runs a command, which must succeed.
fn run(command: &mut Command) {
    let status = command.status();
    let done = status.as_ref().is_ok_and(|status| status.success());
    assert!(done, "{command:?}: {status:?}");
}

fn main() {
    println!("cargo:rerun-if-changed=c/baseline.c");
    println!("cargo:rerun-if-env-changed=CC");
    let out = env::var_os("OUT_DIR").expect("OUT_DIR is set for build scripts");
    let out = Path::new(&out);
    let (object, archive) = (out.join("baseline.o"), out.join("libbaseline.a"));
    let compiler = env::var_os("CC").unwrap_or_else(|| "cc".into());
    run(Command::new(compiler)
        .args(["-std=c99", "-O3", "-fPIC", "-Wall", "-Wextra", "-Werror"])
        .args(["-c", "c/baseline.c", "-o"])
        .arg(&object));
    run(Command::new("ar").arg("rcs").arg(&archive).arg(&object));
    println!("cargo:rustc-link-search=native={}", out.display());
    println!("cargo:rustc-link-lib=static=baseline");
}
