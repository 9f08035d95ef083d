//! The C header: compiled by a C compiler with all warnings as errors, and by a C++ compiler where there is one; the
//! program is linked with the archive and run.

use std::env;
use std::path::PathBuf;
use std::process::Command;

fn here(compiler: &str) -> bool {
    Command::new(compiler).arg("--version").output().map_or(false, |o| o.status.success())
}

/// Compiles tests/header.c as that language, runs it, and answers what it prints; none where the compiler is not here.
fn run(compiler: &str, options: &[&str]) -> Option<String> {
    if !here(compiler) {
        eprintln!("SKIPPED: {} is not here, so the header was not compiled by it", compiler);
        return None;
    }
    let host = PathBuf::from(env!("CARGO_MANIFEST_DIR"));
    let archive = match env::var_os("THAWCOPPER_LIB_DIR") {
        Some(dir) => PathBuf::from(dir),
        None => host.join("../target/staticlib"),
    }
    .join("libthawcopper.a");
    let program =
        env::temp_dir().join(format!("thawcopper_header_{}_{}", compiler.replace('+', "p"), std::process::id()));
    let compiled = Command::new(compiler)
        .args(options)
        .args(["-Wall", "-Wextra", "-Wpedantic", "-Werror", "-I"])
        .arg(host.join("include"))
        .arg("-o")
        .arg(&program)
        .arg(host.join("tests/header.c"))
        // The archive is no source of that language.
        .args(["-x", "none"])
        .arg(archive)
        .output()
        .unwrap();
    assert!(compiled.status.success(), "{}", String::from_utf8_lossy(&compiled.stderr));
    let ran = Command::new(&program).output();
    let _ = std::fs::remove_file(&program);
    let ran = ran.unwrap();
    let printed = String::from_utf8_lossy(&ran.stdout).into_owned();
    assert!(ran.status.success(), "{}", printed);
    Some(printed)
}

#[test]
fn the_header_in_c() {
    if let Some(printed) = run("cc", &["-std=c99", "-x", "c"]) {
        assert_eq!(printed, "ok\n");
    }
}

#[test]
fn the_header_in_cpp() {
    if let Some(printed) = run("c++", &["-std=c++11", "-x", "c++"]) {
        assert_eq!(printed, "ok\n");
    }
}
