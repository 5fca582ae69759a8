//! Compiles the loop that is written by hand, `src/sse2.c`.

use std::process::Command;

fn run(command: &mut Command) {
    let ended = command.status();
    assert!(ended.is_ok_and(|s| s.success()), "{command:?} fails");
}

fn main() {
    println!("cargo:rerun-if-changed=src/sse2.c");
    let out = std::env::var("OUT_DIR").expect("cargo names OUT_DIR");
    let (object, archive) = (format!("{out}/sse2.o"), format!("{out}/libsse2.a"));
    run(Command::new("cc")
        .args(["-std=c11", "-O2", "-Wall", "-Wextra", "-Werror"])
        .args(["-c", "src/sse2.c", "-o", &object]));
    run(Command::new("ar").args(["rcs", &archive, &object]));
    println!("cargo:rustc-link-search=native={out}");
    println!("cargo:rustc-link-lib=static=sse2");
}
