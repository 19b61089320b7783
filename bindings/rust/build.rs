//! Links the static library, and malloc, realloc and free for it. MEMOIR_LIBRARIES has their folders, between colons; where it
//! isn't set they are this repository's crates/memoir_c/out and the kit's c, beside the bin of the `rt` on the path.
use std::{env, fs, path::PathBuf, process};

const WANTED: [&str; 2] = ["memoir_c", "libc_c"];

fn folders() -> Vec<PathBuf> {
    if let Some(named) = env::var_os("MEMOIR_LIBRARIES") {
        return env::split_paths(&named).collect();
    }
    let made = PathBuf::from(env!("CARGO_MANIFEST_DIR")).join("../../crates/memoir_c/out");
    let kit = env::split_paths(&env::var_os("PATH").unwrap_or_default())
        .filter_map(|folder| fs::canonicalize(folder.join("rt")).ok())
        .filter_map(|rt| Some(rt.parent()?.parent()?.join("c")))
        .next();
    [Some(made), kit].into_iter().flatten().collect()
}

fn main() {
    println!("cargo:rerun-if-env-changed=MEMOIR_LIBRARIES");
    let folders = folders();
    for name in WANTED {
        let file = format!("lib{name}.a");
        match folders.iter().find(|folder| folder.join(&file).is_file()) {
            Some(folder) => {
                println!("cargo:rustc-link-search=native={}", folder.display());
                println!("cargo:rerun-if-changed={}", folder.join(&file).display());
                println!("cargo:rustc-link-lib=static={name}");
            }
            None => {
                eprintln!("{file} is missing: `rt lib` in crates/memoir_c makes libmemoir_c.a, and the kit has liblibc_c.a in its folder c.");
                eprintln!("Set MEMOIR_LIBRARIES to their folders, between colons. Looked for in: {folders:?}");
                process::exit(1);
            }
        }
    }
}
