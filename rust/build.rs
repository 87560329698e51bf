//! Links libligdrosa.a, and links it again if it has changed. It is taken from the folder that LIGDROSA_OUT names, or else from
//! out/ of the repository, where scripts/c/build_c makes it, or else from where pkg-config finds the library.
use std::{
    env,
    path::{Path, PathBuf},
    process::{exit, Command},
};

/// Whether the library is in this folder.
fn has_library(folder: &Path) -> bool {
    folder.join("libligdrosa.a").exists()
}

/// The folder of an installed library.
fn installed() -> Option<PathBuf> {
    let mut asks = Command::new("pkg-config");
    let told = asks.args(["--variable=libdir", "ligdrosa"]).output().ok()?;
    let folder = PathBuf::from(String::from_utf8(told.stdout).ok()?.trim());
    has_library(&folder).then_some(folder)
}

/// Prints for cargo what to link, and what to watch for changes.
fn main() {
    let here = env::current_dir().unwrap_or_default();
    let built = here.join(env::var_os("LIGDROSA_OUT").unwrap_or("../out".into()));
    for variable in ["LIGDROSA_OUT", "PKG_CONFIG_PATH", "PKG_CONFIG_LIBDIR"] {
        println!("cargo:rerun-if-env-changed={variable}");
    }
    let found = Some(built.clone()).filter(|built| has_library(built));
    let Some(folder) = found.or_else(installed) else {
        let built = built.display();
        eprintln!("{built} has no libligdrosa.a, and pkg-config finds none.");
        eprintln!("scripts/c/build_c makes it in out/, and scripts/c/install_c installs it.");
        eprintln!("LIGDROSA_OUT may name its folder, or PKG_CONFIG_PATH that of ligdrosa.pc.");
        exit(1);
    };
    if env::var_os("LIGDROSA_OUT").is_some() && folder != built {
        println!(
            "cargo:warning=LIGDROSA_OUT has no libligdrosa.a, so that of pkg-config is linked"
        );
    }
    // a file that doesn't exist is not watched: cargo would compile everything each time
    println!("cargo:rerun-if-changed={}/libligdrosa.a", folder.display());
    println!("cargo:rustc-link-search=native={}", folder.display());
    println!("cargo:rustc-link-lib=static=ligdrosa");
}
