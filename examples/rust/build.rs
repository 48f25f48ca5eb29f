//! Links the static libraries whose paths NEMESIS_LIBRARIES has, with colons between them; or the one of this checkout,
//! which is built before its proof where it is not proved.

use std::process::{Command, Stdio};
use std::{env, ffi::OsString};

/// The path of this checkout's library.
fn built() -> OsString {
    let ran = Command::new("../../.ci/library").arg("--any").stderr(Stdio::inherit()).output();
    let text = ran.ok().and_then(|it| String::from_utf8(it.stdout).ok()).unwrap_or_default();
    assert!(!text.is_empty(), "the static library is not built: NEMESIS_LIBRARIES may have its path");
    text.trim_end().into()
}

fn main() {
    println!("cargo:rerun-if-env-changed=NEMESIS_LIBRARIES");
    let paths = env::var_os("NEMESIS_LIBRARIES").unwrap_or_else(built);
    for path in env::split_paths(&paths) {
        println!("cargo:rerun-if-changed={0}\ncargo:rustc-link-arg={0}", path.display());
    }
}
