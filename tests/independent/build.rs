//! Links the engine where `MARGIN_LIBS`, a colon-separated list of static libraries, names it.
//! Without it the package builds alone, and nothing that needs the engine is compiled.

use std::env;

fn main() {
    println!("cargo::rustc-check-cfg=cfg(engine)");
    println!("cargo::rerun-if-env-changed=MARGIN_LIBS");
    let libraries: Vec<String> = env::var("MARGIN_LIBS")
        .unwrap_or_default()
        .split(':')
        .filter(|path| !path.is_empty())
        .map(String::from)
        .collect();
    if libraries.is_empty() {
        return;
    }
    println!("cargo::rustc-cfg=engine");
    println!("cargo::rustc-link-arg=-Wl,--start-group");
    for library in &libraries {
        println!("cargo::rerun-if-changed={library}");
        println!("cargo::rustc-link-arg={library}");
    }
    println!("cargo::rustc-link-arg=-Wl,--end-group");
}
