//! Links the object that oracle/scale names: what crates/ngawdrelo exports.
use std::env;

fn main() {
    println!("cargo:rerun-if-env-changed=NGAWDRELO_OBJECT");
    let object = env::var("NGAWDRELO_OBJECT").expect("NGAWDRELO_OBJECT names the object of crates/ngawdrelo");
    println!("cargo:rerun-if-changed={object}");
    println!("cargo:rustc-link-arg-bins={object}");
}
