//! The original, and the scripts that it and the others run.

// The original's wheel, its text unchanged: oracle/build.rs brings it.
#[allow(dead_code)]
mod wheel {
    include!(concat!(env!("OUT_DIR"), "/tokio_util/wheel/mod.rs"));
}

#[allow(dead_code)] // the original's slab can do more than is asked of it
pub mod original;
pub mod script;
