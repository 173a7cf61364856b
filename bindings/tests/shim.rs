//! The tests of `shim`, here so that `cargo test` runs them without a crate of a registry.
#![allow(unexpected_cfgs)]

#[path = "../shim/tests/api.rs"]
mod api;
#[path = "../shim/tests/values.rs"]
mod values;
