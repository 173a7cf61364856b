//! The public names of 0.29, but those that came with it: what its features give is left out, as this crate hasn't them.
#![allow(unexpected_cfgs)]

#[path = "../../shim/tests/api.rs"]
mod names;
