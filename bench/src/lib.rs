//! A hand-written responder and a hand-written message codec for document 01, made for speed in safe Rust.
//! They are what the proved ones are measured against; the benchmark program is `main`.

#![forbid(unsafe_code)]

pub mod codec;
pub mod fast;
mod octets;
mod store;
