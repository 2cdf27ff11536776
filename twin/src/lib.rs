//! A second reading of the transfer library's documents, in plain Rust.
//!
//! Nothing here comes from the library's own sources. Each module follows one
//! page: `frame` and `block` docs/FRAMES.md, `terms` docs/TERMS.md, `refusal`
//! docs/REFUSALS.md, `carrier` docs/CARRIERS.md, `store` and `path`
//! docs/PATH.md, `script` docs/SCRIPT.md and `firmware` docs/FIRMWARE.md.

pub mod block;
pub mod carrier;
pub mod firmware;
pub mod frame;
pub mod path;
pub mod random;
pub mod refusal;
pub mod script;
pub mod store;
pub mod terms;
