//! The proved engine through its C interface, as `rt lib` in `crates/host` builds it, beside the model.

pub mod declarations;
pub mod engine;
pub mod frames;
#[path = "../../host/hollwern.rs"]
pub mod hollwern;
pub mod measure;
pub mod pair;
pub mod reading;
pub mod stack;
