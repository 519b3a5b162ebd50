//! The merge box of document 01 as a plain reference, to compare other implementations with.

pub mod definitions;
pub mod differential;
pub mod generate;
pub mod monitor;
pub mod node;
pub mod playback;
pub mod record;
pub mod refusal;
pub mod text;
