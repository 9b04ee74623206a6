//! What the comparison and the times share.

pub mod chains;
pub mod library;
pub mod stored;
