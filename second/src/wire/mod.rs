//! Messages and their bytes: document 01, "Message layouts".

pub(crate) mod bytes;
pub(crate) mod conditions;
pub(crate) mod message;
mod read;
mod rules;
pub(crate) mod write;

pub use conditions::Market;
pub use message::{Body, Message};
pub(crate) use read::extent;
pub use read::read;
pub use write::write;
