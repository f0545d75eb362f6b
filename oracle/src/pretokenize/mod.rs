//! The modules that document 000 expects around it, written here from document 01.

pub(crate) mod fast;
pub(crate) mod unicode;
