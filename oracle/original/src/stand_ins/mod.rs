//! What stands in for the parts of the crate that are not among the original's files. Each says what it decides: there the runs show
//! nothing about the original.

pub(crate) mod error;
pub(crate) mod host;
pub(crate) mod names;
pub(crate) mod pool;
