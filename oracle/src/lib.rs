//! The runs against the original: playing scripts on it, making scripts that reach deep states, and comparing its rows with the port's.

pub mod commands;
pub mod compare;
pub mod depth;
pub mod faults;
pub mod foretell;
pub mod generate;
pub mod kinds;
pub mod play;
pub mod port;
pub mod record;
pub mod rng;
pub mod run;
pub mod script;
pub mod shrink;
pub mod twin;
pub mod without;
