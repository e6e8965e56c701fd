//! Decides nothing: no controller stands behind the original here. The bounds are met by a type without commands.

pub trait Controller {
    type Error;
    /// What becomes of a PDU that the controller is given.
    const TAKES: Takes = Takes::Each;
}

/// The driver looks at each PDU; what is timed gets a controller that costs less.
pub enum Takes {
    /// Each is kept, in memory of its own.
    Each,
    /// Its octets are copied behind those of the one before.
    InLine,
    /// It is looked at no more.
    Nothing,
}

pub mod blocking {
    pub trait Controller {}
}

pub trait ControllerCmdSync<C>: Controller {}
pub trait ControllerCmdAsync<C>: Controller {}
