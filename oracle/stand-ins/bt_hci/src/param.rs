//! The parameter types. They decide which link handles exist: every number is one here, and the driver answers for numbers above 0x0EFF.

#[derive(Clone, Copy, Debug, PartialEq, Eq)]
pub struct ConnHandle(pub u16);

impl ConnHandle {
    pub const fn raw(self) -> u16 {
        self.0
    }
}

#[derive(Clone, Copy, Debug, PartialEq, Eq)]
pub enum LeConnRole {
    Central,
    Peripheral,
}

/// A time in units of `US` microseconds. Decides, with embassy-time, how a parameter request's numbers become times and come back.
#[derive(Clone, Copy, Debug, PartialEq, Eq)]
pub struct Duration<const US: u64>(u16);

impl<const US: u64> Duration<US> {
    pub const fn from_u16(units: u16) -> Self {
        Self(units)
    }
    pub const fn as_u16(self) -> u16 {
        self.0
    }
    pub const fn as_micros(self) -> u64 {
        self.0 as u64 * US
    }
}

#[derive(Clone, Copy, Debug, PartialEq, Eq)]
pub struct AddrKind(pub u8);

impl AddrKind {
    pub const PUBLIC: Self = Self(0);
}

#[derive(Clone, Copy, Debug, PartialEq, Eq)]
pub struct BdAddr(pub [u8; 6]);

#[derive(Clone, Copy, Debug, PartialEq, Eq)]
pub enum DisconnectReason {
    AuthenticationFailure,
    RemoteUserTerminatedConn,
}

#[derive(Clone, Copy, Debug, PartialEq, Eq)]
pub struct Status(pub u8);

#[derive(Clone, Copy, Debug, PartialEq, Eq)]
pub struct Error(pub u8);

impl Error {
    pub const UNKNOWN_CONN_IDENTIFIER: Self = Self(0x02);
    pub const UNSUPPORTED_REMOTE_FEATURE: Self = Self(0x1a);
}

#[derive(Clone, Copy, Debug, PartialEq, Eq)]
pub enum FilterDuplicates {
    Disabled,
}

#[derive(Clone, Copy, Debug, PartialEq, Eq)]
pub enum FrameSpaceInitiator {
    Local,
}

#[derive(Clone, Copy, Debug, PartialEq, Eq)]
pub enum PhyKind {
    Le1M,
    Le2M,
    LeCoded,
    LeCodedS2,
}

#[derive(Clone, Copy, Debug, PartialEq, Eq)]
pub struct SpacingTypes;

#[derive(Default)]
pub enum PhyOptions {
    #[default]
    NoPreference,
    S2CodingPreferred,
    S8CodingPreferred,
}

/// The radio's modes are no part of the channel manager: the setters keep nothing.
#[derive(Clone, Copy, Debug, Default, PartialEq, Eq)]
pub struct PhyMask;

impl PhyMask {
    pub fn new() -> Self {
        Self
    }
    pub fn set_le_1m_phy(self, _on: bool) -> Self {
        self
    }
    pub fn set_le_2m_phy(self, _on: bool) -> Self {
        self
    }
    pub fn set_le_coded_phy(self, _on: bool) -> Self {
        self
    }
}

#[derive(Default)]
pub struct AllPhys;

impl AllPhys {
    pub fn new() -> Self {
        Self
    }
    pub fn set_has_no_rx_phy_preference(self, _on: bool) -> Self {
        self
    }
    pub fn set_has_no_tx_phy_preference(self, _on: bool) -> Self {
        self
    }
}
