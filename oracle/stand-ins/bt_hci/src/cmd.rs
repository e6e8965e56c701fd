//! The HCI commands that connection.rs names. They decide nothing: no command is ever run here, so that each keeps no parameter.

use crate::param::{AllPhys, ConnHandle, Duration, PhyKind, PhyMask, PhyOptions, SpacingTypes};

/// What a command gives back.
pub trait Cmd {
    type Return;
}

pub mod status {
    use super::*;

    pub struct ReadRssi;
    pub struct Rssi {
        pub rssi: i8,
    }
    impl ReadRssi {
        pub fn new(_link: ConnHandle) -> Self {
            Self
        }
    }
    impl Cmd for ReadRssi {
        type Return = Rssi;
    }
}

pub mod le {
    use super::*;

    pub struct LeConnUpdate;
    impl Cmd for LeConnUpdate {
        type Return = ();
    }

    pub struct LeSetPhy;
    impl LeSetPhy {
        pub fn new(_link: ConnHandle, _all: AllPhys, _tx: PhyMask, _rx: PhyMask, _options: PhyOptions) -> Self {
            Self
        }
    }
    impl Cmd for LeSetPhy {
        type Return = ();
    }

    pub struct LeReadPhy;
    pub struct Phys {
        pub tx_phy: PhyKind,
        pub rx_phy: PhyKind,
    }
    impl LeReadPhy {
        pub fn new(_link: ConnHandle) -> Self {
            Self
        }
    }
    impl Cmd for LeReadPhy {
        type Return = Phys;
    }

    #[derive(Default)]
    pub struct LeReadLocalSupportedFeatures;
    pub struct Features;
    impl LeReadLocalSupportedFeatures {
        pub fn new() -> Self {
            Self
        }
    }
    impl Features {
        pub fn supports_le_data_packet_length_extension(&self) -> bool {
            false
        }
    }
    impl Cmd for LeReadLocalSupportedFeatures {
        type Return = Features;
    }

    pub struct LeSetDataLength;
    impl LeSetDataLength {
        pub fn new(_link: ConnHandle, _octets: u16, _time: u16) -> Self {
            Self
        }
    }
    impl Cmd for LeSetDataLength {
        type Return = ();
    }

    pub struct LeFrameSpaceUpdate;
    impl LeFrameSpaceUpdate {
        pub fn new(_link: ConnHandle, _min: Duration<1>, _max: Duration<1>, _phys: PhyMask, _types: SpacingTypes) -> Self {
            Self
        }
    }
    impl Cmd for LeFrameSpaceUpdate {
        type Return = ();
    }

    pub struct LeConnectionRateRequest;
    impl LeConnectionRateRequest {
        #[allow(clippy::too_many_arguments)]
        pub fn new(
            _link: ConnHandle,
            _min: Duration<125>,
            _max: Duration<125>,
            _subrate_min: u16,
            _subrate_max: u16,
            _latency: u16,
            _continuation: u16,
            _timeout: Duration<10_000>,
            _min_event: Duration<125>,
            _max_event: Duration<125>,
        ) -> Self {
            Self
        }
    }
    impl Cmd for LeConnectionRateRequest {
        type Return = ();
    }
}
