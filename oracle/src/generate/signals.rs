//! Signals as a peer sends them: well-formed ones that fit the table, and noise.

use super::{numbers, Generator};
use language::{Call, State, View, BASE_ID};

/// A signal from its code, identifier and 16-bit fields.
fn signal(code: u8, identifier: u8, fields: &[u16]) -> Vec<u8> {
    let body: Vec<u8> = fields.iter().flat_map(|field| field.to_le_bytes()).collect();
    let length = (body.len() as u16).to_le_bytes();
    [&[code, identifier], &length[..], &body].concat()
}

impl Generator {
    /// An `S` line around signals for a link.
    pub(super) fn signal_line(&mut self, make: impl FnOnce(&mut Self) -> Option<(u16, Vec<u8>)>) -> Option<Call> {
        let (link, pdu) = make(self)?;
        Some(Call::Signal { link, listening: self.rng.chance(96), central: self.rng.chance(70), pdu })
    }

    fn identifier(&mut self) -> u8 {
        if self.rng.chance(95) {
            self.rng.between(1, 255) as u8
        } else {
            0
        }
    }

    pub(super) fn peer_request(&mut self) -> Vec<u8> {
        let (spsm, cid) = (numbers::spsm(&mut self.rng), numbers::peer_cid(&mut self.rng));
        let sizes = numbers::peer_sizes(&mut self.rng, self.m);
        self.request(spsm, cid, sizes)
    }

    /// A request that an empty slot takes: its SPSM is registered, and its sizes are allowed.
    pub(super) fn request_from(&mut self, peer_cid: u16) -> Vec<u8> {
        let sizes = numbers::allowed_sizes(&mut self.rng, self.m);
        self.request(128, peer_cid, sizes)
    }

    pub(super) fn request(&mut self, spsm: u16, peer_cid: u16, [mtu, mps]: [u16; 2]) -> Vec<u8> {
        let identifier = self.identifier();
        signal(0x14, identifier, &[spsm, peer_cid, mtu, mps, numbers::peer_credits(&mut self.rng)])
    }

    /// A disconnect request or response by its two CIDs.
    pub(super) fn disconnect(&mut self, code: u8, dcid: u16, scid: u16) -> Vec<u8> {
        let identifier = self.identifier();
        signal(code, identifier, &[dcid, scid])
    }

    pub(super) fn response(&mut self, view: &View) -> Option<(u16, Vec<u8>)> {
        let slot = self.slot_where(view, |slot| matches!(slot.state, State::Connecting(_)))?;
        let sizes = numbers::peer_sizes(&mut self.rng, self.m);
        Some(self.response_to(view, slot, sizes))
    }

    /// A response to one of our attempts: mostly to its identifier.
    pub(super) fn response_to(&mut self, view: &View, slot: u16, [mtu, mps]: [u16; 2]) -> (u16, Vec<u8>) {
        let link = self.link_of(view, slot);
        let identifier = match view.slots[usize::from(slot)].state {
            State::Connecting(identifier) if self.rng.chance(92) => identifier,
            _ => self.identifier(),
        };
        let rng = &mut self.rng;
        let result = if rng.chance(75) { 0 } else { numbers::result(rng) };
        let fields = [numbers::peer_cid(rng), mtu, mps, numbers::peer_credits(rng), result];
        (link, signal(0x15, identifier, &fields))
    }

    pub(super) fn credits(&mut self, view: &View) -> Option<(u16, Vec<u8>)> {
        let slot = self.slot_where(view, |slot| slot.state == State::Connected)?;
        let (link, identifier) = (self.link_of(view, slot), self.identifier());
        let record = &view.slots[usize::from(slot)];
        let cid = if self.rng.chance(95) { record.peer_cid } else { numbers::peer_cid(&mut self.rng) };
        let credits = numbers::more_credits(&mut self.rng, record.peer_credits);
        Some((link, signal(0x16, identifier, &[cid, credits])))
    }

    /// A credit signal by its CID and number.
    pub(super) fn credits_for(&mut self, cid: u16, credits: u16) -> Vec<u8> {
        let identifier = self.identifier();
        signal(0x16, identifier, &[cid, credits])
    }

    pub(super) fn disconnect_request(&mut self, view: &View) -> Option<(u16, Vec<u8>)> {
        let slot = self.slot_where(view, |slot| !slot.free())?;
        let (link, identifier) = (self.link_of(view, slot), self.identifier());
        let dcid = if self.rng.chance(93) { BASE_ID + slot } else { self.rng.pick(&[0, 1, 0x3f, BASE_ID + self.n, 65_535]) };
        let peer_cid = view.slots[usize::from(slot)].peer_cid;
        let scid = if self.rng.chance(90) { peer_cid } else { numbers::peer_cid(&mut self.rng) };
        Some((link, signal(0x06, identifier, &[dcid, scid])))
    }

    pub(super) fn disconnect_response(&mut self, view: &View) -> Option<(u16, Vec<u8>)> {
        let wanted = self.rng.chance(85);
        let slot = self.slot_where(view, |slot| matches!(slot.state, State::Disconnecting { announced } if announced == wanted))?;
        let (link, identifier) = (self.link_of(view, slot), self.identifier());
        let scid = if self.rng.chance(93) { BASE_ID + slot } else { self.rng.pick(&[0, 1, 0x3f, BASE_ID + self.n, 65_535]) };
        Some((link, signal(0x07, identifier, &[view.slots[usize::from(slot)].peer_cid, scid])))
    }

    /// Numbers of a parameter request: valid ones, and each limit passed by one.
    pub(super) fn parameter_numbers(&mut self) -> [u16; 4] {
        let rng = &mut self.rng;
        let max = rng.pick(&[6, 7, 80, 800, 3199, 3200]);
        let latency = rng.pick(&[0, 1, 4, 30, 498, 499]);
        let least = (u32::from(latency + 1) * u32::from(max)) / 4;
        let timeout = rng.pick(&[10, 100, 3200, least as u16, least as u16 + 1]);
        let mut numbers = [rng.pick(&[6, 6, max - 1, max]), max, latency, timeout];
        if rng.chance(30) {
            let at = rng.below(4);
            numbers[at] = rng.pick(&[0, 5, 9, 500, 3201, 65_535]);
        }
        numbers
    }

    /// 0x12, and the two signals that are read and nothing more.
    pub(super) fn parameters(&mut self) -> Vec<u8> {
        let identifier = self.identifier();
        match self.rng.below(6) {
            0 => {
                let result = self.rng.pick(&[0, 1, 7]);
                signal(0x13, identifier, &[result])
            }
            1 => {
                let length = self.rng.between(0, 3);
                let fields = vec![0; length];
                signal(0x01, identifier, &fields)
            }
            _ => {
                let numbers = self.parameter_numbers();
                signal(0x12, identifier, &numbers)
            }
        }
    }

    /// Unknown codes, bodies of a wrong length, headers that are cut short or lie.
    pub(super) fn noise(&mut self) -> Vec<u8> {
        let code = if self.rng.chance(60) {
            self.rng.pick(&[0x01, 0x06, 0x07, 0x12, 0x13, 0x14, 0x15, 0x16])
        } else {
            self.rng.pick(&[0x00, 0x02, 0x08, 0x0a, 0x11, 0x17, 0x1a, 0xff])
        };
        let identifier = self.identifier();
        let length = self.rng.pick(&[0, 1, 2, 3, 4, 5, 8, 9, 10, 11, 12]);
        let mut pdu = vec![code, identifier, length as u8, 0];
        pdu.extend(self.rng.octets(length));
        match self.rng.below(8) {
            0 => pdu.truncate(self.rng.between(0, 3)),
            1 => pdu.truncate(pdu.len().saturating_sub(1)),
            2 => pdu.extend([code, identifier, 0xff]),
            3 => pdu.extend([0x14, identifier.wrapping_add(1), 0x09, 0x00]),
            _ => {}
        }
        pdu
    }

    /// Two to four signals of one link in one PDU.
    pub(super) fn several(&mut self, view: &View) -> Option<(u16, Vec<u8>)> {
        let link = self.a_link();
        let mut pdu = Vec::new();
        for _ in 0..self.rng.between(2, 4) {
            let made = match self.rng.below(8) {
                0 | 1 => Some((link, self.peer_request())),
                2 => self.response(view),
                3 => self.credits(view),
                4 => self.disconnect_request(view),
                5 => self.disconnect_response(view),
                6 => Some((link, self.parameters())),
                _ => Some((link, self.noise())),
            };
            pdu.extend(made.filter(|(of, _)| *of == link).map_or_else(|| self.peer_request(), |(_, signal)| signal));
        }
        Some((link, pdu))
    }
}
