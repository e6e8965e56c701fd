//! The names of the answers and of a connect response's results.

pub struct Refusal {
    pub number: u16,
    pub name: &'static str,
    /// What it says to whoever asked.
    pub says: &'static str,
}

const fn refusal(number: u16, name: &'static str, says: &'static str) -> Refusal {
    Refusal { number, name, says }
}

pub static REFUSALS: [Refusal; 25] = [
    refusal(1, "BadTable", "there is no table, or none can have these sizes"),
    refusal(2, "BadRoom", "the room has not the length that the table's sizes ask for"),
    refusal(3, "NoRoom", "the buffer lent is too short"),
    refusal(4, "BadHandle", "no link has a number above 3839"),
    refusal(5, "BadSpsm", "only SPSMs 1 to 255 can be registered"),
    refusal(6, "BadSlot", "the table has no such slot"),
    refusal(7, "InvalidChannelId", "no slot has this CID"),
    refusal(8, "NotFound", "no slot fits, or no job is open in it"),
    refusal(9, "InvalidValue", "a length or a sum of credits goes past what can be, or a size falls below 23"),
    refusal(10, "OutOfMemory", "the phone had no credit left for this frame"),
    refusal(11, "ChannelClosed", "the channel isn't open"),
    refusal(12, "InsufficientSpace", "larger than our packets hold, or than the phone takes"),
    refusal(13, "NoChannelAvailable", "every slot is in use or held"),
    refusal(14, "Busy", "the phone gave too few credits for all frames: nothing was sent"),
    refusal(15, "Decode", "a signal or a result that can't be read"),
    refusal(16, "NotSupported", "no signal has this code"),
    refusal(17, "ConnectError", "the phone refused the channel"),
    refusal(18, "Disconnected", "the link or the channel is down"),
    refusal(19, "ShortFrame", "the first frame of a job lacks the job's length"),
    refusal(20, "BadMps", "the phone takes only frames under 23 octets"),
    refusal(21, "QueueFull", "as many jobs wait as can: this one is dropped"),
    refusal(22, "Held", "the slot's holds are not what this step needs"),
    refusal(23, "TooLong", "no job of 65534 octets or more can be sent"),
    refusal(24, "JobOpen", "a job is open at this slot, and goes first"),
    refusal(25, "WrongLength", "more octets than the job still lacks: none is taken"),
];

/// The result of a connect response, by number and name.
pub fn result(number: u16) -> String {
    let name = match number {
        0 => "Success",
        2 => "SpsmNotSupported",
        4 => "NoResources",
        5 => "InsufficientAuthentication",
        6 => "InsufficientAuthorization",
        7 => "EncryptionKeyTooShort",
        8 => "InsufficientEncryption",
        9 => "InvalidSourceId",
        10 => "ScidAlreadyAllocated",
        11 => "UnacceptableParameters",
        _ => return format!("result {number}, which has no name"),
    };
    format!("result {number} {name}")
}

/// A refusal, by number, name and what it says.
pub fn refused(number: u16) -> String {
    refused_so(number, of(number).map_or("", |refusal| refusal.says))
}

/// A refusal that says more of one call.
pub fn refused_so(number: u16, says: &str) -> String {
    match of(number) {
        Some(Refusal { name, .. }) => format!("{number} {name}: {says}"),
        None => format!("{number}, a refusal that has no name here"),
    }
}

fn of(number: u16) -> Option<&'static Refusal> {
    REFUSALS.iter().find(|refusal| refusal.number == number)
}

#[cfg(test)]
mod tests {
    use super::*;

    #[test]
    fn refusals_stand_by_their_numbers() {
        assert!(REFUSALS.iter().zip(1..).all(|(refusal, number)| refusal.number == number));
        assert_eq!(refused(22), "22 Held: the slot's holds are not what this step needs");
        assert_eq!(refused(26), "26, a refusal that has no name here");
        assert_eq!(result(4), "result 4 NoResources");
        assert_eq!(result(3), "result 3, which has no name");
    }
}
