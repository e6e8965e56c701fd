//! Plays calls on the original: picks the build for D, opens a session for each `T`, and answers what needs no table.

use language::{can_be_made, Answer, Call, Eyes, Feed, Manner, Reply, Row, View};
pub use original_d1::SIZES;

/// Why a row was answered without the original, beside the reasons that the driver gives.
pub const NO_SLOTS: &str = "a table of no slots: the original can't be made so";
pub const NO_SIZE: &str = "M: no build of the original has packets of this size";
pub const DOWN: &str = "after a panic";

/// Opens a session on the build for D. The four builds differ in nothing but D.
pub fn session(n: u16, d: u16, m: u16, manner: Manner, feed: &mut dyn Feed) -> bool {
    match d {
        1 => original_d1::session(n, m, manner, feed),
        2 => original_d2::session(n, m, manner, feed),
        3 => original_d3::session(n, m, manner, feed),
        4 => original_d4::session(n, m, manner, feed),
        _ => false,
    }
}

/// The same on the build without `channel-metrics`, whose D is 2.
pub fn plain_session(n: u16, m: u16, manner: Manner, feed: &mut dyn Feed) -> bool {
    original_d2_plain::session(n, m, manner, feed)
}

/// What a call prints on a table of no slots.
pub fn without_table(call: &Call) -> Reply {
    let refusal = || Row::number(1).not_run(NO_SLOTS);
    match call {
        Call::View => View::none().into(),
        Call::Unread(_) => Row::new(Answer::Unread).into(),
        _ => (0..call.rows()).map(|_| refusal()).collect::<Vec<_>>().into(),
    }
}

/// A reply of skipped rows.
fn skipped(call: &Call, answer: Answer, why: &'static str) -> Reply {
    (0..call.rows()).map(|_| Row::new(answer).not_run(why)).collect::<Vec<_>>().into()
}

/// Keeps the panics of the original, which the driver catches, off the screen. A panic of the driver or of a stand-in would be caught like
/// one and taken for it: it ends the program instead.
pub fn quiet() {
    static ONCE: std::sync::Once = std::sync::Once::new();
    ONCE.call_once(|| {
        let usual = std::panic::take_hook();
        std::panic::set_hook(Box::new(move |info| {
            let file = info.location().map_or("", |at| at.file());
            let of_the_driver = file.contains("original/src/") || file.contains("stand-ins/");
            let of_the_original = !of_the_driver && ORIGINAL.iter().any(|name| file.ends_with(name));
            if !of_the_original {
                usual(info);
            }
            if of_the_driver {
                std::process::abort();
            }
        }));
    });
}

/// The files of the original in which code runs.
const ORIGINAL: [&str; 9] = [
    "/channel_manager.rs",
    "/codec.rs",
    "/connection.rs",
    "/connection_manager.rs",
    "/cursor.rs",
    "/l2cap.rs",
    "/pdu.rs",
    "/l2cap/sar.rs",
    "/types/l2cap.rs",
];

/// Plays a script and gives each call with its reply, in order.
pub fn play(calls: impl IntoIterator<Item = Call>, manner: Manner, mut seen: impl FnMut(&Call, &Reply)) {
    let mut calls = calls.into_iter().peekable();
    let mut table = Table::None;
    while let Some(call) = calls.next() {
        let reply = match (&call, &table) {
            (Call::Make { n, d, m }, _) => {
                let (made, reply) = make(*n, *d, *m);
                table = made;
                reply
            }
            (Call::Unread(_), _) | (_, Table::None) => without_table(&call),
            (_, Table::NoSize) => skipped(&call, Answer::Skipped, NO_SIZE),
            (_, Table::Made) => unreachable!("a session takes its own calls"),
        };
        seen(&call, &reply);
        if let (Call::Make { n, d, m }, Table::Made) = (&call, &table) {
            let mut player = Player { calls: &mut calls, seen: &mut seen, asked: None, down: false };
            session(*n, *d, *m, manner, &mut player);
        }
    }
}

enum Table {
    None,
    NoSize,
    Made,
}

fn make(n: u16, d: u16, m: u16) -> (Table, Reply) {
    if !can_be_made(n, d, m) {
        (Table::None, Row::number(1).not_run(NO_SLOTS).into())
    } else if SIZES.contains(&m) {
        (Table::Made, Row::number(0).into())
    } else {
        (Table::NoSize, Row::number(0).not_run(NO_SIZE).into())
    }
}

/// Feeds a session until the next `T`. After a panic the original is down: nothing more is asked of it.
struct Player<'a, I: Iterator<Item = Call>> {
    calls: &'a mut std::iter::Peekable<I>,
    seen: &'a mut dyn FnMut(&Call, &Reply),
    asked: Option<Call>,
    down: bool,
}

impl<I: Iterator<Item = Call>> Feed for Player<'_, I> {
    fn next(&mut self, _eyes: &dyn Eyes) -> Option<Call> {
        loop {
            let call = self.calls.next_if(|call| !matches!(call, Call::Make { .. }))?;
            if !self.down {
                self.asked = Some(call.clone());
                return Some(call);
            }
            (self.seen)(&call, &skipped(&call, Answer::Panic, DOWN));
        }
    }

    fn answered(&mut self, reply: Reply) {
        self.down = reply.panicked();
        let call = self.asked.take().expect("a reply follows a call");
        (self.seen)(&call, &reply);
    }
}
