//! Runs told from rows given by hand: what a good program prints, and what a broken one might.

mod common;

use common::told;

const FREE: &str = "disconnected 0 64 0 0 0 e1 0 0 0 0 0 0 0 0 0 0";
const PENDING: &str = "peer-connecting:7 1 64 128 0 0 e1 0 0 80 23 100 5 1 0 0 0";
const OPEN: &str = "connected 1 64 128 25 23 e1 9 0 80 23 100 5 1 0 0 0";
/// Three of four octets have come; in `FULL` another job waits beside.
const HALF: &str = "connected 1 64 128 25 23 e1 8 1 80 23 100 5 1 3 4 0";
const FULL: &str = "connected 1 64 128 25 23 e1 7 2 80 23 100 5 1 3 4 1 2";

/// The octets of a place that arrive or wait.
const NONE: &str = "";
const ARRIVED: &str = "aa00cc";
const WAITING: &str = "1122";

/// A step: the line, its row, the slot after it, and what stands in the slot's two places.
type Step<'a> = (&'a str, &'a str, &'a str, [&'a str; 2]);

/// The row of an `M` on places of 23 octets.
fn room(places: [&str; 2]) -> String {
    format!("0 {:0<46}{:0<46}", places[0], places[1])
}

/// What is told of the steps of a table of one slot, behind its making.
fn steps(steps: &[Step<'_>]) -> String {
    let mut script = String::new();
    let mut rows = "answer octets\n".to_string();
    let mut tallies = "";
    for (line, row, slot, places) in [&[("T 1 1 29", "0 -", FREE, [NONE; 2])], steps].concat() {
        script += &format!("{line}\n");
        // From the first frame or send on they are looked at; here they stay.
        if line.starts_with(['F', 'K']) {
            tallies = "0 - 0 0 0 0\n";
        }
        rows += &format!("{row}\n0 - 1 1 29 1\n= 0 {slot}\n{}\n{tallies}", room(places));
    }
    let (text, all_read) = told(&script, &rows).expect("rows that fit");
    assert!(all_read);
    text.split_inclusive('\n').skip(4).collect()
}

/// What is told of one step from a slot with these octets in its places.
fn step(from: (&str, [&str; 2]), step: Step<'_>) -> String {
    let text = steps(&[("H 0", "0 -", from.0, from.1), step]);
    let start = text.find("   3  ").expect("a third line");
    text[start..].to_string()
}

#[test]
fn a_phone_closes_in_mid_job() {
    let closed = "peer-disconnecting:8 1 64 128 25 23 e1 8 1 80 23 100 5 1 0 0 0";
    let line = "S 1 1 c 0608040040005000";
    assert_eq!(
        step((HALF, [ARRIVED, NONE]), (line, "0 -", closed, [NONE; 2])),
        "   3  S 1 1 c 0608040040005000
      asked    the phone on link 1 sends disconnect request 8: our CID 64 (slot 0), its CID 80
      answer   0 done
      changed  slot 0: phone on link 1 closed in mid-job: 3 of 4 octets were here, 3 octets wiped
               slot 0: open → closed by the phone (request 8), our response is due
"
    );
    // A program that forgets to wipe is told.
    let forgotten = step((HALF, [ARRIVED, NONE]), (line, "0 -", closed, [ARRIVED, NONE]));
    assert!(forgotten.contains("3 of 4 octets were here, only 1 of 3\n               octets wiped\n"), "{forgotten}");
    assert!(forgotten.ends_with("               slot 0: its room has 2 octets of no job\n"), "{forgotten}");
}

#[test]
fn a_link_goes_down_with_a_job_arriving_and_one_waiting() {
    let held = "disconnected 0 64 0 0 0 e1 0 0 0 0 0 0 1 0 0 0";
    assert_eq!(
        step((FULL, [ARRIVED, WAITING]), ("W 1", "0 -", held, [NONE; 2])),
        "   3  W 1
      asked    link 1 is down: its phone is gone
      answer   0 done
      changed  slot 0: phone on link 1 left in mid-job: 3 of 4 octets were here, 3 octets wiped
               slot 0: 1 job that waited is lost: 2 octets wiped
               slot 0: open → freed but held once, so no phone gets it yet
"
    );
}

#[test]
fn how_a_job_ends_before_its_time() {
    let closing = "disconnecting 1 64 128 25 23 e1 8 1 80 23 100 5 0 0 0 0";
    let released = step((HALF, [ARRIVED, NONE]), ("L 0", "0 -", closing, [NONE; 2]));
    assert!(released.contains("changed  slot 0: we close in mid-job: 3 of 4 octets were here, 3 octets wiped\n"), "{released}");
    assert!(released.ends_with("slot 0: open → closing, our request is due; no hold left\n"), "{released}");
    let broken = step((HALF, [ARRIVED, NONE]), ("F 1 64 0102", "9 -", closing, [NONE; 2]));
    assert!(broken.contains("changed  slot 0: the job is broken off: 3 of 4 octets were here, 3 octets wiped\n"), "{broken}");
    let dropped = "connected 1 64 128 25 23 e1 6 3 80 23 100 5 1 0 0 1 2";
    let dropped = step((FULL, [ARRIVED, WAITING]), ("F 1 64 01", "21 -", dropped, [NONE, WAITING]));
    assert!(dropped.contains("changed  slot 0: the job is dropped: 3 of 4 octets were here, 3 octets wiped\n"), "{dropped}");
    assert!(dropped.ends_with("slot 0: the phone's credits 7 → 6\n"), "{dropped}");
}

#[test]
fn a_job_arrives_waits_and_is_taken() {
    let waits = "connected 1 64 128 25 23 e1 7 2 80 23 100 5 1 0 0 1 4";
    let text = steps(&[
        ("H 0", "0 -", OPEN, [NONE; 2]),
        ("F 1 64 0400aa00cc", "0 -", HALF, [ARRIVED, NONE]),
        ("F 1 64 dd", "0 -", waits, [NONE, "aa00ccdd"]),
        ("B 0 3", "12 -", waits, [NONE, "aa00ccdd"]),
        ("B 0 4", "0 aa00ccdd 4 4 080005001601040040000200", OPEN, [NONE; 2]),
        ("B 0 3", "0 -", OPEN, [NONE; 2]),
    ]);
    let expected = "   3  F 1 64 0400aa00cc
      asked    the phone on link 1 sends a frame to CID 64 (slot 0): the first 3 of a job's 4 octets
      answer   0 done
      changed  slot 0: 3 of 4 octets of a job are here; the phone's credits 9 → 8
   4  F 1 64 dd
      asked    the phone on link 1 sends a frame to CID 64 (slot 0): 1 octet more of the job
      answer   0 done
      changed  slot 0: a job of 4 octets is whole and waits; the phone's credits 8 → 7
   5  B 0 3
      asked    take the oldest job of the phone on link 1 (slot 0) into a buffer of 3 octets
      answer   12 InsufficientSpace: the job of 4 octets is longer than the buffer, and waits on
      changed  nothing
   6  B 0 4
      asked    take the oldest job of the phone on link 1 (slot 0) into a buffer of 4 octets
      answer   0 done: the whole job of 4 octets: aa00ccdd
      out      to the phone on link 1: credit signal 1: 2 credits for the phone, our CID 64 (slot 0)
      changed  slot 0: the job is out of the room, no job waits; the phone's credits 7 → 9
   7  B 0 3
      asked    take the oldest job of the phone on link 1 (slot 0) into a buffer of 3 octets
      answer   0 done: no job waits
      changed  nothing
";
    assert!(text.ends_with(expected), "{text}");
    // A program that cuts is told, and so is one that refuses and loses the job all the same.
    let cut = step((waits, [NONE, "aa00ccdd"]), ("B 0 3", "0 aa00cc 3 4 080005001601040040000200", OPEN, [NONE; 2]));
    assert!(cut.contains("answer   0 done: only 3 of the job's 4 octets: aa00cc\n"), "{cut}");
    let lost = step((waits, [NONE, "aa00ccdd"]), ("B 0 3", "12 -", OPEN, [NONE; 2]));
    assert!(lost.contains("changed  slot 0: the job is out of the room, no job waits; the phone's credits 7 → 9\n"), "{lost}");
    for (from, size) in [((waits, [NONE, "aa00ccdd"]), 4), ((OPEN, [NONE; 2]), 0)] {
        let wrong = step(from, (&format!("B 0 {size}"), "12 -", from.0, from.1));
        assert!(wrong.contains("answer   12 InsufficientSpace: but no job waits that is longer than the buffer\n"), "{wrong}");
    }
    // Of other calls 12 says what it said.
    let long = step((OPEN, [NONE; 2]), ("K 0 0102", "12 -", OPEN, [NONE; 2]));
    assert!(long.contains("answer   12 InsufficientSpace: larger than our packets hold, or than the phone takes\n"), "{long}");
}

#[test]
fn a_phone_connects_and_a_job_goes_out() {
    let text = steps(&[
        ("S 1 0 c 14070a0080005000640017000500", "0 -", &PENDING.replace(" 5 1 ", " 5 0 "), [NONE; 2]),
        ("P 1 1", "0 - 0", PENDING, [NONE; 2]),
        ("A 0 - 25 m2 9", "0 0e00050015070a00400017001900090000", OPEN, [NONE; 2]),
        ("K 0 0102", "0 0400500002000102 1", &OPEN.replace(" 5 1 ", " 4 2 "), [NONE; 2]),
    ]);
    assert_eq!(
        text,
        "   2  S 1 0 c 14070a0080005000640017000500
      asked    the phone on link 1 sends connect request 7 for SPSM 128: its CID 80, jobs up to 100
               octets in frames up to 23, 5 credits for us (nobody listens)
      answer   0 done
      changed  slot 0: free → pending (request 7) for the phone on link 1
   3  P 1 1
      asked    does the phone on link 1 wait for an answer? (the link is up)
      answer   0 done: yes, at slot 0
      changed  slot 0: held once
   4  A 0 - 25 m2 9
      asked    accept the phone on link 1 (slot 0), with frames up to 25 octets, 9 credits, more
               when fewer than 2 are left, the rest as usual
      answer   0 done
      out      to the phone on link 1: 17 octets that are no signal:
               0e00050015070a004000170019000900…
      changed  slot 0: pending → open
   5  K 0 0102
      asked    send a job of 2 octets to the phone on link 1 (slot 0)
      answer   0 done: sent in 1 frame
      out      to the phone on link 1: 1 frame to its CID 80, of 4 octets: a job of 2 octets, and
               its length
      changed  slot 0: our credits 5 → 4; held twice
"
    );
}

#[test]
fn a_slot_that_stays_says_so_and_what_has_no_words_too() {
    let text = step((FREE, [NONE; 2]), ("Z 0", "22 -", FREE, [NONE; 2]));
    assert!(text.ends_with("changed  nothing\n"), "{text}");
    let unknown = "changed  slot 0: its numbers or its room changed in a way that has no words here: see V and M\n";
    let text = step((OPEN, [NONE; 2]), ("E 64", "0 -", &OPEN.replace(" 128 ", " 129 "), [NONE; 2]));
    assert!(text.ends_with(unknown), "{text}");
    let text = step((HALF, [ARRIVED, NONE]), ("E 64", "0 -", HALF, ["aa00cd", NONE]));
    assert!(text.ends_with(unknown), "{text}");
    let text = step((FREE, [NONE; 2]), ("H 0", "22 -", FREE, [NONE, "01"]));
    assert!(text.ends_with("changed  slot 0: its room has 1 octet of no job\n"), "{text}");
    let text = step((FREE, [NONE, "01"]), ("H 0", "22 -", FREE, [NONE, "01"]));
    assert!(text.ends_with("changed  nothing\n"), "{text}");
}

#[test]
fn an_attempt_of_ours_is_refused() {
    let attempt = "connecting:1 1 64 129 25 23 e1 1 0 0 0 0 0 0 0 0 0";
    let failed = "connect-failed:4 1 64 129 25 23 e1 1 0 0 0 0 0 0 0 0 0";
    let text = steps(&[
        ("C 1 129 - - - -", "0 - 0", attempt, [NONE; 2]),
        ("S 1 1 c 15010a0000000000000000000400", "17 - 4", failed, [NONE; 2]),
        ("O 0 1 1", "17 - 4", FREE, [NONE; 2]),
    ]);
    let changed: Vec<&str> = text.lines().filter(|line| line.contains("changed") || line.contains("answer")).collect();
    assert_eq!(
        changed,
        [
            "      answer   0 done: at slot 0",
            "      changed  slot 0: free → an attempt of ours (request 1) for the phone on link 1",
            "      answer   17 ConnectError: the phone refused the channel, result 4 NoResources",
            "      changed  slot 0: an attempt of ours → failed (result 4 NoResources)",
            "      answer   17 ConnectError: the phone refused the channel, result 4 NoResources",
            "      changed  slot 0: failed → free",
        ]
    );
}

/// What decides is told beside the numbers: a request and a response below 23, and who comes before them.
#[test]
fn an_old_handset() {
    let told = |line: &str, row: &str| steps(&[(line, row, FREE, [NONE; 2])]);
    assert_eq!(
        told("S 1 1 c 14070a008000500064000a000500", "0 0e00050015070a0000000000000000000b00"),
        "   2  S 1 1 c 14070a008000500064000a000500
      asked    the phone on link 1 sends connect request 7 for SPSM 128: its CID 80, jobs up to 100
               octets in frames up to 10, 5 credits for us (Bluetooth's least is 23)
      answer   0 done
      out      to the phone on link 1: connect response 7: refused, result 11 UnacceptableParameters
      changed  nothing
"
    );
    let deaf = told("S 1 0 c 14070a008000500064000a000500", "0 0e00050015070a0000000000000000000400");
    assert!(deaf.contains("5 credits for us (nobody listens)\n") && !deaf.contains("least"), "{deaf}");
    let enough = told("S 1 1 c 14070a0080005000170017000500", "0 -");
    assert!(enough.contains("5 credits for us\n"), "{enough}");
}

#[test]
fn a_phone_opens_with_frames_that_are_too_small() {
    let attempt = "connecting:1 1 64 129 25 23 e1 1 0 0 0 0 0 0 0 0 0";
    let closing = "disconnecting 1 64 129 25 23 e1 1 0 80 22 100 5 0 0 0 0";
    let asked = ("C 1 129 - - - -", "0 - 0", attempt, [NONE; 2]);
    let answered = ("S 1 1 c 15010a0050006400160005000000", "9 -", closing, [NONE; 2]);
    let text = steps(&[asked, answered, ("O 0 1 1", "18 -", FREE, [NONE; 2])]);
    let start = text.find("   3  ").expect("a third line");
    assert_eq!(
        &text[start..],
        "   3  S 1 1 c 15010a0050006400160005000000
      asked    the phone on link 1 sends connect response 1: accepted; its CID 80, jobs up to 100
               octets in frames up to 22, 5 credits for us (Bluetooth's least is 23)
      answer   9 InvalidValue: a length or a sum of credits goes past what can be, or a size falls
               below 23
      changed  slot 0: an attempt of ours → closing, our request is due
   4  O 0 1 1
      asked    is our channel to the phone on link 1 (slot 0) open? (the link is up)
      answer   18 Disconnected: the link or the channel is down
      changed  slot 0: our request was due and is never written: the phone isn't told
               slot 0: closing → free
"
    );
    // Where the phone is gone, or our request is out, nothing is lost; our response to a phone can be lost too.
    let out = closing.replace("disconnecting", "disconnecting:announced");
    for (from, line) in [(closing, "O 0 1 0"), (closing, "W 1"), (&out, "O 0 1 1")] {
        let text = step((from, [NONE; 2]), (line, "18 -", FREE, [NONE; 2]));
        assert!(text.ends_with("changed  slot 0: closing → free\n"), "{text}");
    }
    let theirs = closing.replace("disconnecting", "peer-disconnecting:9");
    let text = step((&theirs, [NONE; 2]), ("O 0 1 1", "18 -", FREE, [NONE; 2]));
    assert!(text.contains("changed  slot 0: our response was due and is never written: the phone isn't told\n"), "{text}");
}

#[test]
fn a_frame_above_our_mps() {
    let closing = "disconnecting 1 64 128 25 23 e1 7 2 80 23 100 5 1 0 0 0";
    let (long, most) = ("dd".repeat(26), "dd".repeat(25));
    assert_eq!(
        step((HALF, [ARRIVED, NONE]), (&format!("F 1 64 {long}"), "9 -", closing, [NONE; 2])),
        format!(
            "   3  F 1 64 {long}
      asked    the phone on link 1 sends a frame to CID 64 (slot 0): 26 octets, where a frame to us
               has at most 25
      answer   9 InvalidValue: a length or a sum of credits goes past what can be, or a size falls
               below 23
      changed  slot 0: the job is broken off: 3 of 4 octets were here, 3 octets wiped
               slot 0: open → closing, our request is due; the phone's credits 8 → 7
"
        )
    );
    let first = step((OPEN, [NONE; 2]), (&format!("F 1 64 {long}"), "9 -", closing, [NONE; 2]));
    assert!(first.contains("(slot 0): 26 octets, where a frame to us\n               has at most 25\n"), "{first}");
    let joins = step((HALF, [ARRIVED, NONE]), (&format!("F 1 64 {most}"), "9 -", closing, [NONE; 2]));
    assert!(joins.contains("(slot 0): 25 octets more of the job\n"), "{joins}");
    // It says nothing of another phone's channel.
    let other = step((HALF, [ARRIVED, NONE]), (&format!("F 2 64 {long}"), "8 -", HALF, [ARRIVED, NONE]));
    assert!(other.contains("(slot 0): 26 octets\n"), "{other}");
}

#[test]
fn a_frame_of_another_phone_says_nothing_of_the_job() {
    let text = step((HALF, [ARRIVED, NONE]), ("F 2 64 dd", "8 -", HALF, [ARRIVED, NONE]));
    assert!(text.contains("asked    the phone on link 2 sends a frame to CID 64 (slot 0): 1 octet\n"), "{text}");
    let text = step((FREE, [NONE; 2]), ("F 2 64 dd", "0 -", FREE, [NONE; 2]));
    assert!(text.contains("answer   0 done: dropped, since the slot isn't open\n"), "{text}");
}

#[test]
fn looking_lines_show_table_and_room() {
    let free = |slot: usize| format!("= {slot} disconnected 0 {} 0 0 0 e1 0 0 0 0 0 0 0 0 0 0\n", 64 + slot);
    let view = format!(
        "0 - 5 1 29 4\n= 0 {FULL}\n{}{}= 3 connecting:3 2 67 129 25 23 e2 1 0 0 0 0 0 0 0 0 0\n= 4 {}\n",
        free(1),
        free(2),
        PENDING.replace(" 64 ", " 68 ")
    );
    let full = room([ARRIVED, WAITING]);
    let rooms = format!("{full}\n{zeros}\n{zeros}\n{zeros}\n{zeros}\n", zeros = room([NONE; 2]));
    let looks =
        format!("{full}\n{}\n{}\n6 -\n0 - 0 0 4\n0 - 1 1 0\n0 - 9 2 0\n0 - 128 23 25 100 23\n", room([NONE; 2]), room([NONE, "01"]));
    let script = "# a scene\n\nT 5 1 29\r\nV\nM 0\nM 1\nM 2\nM 5\nI\nI\nI\nU 0\n#";
    let (text, _) = told(script, &format!("answer octets\n0 -\n{view}{rooms}{view}{looks}")).expect("rows that fit");
    assert_eq!(
        text,
        "# a scene

   3  T 5 1 29
      asked    make a table: 5 slots, 1 job can wait at a slot, packets of 29 octets
      answer   0 done
      changed  5 slots, only 2 free; a room of 230 octets, only 226 zero
   4  V
      asked    show the table
      answer   0 done
               slot 0: open, held once; the phone on link 1, SPSM 128, our CID 64, its CID 80; to us
               jobs up to 23 octets in frames up to 25, 7 credits left; to it jobs up to 100 octets
               in frames up to 23, 5 credits left; 3 of 4 octets of a job are here; a job of 2
               octets waits
               slots 1 to 2: free
               slot 3: an attempt of ours (request 3); the phone on link 2, SPSM 129, our CID 67,
               its CID 0; to us jobs up to 23 octets in frames up to 25, 1 credit left, more after
               every 2 frames
               slot 4: pending (request 7), held once; the phone on link 1, SPSM 128, our CID 68,
               its CID 80; to it jobs up to 100 octets in frames up to 23, 5 credits left
   5  M 0
      asked    show the room of slot 0
      answer   0 done: 3 octets of a job that is arriving: aa00cc; a job of 2 octets waits: 1122;
               zeros behind
   6  M 1
      asked    show the room of slot 1
      answer   0 done: all 46 octets are zero
   7  M 2
      asked    show the room of slot 2
      answer   0 done: 1 octet of no job
   8  M 5
      asked    show the room of slot 5
      answer   6 BadSlot: the table has no such slot
   9  I
      asked    which slots call for attention?
      answer   0 done: no slot calls
  10  I
      asked    which slots call for attention?
      answer   0 done: slot 0 calls
  11  I
      asked    which slots call for attention?
      answer   0 done: slots 0 and 3 call
  12  U 0
      asked    the numbers of slot 0
      answer   0 done: SPSM 128; we take jobs up to 23 octets in frames up to 25; the phone takes
               jobs up to 100 octets in frames up to 23
#
"
    );
}

#[test]
fn tables_come_and_go() {
    let none = "0 - 0 0 0 1\n";
    let one = format!("0 - 1 1 29 1\n= 0 {FREE}\n{}\n", room([NONE; 2]));
    let open = format!("0 - 1 1 29 1\n= 0 {OPEN}\n{}\n", room([NONE; 2]));
    let rows = format!("answer octets\n1 -\n{none}1 -\n{none}0 -\n{one}0 -\n{one}0 -\n{open}1 -\n{none}");
    let (text, _) = told("T 0 1 64\nL 0\nT 1 1 29\nR 128\nH 0\nT 1 9 29", &rows).expect("rows that fit");
    let changed: Vec<&str> = text.lines().filter_map(|line| line.strip_prefix("      changed  ")).collect();
    assert_eq!(
        changed,
        [
            "there is still no table: every call is refused by 1",
            "nothing",
            "1 slot, free; a room of 46 octets, all zero",
            "SPSM 128 is registered",
            "slot 0: free → open for the phone on link 1; held once",
            "there is no table any more: every call is refused by 1; the table before, with 1 slot",
        ]
    );
}

#[test]
fn lines_that_cannot_be_read_say_why() {
    let (text, all_read) = told("q\nQ\n", "answer octets\n? -\n1 -\n0 - 0 0 0 1\n").expect("rows that fit");
    assert!(!all_read);
    assert!(text.starts_with("   1  q\n      answer   ? cannot be read: `q` is no call\n   2  Q\n"), "{text}");
}

#[test]
fn signals_of_one_pdu_are_told_one_by_one() {
    let slot = |credits: usize| OPEN.replace(" 5 1 ", &format!(" {credits} 1 "));
    let after = |slot: &str| format!("0 - 1 1 29 1\n= 0 {slot}\n{}\n", room([NONE; 2]));
    let rows = format!("answer octets\n0 -\n{}0 -\n{}0 -\n{}8 -\n{}", after(FREE), after(OPEN), after(&slot(15)), after(&slot(15)));
    let (text, _) = told("T 1 1 29\nH 0\nS 1 1 c 1610040050000a001611040051000500\n", &rows).expect("rows that fit");
    assert!(
        text.ends_with(
            "   3  S 1 1 c 1610040050000a001611040051000500
      asked    signal 1 of 2: the phone on link 1 sends credit signal 16: 10 credits for us, its CID
               80
      answer   0 done
      changed  slot 0: our credits 5 → 15
      asked    signal 2 of 2: the phone on link 1 sends credit signal 17: 5 credits for us, its CID
               81
      answer   8 NotFound: no slot fits, or no job is open in it
      changed  nothing
"
        ),
        "{text}"
    );
}

#[test]
fn rows_that_are_not_the_scripts_are_refused() {
    let made = format!("answer octets\n0 -\n0 - 1 1 29 1\n= 0 {FREE}\n{}\n", room([NONE; 2]));
    let trouble = |script: &str, rows: &str| told(script, rows).expect_err("rows that don't fit").to_string();
    assert_eq!(trouble("Q", ""), "the program's rows end where the head line `answer octets` must stand");
    assert_eq!(trouble("Q", "0 -\n"), "the program printed `0 -` where the head line `answer octets` must stand");
    assert_eq!(trouble("Q", "answer octets\n"), "line 1: the program's rows end where the row of its call must stand");
    assert_eq!(trouble("#\nQ", "answer octets\n? -\n"), "line 2: the program printed `? -` where the row of its call must stand");
    assert_eq!(
        trouble("q", "answer octets\n0 -\n"),
        "line 1: the program printed `0 -` where `? -`, for a line that cannot be read, must stand"
    );
    assert_eq!(trouble("Q", "answer octets\n1 -\n0 -\n"), "line 1: the program printed `0 -` where a view must stand");
    assert_eq!(trouble("Q", "answer octets\n1 -\n0 - 0 0 0 256\n"), "line 1: the program printed `0 - 0 0 0 256` where a view must stand");
    assert_eq!(trouble("T 1 1 29", &made.replace("= 0", "= 1")).split(" where ").last(), Some("slot 0 of a view must stand"));
    assert_eq!(trouble("T 2 1 29", &made), "line 1: the program shows 1 slot, where 2 must be");
    assert_eq!(trouble("T 1 1 29", &made.replace("1 1 29", "1 2 29")).split(" where ").last(), Some("the room of slot 0 must stand"));
    assert_eq!(trouble("T 1 1 29", &format!("{made}0 -\n")), "the program printed more rows than the script asks for");
    assert_eq!(trouble("V", "answer octets\n0 - 1 1 29 1\n"), "line 1: the program's rows end where slot 0 of a view must stand");
    assert_eq!(trouble("Q", "answer octets\n\u{1b}[2J\n"), "line 1: the program printed `\\u{1b}[2J` where the row of its call must stand");
}

/// A table of one open slot, and on it a job in portions: what is told of each line from its row, the slot and the open job behind it.
fn portions(steps: &[(&str, &str, &str, &str)]) -> String {
    let mut script = "T 1 1 29\nH 0\n".to_string();
    let free = |slot: &str| format!("0 - 1 1 29 1\n= 0 {slot}\n{}\n", room([NONE; 2]));
    let mut rows = format!("answer octets\n0 -\n{}0 -\n{}", free(FREE), free(OPEN));
    for (line, row, slot, job) in steps {
        script += &format!("{line}\n");
        rows += &format!("{row}\n{}{job}\n0 - 0 0 0 0\n", free(slot));
    }
    let (text, all_read) = told(&script, &rows).expect("rows that fit");
    assert!(all_read);
    text[text.find("   3  ").expect("a third line")..].to_string()
}

#[test]
fn a_job_in_portions() {
    let begun = OPEN.replace("23 100 5", "23 100 3");
    assert_eq!(
        portions(&[
            ("N 0 22 27", "0 - 2", &begun, "0 170050001600 22 0 2 2"),
            ("p 0 27 aabb", "0 - 2 0", &begun, "0 170050001600aabb 22 2 4 2"),
            ("p 0 27 cc", "0 1700500016 0 1", &begun, "0 - 22 21 0 1"),
            ("p 0 27 dd", "0 01005000dd 1 1", &begun, "0 - 0 0 0 0"),
        ]),
        "   3  N 0 22 27
      asked    begin a job of 22 octets to the phone on link 1 (slot 0), in portions, in a buffer of
               27 octets
      answer   0 done: begun, with 2 frames to come
      changed  slot 0: 0 of 22 octets of a job are taken, 2 credits are set aside; our credits 5 → 3
   4  p 0 27 aabb
      asked    give 2 octets of the open job to the phone on link 1 (slot 0)
      answer   0 done: 2 octets taken, no frame is full
      changed  slot 0: 2 of 22 octets of a job are taken, 2 credits are set aside
   5  p 0 27 cc
      asked    give 1 octet of the open job to the phone on link 1 (slot 0)
      answer   0 done: the first 0 of 1 octet taken, and a frame is full
      out      to the phone on link 1: 5 octets that are no frame: 1700500016
      changed  slot 0: 21 of 22 octets of a job are taken, 1 credit is set aside
   6  p 0 27 dd
      asked    give 1 octet of the open job to the phone on link 1 (slot 0)
      answer   0 done: 1 octet taken, and a frame is full
      out      to the phone on link 1: a frame to its CID 80, of 1 octet
      changed  slot 0: the job is closed, its last frame is out
"
    );
}

#[test]
fn a_job_in_portions_that_ends_early() {
    let begun = OPEN.replace("23 100 5", "23 100 3");
    let closing = begun.replace("connected", "disconnecting");
    let told = portions(&[
        ("N 0 22 27", "0 - 2", &begun, "0 170050001600 22 0 2 2"),
        ("x 0", "0 -", OPEN, "0 - 0 0 0 0"),
        ("x 0", "8 -", OPEN, "0 - 0 0 0 0"),
        ("N 0 22 27", "0 - 2", &begun, "0 170050001600 22 0 2 2"),
        ("K 0 aa", "24 -", &begun, "0 170050001600 22 0 2 2"),
        ("p 0 27 aa", "25 -", &begun, "0 170050001600 22 0 2 2"),
        ("D 0", "0 -", &closing, "0 - 0 0 0 0"),
    ]);
    for line in [
        "slot 0: the job is cancelled; our credits 3 → 5",
        "8 NotFound: no slot fits, or no job is open in it",
        "24 JobOpen: a job is open at this slot, and goes first",
        "25 WrongLength: more octets than the job still lacks: none is taken",
        "slot 0: our job goes with the channel: 0 of 22 octets were taken, 2 credits are gone",
    ] {
        assert!(told.contains(line), "{line}\n{told}");
    }
    // A program that shows no open job where one must be shown is told.
    let (script, rows) = ("T 1 1 29\nN 0 1 7", "answer octets\n0 -\n0 - 1 1 29 1\n= 0 ");
    let rows = format!("{rows}{FREE}\n{0}\n11 -\n0 - 1 1 29 1\n= 0 {FREE}\n{0}\n0 - 1 2\n", room([NONE; 2]));
    let trouble = crate::told(script, &rows).expect_err("a row of another form").to_string();
    assert_eq!(trouble, "line 2: the program printed `0 - 1 2` where the open job of slot 0 must stand");
}

/// A table of one open slot with these tallies: what is told of each line from its row, the slot behind it, and its tallies.
fn counted(steps: &[(&str, &str, &str, &str)]) -> String {
    let mut script = "T 1 1 29\nH 0\n".to_string();
    let seen = |slot: &str| format!("0 - 1 1 29 1\n= 0 {slot}\n{}\n", room([NONE; 2]));
    let mut rows = format!("answer octets\n0 -\n{}0 -\n{}", seen(FREE), seen(OPEN));
    for (line, row, slot, tallies) in steps {
        script += &format!("{line}\n");
        rows += &if line.starts_with('t') { format!("{row}\n") } else { format!("{row}\n{}0 - {tallies}\n", seen(slot)) };
    }
    let (text, all_read) = told(&script, &rows).expect("rows that fit");
    assert!(all_read);
    text[text.find("   3  ").expect("a third line")..].to_string()
}

#[test]
fn tallies_are_told_and_what_changes_in_them() {
    let sent = OPEN.replace("23 100 5", "23 100 4");
    let closing = sent.replace("connected", "disconnecting");
    assert_eq!(
        counted(&[
            ("K 0 0102", "0 0400500002000102 1", &sent, "1 0 0 0"),
            ("K 0 0102", "14 -", &sent, "1 0 1 0"),
            ("F 1 64 dd", "10 -", &sent, "1 0 1 1"),
            ("t 0", "0 - 1 0 1 1", "", ""),
            ("t 1", "6 -", "", ""),
            ("t 0", "0 - 18446744073709551615 2 0 18446744073709551615", "", ""),
            ("D 0", "0 -", &closing, "0 0 0 0"),
            ("t 0", "0 - 0 0 0 0", "", ""),
        ]),
        "   3  K 0 0102
      asked    send a job of 2 octets to the phone on link 1 (slot 0)
      answer   0 done: sent in 1 frame
      out      to the phone on link 1: 1 frame to its CID 80, of 4 octets: a job of 2 octets, and
               its length
      changed  slot 0: our credits 5 → 4
               slot 0: frames sent 0 → 1
   4  K 0 0102
      asked    send a job of 2 octets to the phone on link 1 (slot 0)
      answer   14 Busy: the phone gave too few credits for all frames: nothing was sent
      changed  slot 0: blocked sends 0 → 1
   5  F 1 64 dd
      asked    the phone on link 1 sends a frame to CID 64 (slot 0): 1 octet, too few to say a job's
               length
      answer   10 OutOfMemory: the phone had no credit left for this frame
      changed  slot 0: blocked frames 0 → 1
   6  t 0
      asked    the tallies of the phone on link 1 (slot 0)
      answer   0 done: 1 frame sent, no frames received; blocked: 1 send, 1 frame
   7  t 1
      asked    the tallies of slot 1
      answer   6 BadSlot: the table has no such slot
   8  t 0
      asked    the tallies of the phone on link 1 (slot 0)
      answer   0 done: 18446744073709551615 frames sent, 2 frames received; blocked: no sends,
               18446744073709551615 frames
   9  D 0
      asked    close the channel to the phone on link 1 (slot 0)
      answer   0 done
      changed  slot 0: open → closing, our request is due
               slot 0: its tallies are zeros again, and were: 1 frame sent, no frames received;
               blocked: 1 send, 1 frame
  10  t 0
      asked    the tallies of the phone on link 1 (slot 0)
      answer   0 done: no frames sent, no frames received; blocked: no sends, no frames
"
    );
    // A program that counts what it must not is told, and so is one that shows no tallies.
    let wrong = counted(&[("F 2 64 dd", "8 -", OPEN, "0 1 0 0")]);
    assert!(wrong.ends_with("changed  slot 0: frames received 0 → 1\n"), "{wrong}");
    let rows = |row: &str| {
        format!("answer octets\n0 -\n0 - 1 1 29 1\n= 0 {FREE}\n{0}\n0 -\n0 - 1 1 29 1\n= 0 {FREE}\n{0}\n{row}\n", room([NONE; 2]))
    };
    for row in ["? -", "6 -", "0 - 1 2 3", "0 - 1 2 3 18446744073709551616", "0 - 1 2 3 4 5"] {
        let trouble = crate::told("T 1 1 29\nF 1 64 dd", &rows(row)).expect_err("a row of another form").to_string();
        assert_eq!(trouble, format!("line 2: the program printed `{row}` where the tallies of slot 0 must stand"));
    }
}
