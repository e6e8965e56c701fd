//! The oracle's own tests: that it plays what document 01 prints, that its list and its parts fit together, that the comparison finds what
//! it must, and the findings that are too long for a file.

use language::{hex, Answer, Call, Manner, Reply, State};
use oracle::compare::{batch, Counts};
use oracle::faults::{Fault, Faulty};
use oracle::generate::{Generator, Plan};
use oracle::kinds::Kind;
use oracle::play::{play, quiet};
use oracle::rng::Rng;
use oracle::run::{run, script, Extent};
use oracle::script::{Script, Step};
use oracle::shrink::shrink;
use oracle::twin::Twin;
use oracle::without::without;
use std::io::Write;
use std::path::Path;
use std::process::{Command, Stdio};

fn rows(text: &str) -> Vec<String> {
    quiet();
    let mut rows = Vec::new();
    play(text.lines().map(|line| Call::parse(line.trim())), Manner::default(), |_, reply| rows.extend(reply.lines()));
    rows
}

/// A short run; the seed is the test's own.
fn extent(seed: u64, calls: usize) -> Extent {
    Extent { seed, calls, ..Extent::default() }
}

#[test]
fn the_sample_of_document_01() {
    let printed = rows("T 2 1 64\nR 128\nS 1 1 c 14070a0080004000170017000500\nS 1 1 c 14080a0081004100170017000500");
    assert_eq!(printed, ["0 -", "0 -", "0 -", "0 0e00050015080a0000000000000000000200"]);
}

#[test]
fn the_bench_frame_counts() {
    for (length, frames) in [(0, 1), (21, 1), (22, 2), (44, 2), (45, 3), (65_533, 2_850)] {
        let sdu = if length == 0 { "-".to_string() } else { "00".repeat(length) };
        let script = format!("T 2 2 64\nR 128\nS 1 1 c 14070a0080005000ffff1700ffff\nP 1 1\nA 0 - - - -\nK 0 {sdu}");
        let row = rows(&script).pop().unwrap();
        assert!(row.starts_with("0 ") && row.ends_with(&format!(" {frames}")), "{length}");
        if length == 0 {
            assert_eq!(row, "0 020050000000 1");
        }
    }
}

/// A job in portions, cut in every way of two: the frames of one send, and its record.
#[test]
fn portions_are_one_send() {
    let open = "T 2 2 64\nR 128\nS 1 1 c 14070a0080005000640017000500\nP 1 1\nA 0 - - - -";
    for length in [0, 1, 20, 21, 22, 44, 45, 60] {
        let octets: String = (0..length).map(|octet| format!("{octet:02x}")).collect();
        let whole = if length == 0 { "-" } else { &octets };
        let sent = rows(&format!("{open}\nK 0 {whole}\nV"));
        for cut in 0..=length {
            // What a call doesn't take is given again.
            let (mut script, mut given, mut end) = (format!("{open}\nN 0 {length} 27"), 0, cut);
            let mut frames = String::new();
            let job = loop {
                let portion = if given == end { "-" } else { &octets[2 * given..2 * end] };
                script += &format!("\np 0 27 {portion}");
                let row = rows(&script).pop().unwrap();
                let words: Vec<&str> = row.split(' ').collect();
                frames += words[1].trim_matches('-');
                given += words[2].parse::<usize>().unwrap();
                if given == end && end < length {
                    end = length;
                } else if given == length {
                    break rows(&format!("{script}\nV"));
                }
            };
            assert_eq!(format!("0 {frames} {}", job[5].split(' ').nth(2).unwrap()), sent[5], "{length} octets cut at {cut}");
            assert_eq!(job[job.len() - 3..], sent[sent.len() - 3..]);
        }
    }
}

#[test]
fn the_bench_credits() {
    for (more, row) in [("0500", "0 -"), ("0600", "9 -")] {
        let script = format!("T 2 2 64\nR 128\nS 1 1 c 14070a008000500064001700faff\nP 1 1\nA 0 - - - -\nS 1 1 c 160904005000{more}");
        assert_eq!(rows(&script).pop().unwrap(), row);
    }
}

#[test]
fn the_bench_cids() {
    assert_eq!(rows("T 2 1 64\nF 1 63 0000\nF 1 65 0000\nF 1 66 0000")[1..], ["7 -", "0 -", "7 -"]);
}

#[test]
fn a_table_that_cannot_be_made_and_lines_that_cannot_be_read() {
    assert_eq!(rows("V\nR 5\nT 0 1 64\nS 1 1 c 16090400500001001609040050000100\nx"), ["0 - 0 0 0 1", "1 -", "1 -", "1 -", "1 -", "? -"]);
    // 16 slots of 5 places: 825 is the largest packet for the room that chanrun lends.
    assert_eq!(rows("T 16 4 825\nT 16 4 826"), ["0 -", "1 -"]);
    // A size that no build has is made, and then nothing is asked.
    assert_eq!(rows("T 1 1 77\nR 128\nV"), ["0 -", "~ -", "~ -"]);
}

#[test]
fn the_program_passes_over_what_is_no_call_and_counts_it() {
    let mut child = Command::new(env!("CARGO_BIN_EXE_original"))
        .stdin(Stdio::piped())
        .stdout(Stdio::piped())
        .stderr(Stdio::piped())
        .spawn()
        .expect("the program runs");
    let script = b"# a scene\r\n\nT 1 1 29\r\n#\nR 128\n x\nT 0 1 64";
    child.stdin.take().expect("piped").write_all(script).expect("the program reads");
    let output = child.wait_with_output().expect("the program ends");
    assert_eq!(String::from_utf8_lossy(&output.stdout), "answer octets\n0 -\n0 -\n? -\n1 -\n");
    assert!(String::from_utf8_lossy(&output.stderr).contains("\nline 7: "));
}

#[test]
fn after_a_panic_nothing_is_asked() {
    assert_eq!(rows("T 1 1 29\nL 0\nR 128\nT 1 1 29\nR 128"), ["0 -", "panic -", "panic -", "0 -", "0 -"]);
}

#[test]
fn an_undefined_result_code_never_reaches_the_original() {
    quiet();
    let lines = ["T 1 1 29", "C 1 128 - - - -", "S 1 1 c 15010a0050006400170005000300", "X 0 3"];
    let mut not_run = Vec::new();
    play(lines.iter().map(|line| Call::parse(line)), Manner::default(), |_, reply| {
        not_run.extend(reply.rows.iter().map(|row| (row.answer, row.not_run.is_some())));
    });
    let number = |number, not_run| (Answer::Number(number), not_run);
    assert_eq!(not_run, [number(0, false), number(0, false), number(15, true), number(15, true)]);
}

#[test]
fn the_list_is_numbered_in_order() {
    let numbers: Vec<usize> = Kind::ALL.iter().map(|kind| kind.number()).collect();
    // 13 went into 50.
    assert!(numbers[..23].iter().copied().eq((1..=12).chain(14..=24)) && numbers.windows(2).all(|two| two[0] < two[1]));
}

#[test]
fn a_script_is_made_again_from_its_number() {
    let wanted = extent(5, 0);
    for number in 0..40 {
        assert_eq!(script(&wanted, number).text(), script(&wanted, number).text());
    }
    assert_ne!(script(&wanted, 0).text(), script(&wanted, 1).text());
}

/// The places of document 02 (ii) that a run has to reach, and what it must not do: end a script of the domain there.
#[test]
fn sizes_around_23_and_frames_around_our_mps_are_met() {
    quiet();
    let mut counts = Counts::default();
    (0..900).for_each(|number| counts.add(&script(&extent(1, 0), number)));
    let sizes = ["at 23", "with its MTU below 23", "with its MPS below 23", "with both below 23", "below 23 that an earlier test refuses"];
    let openings = ["request", "response"].map(|opening| sizes.map(|sizes| format!("a {opening} {sizes}")));
    let lengths = ["of exactly our MPS", "one octet past our MPS"];
    let frames = ["first", "joining"].map(|frame| lengths.map(|length| format!("a {frame} frame {length}")));
    for mark in openings.as_flattened().iter().chain(frames.as_flattened()) {
        assert!(counts.marks.contains_key(&mark[..]), "{mark}");
    }
    assert!([Kind::BelowLeast, Kind::LongerThanMps].iter().all(|kind| counts.kinds.contains_key(kind)));
    let domain = Extent { outside: 0, ..extent(1, 0) };
    let mut counts = Counts::default();
    (0..300).for_each(|number| counts.add(&script(&domain, number)));
    assert!(![Kind::BelowLeast, Kind::LongerThanMps].iter().any(|kind| counts.kinds.contains_key(kind)));
}

/// The places of document 02 (v) that a run has to reach: buffers around the job's length, in open channels and in those that are disconnecting.
#[test]
fn buffers_around_the_job_are_met() {
    quiet();
    let mut counts = Counts::default();
    (0..900).for_each(|number| counts.add(&script(&extent(1, 0), number)));
    let sizes = ["a buffer of exactly the job", "a buffer one octet short", "a buffer two octets short or more", "a job into 0 octets"];
    let closing = sizes.map(|size| format!("{size} while disconnecting"));
    let others = [
        "a buffer one octet longer than the job",
        "a job of 0 octets into 0 octets",
        "no job waits, a buffer of 0 octets",
        "no job waits while disconnecting, a buffer of 0 octets",
        "a take from a slot that is neither open nor disconnecting",
        "a short buffer where credits are due",
        "a short buffer with another job behind",
    ];
    for mark in sizes.into_iter().chain(others).chain(closing.iter().map(String::as_str)) {
        assert!(counts.marks.contains_key(mark), "{mark}");
    }
}

/// The places of document 02 (vi) that a run has to reach: what counts, and every way in which a channel that has counted ends or its numbers are handed on.
#[test]
fn what_counts_and_what_resets_is_met() {
    quiet();
    let mut counts = Counts::default();
    (0..900).for_each(|number| counts.add(&script(&extent(1, 0), number)));
    for mark in [
        "a blocked send",
        "a blocked start",
        "a blocked receive",
        "a frame ends a channel that has counted",
        "a disconnect of a channel that has counted",
        "a last release of a channel that has counted",
        "a give-up of a channel that has counted",
        "an attempt asked for with its link down, and it has counted",
        "an attempt asked for behind its peer's disconnect, and it has counted",
        "a link down that has a channel that has counted",
        "a disconnect answered of a channel that has counted",
        "a peer's disconnect where its link has a channel that has counted",
        "credits past 65,535 where their link has a channel that has counted",
        "a pending accepted in a slot whose last owner's tallies stand",
        "an attempt answered in a slot whose last owner's tallies stand",
    ] {
        assert!(counts.marks.contains_key(mark), "{mark}");
    }
    assert!(counts.kinds.contains_key(&Kind::TalliesLeft));
}

/// After every call of a script each slot's tallies are looked at: so a run of a program compares them all.
#[test]
fn every_call_is_followed_by_every_slots_tallies() {
    quiet();
    let mut calls = 0;
    for number in 0..60 {
        let made = script(&extent(4, 0), number);
        let Call::Make { n, .. } = made.steps[0].call else { panic!("a script starts with a table") };
        let views: Vec<usize> = (1..made.steps.len()).filter(|at| made.steps[*at].call == Call::View).collect();
        // The calls before the first view open the table; one that ends its script has no look behind it.
        for at in &views {
            let behind = made.steps[at + 1..].iter().take(n.into()).map(|step| step.call.clone());
            assert!(behind.eq((0..n).map(|slot| Call::Tallies { slot })), "{}", made.text());
            calls += 1;
        }
        let acted = |step: &&Step| !step.call.only_looks();
        assert!(made.steps.iter().filter(acted).count() <= views.len() + opening(&made) + 1, "{}", made.text());
    }
    assert!(calls > 1_000);
}

/// The calls before a script's first look.
fn opening(script: &Script) -> usize {
    script.steps.iter().take_while(|step| step.call != Call::View).count()
}

/// The original isn't asked for a take that it would cut, and for no other. A script of the domain goes on behind it, nothing has changed, and the job that was kept is taken later.
#[test]
fn short_takes_alone_are_kept_from_the_original() {
    quiet();
    let domain = Extent { outside: 0, ..extent(1, 0) };
    let (mut short, mut kept) = (0, 0);
    for number in 0..300 {
        let made = script(&domain, number);
        let mut refused = [false; 16];
        for two in made.steps.windows(2) {
            let (before, step) = (two[0].after.last().expect("what stood before"), &two[1]);
            let Call::Take { slot, size } = step.call else { continue };
            let record = before.view.slots.get(usize::from(slot));
            let cut = record.is_some_and(|record| record.state == State::Connected && record.jobs.first().is_some_and(|job| size < *job));
            assert_eq!(step.original == ["~ -"], cut, "{}", step.call);
            assert_eq!(step.kinds == [Kind::ShortTake], cut, "{}", step.call);
            if cut {
                assert_eq!(step.port, [Some("12 -".to_string())]);
                assert_eq!(&step.after, std::slice::from_ref(before));
                short += 1;
            } else if step.original[0].split(' ').count() == 5 {
                kept += usize::from(refused[usize::from(slot)]);
            }
            if let Some(refused) = refused.get_mut(usize::from(slot)) {
                *refused = cut;
            }
        }
    }
    assert!(short > 50 && kept > 20, "{short} {kept}");
}

/// Each kind, and each finding by the number that its file's name begins with, has its entry in DIFFERENCES.
#[test]
fn kinds_and_findings_have_their_entries() {
    let folder = Path::new(env!("CARGO_MANIFEST_DIR"));
    let list = std::fs::read_to_string(folder.join("../docs/DIFFERENCES.md")).expect("the list");
    let named = |number: usize| list.contains(&format!("\n**{number}. ")) || list.contains(&format!("\n| {number} | "));
    for kind in Kind::ALL {
        assert!(named(kind.number()), "{}", kind.title());
    }
    let mut findings = 0;
    for file in std::fs::read_dir(folder.join("findings")).expect("the findings") {
        let name = file.expect("a finding").file_name().to_string_lossy().into_owned();
        let number = name.chars().take_while(char::is_ascii_digit).collect::<String>().parse();
        assert!(number.is_ok_and(named), "{name}");
        findings += 1;
    }
    assert!(findings > 50);
}

/// What a script says must stand after a call, against the lines that show it.
#[test]
fn what_must_stand_is_what_the_view_and_the_places_show() {
    quiet();
    for number in 0..60 {
        for step in script(&extent(7, 0), number).steps {
            let must: Vec<&str> = step.port.iter().flatten().map(String::as_str).collect();
            match (&step.call, step.after.last()) {
                (Call::View, Some(sight)) => assert_eq!(Reply::from(sight.view.clone()).lines(), must),
                (Call::Room { slot }, Some(sight)) if *slot < sight.view.n() => {
                    assert_eq!(format!("0 {}", hex(sight.places(usize::from(*slot)))), must[0]);
                }
                _ => {}
            }
            assert!(step.after.len() == step.port.len() || step.call == Call::View || step.port.contains(&None), "{}", step.call);
        }
    }
}

/// What was found without `channel-metrics` stands with it on: both builds are driven. A build without the feature that differs otherwise is told.
#[test]
fn the_feature_counts_and_changes_nothing_else() {
    quiet();
    let extent = extent(3, 8_000);
    let beside = without(&extent, Manner::default()).unwrap_or_else(|why| panic!("{why}"));
    assert!(beside.calls >= 8_000 && beside.counted > 2_000, "{} {}", beside.calls, beside.counted);
    assert!(without(&extent, Manner { lost_line: true, ..Manner::default() }).is_err());
}

#[test]
fn the_original_agrees_with_itself() {
    quiet();
    let found = run(&mut Faulty(Fault::None), &extent(11, 6_000), 1, |_| {}).unwrap();
    assert!(found.clean());
    assert!(found.counts.calls >= 6_000);
}

#[test]
fn the_lost_line_is_found_and_made_small() {
    quiet();
    let found = run(&mut Faulty(Fault::LostLine), &extent(1, 40_000), 1, |_| {}).unwrap();
    let (script, difference) = found.differences.first().expect("found");
    assert!(script.steps.len() < 16, "{}", script.text());
    assert_ne!(difference.expected, difference.got);
    // The small script still shows it, and shows nothing without the fault.
    assert!(shrink(&mut Faulty(Fault::LostLine), script).is_some());
    assert!(shrink(&mut Faulty(Fault::None), script).is_none());
}

#[test]
fn a_missing_row_does_not_hide_the_scripts_behind_it() {
    quiet();
    let scripts: Vec<_> = (0..30).map(|number| script(&extent(1, 0), number)).collect();
    let several = |script: &&Script| script.steps.iter().any(|step| step.call.rows() > 1);
    let wanted = scripts.iter().filter(several).count();
    assert_eq!(batch(&mut Faulty(Fault::RowMissing), &scripts).unwrap().len(), wanted);
}

#[test]
fn twin_runs_find_octets_that_reach_another_link() {
    quiet();
    let extent = extent(2, 0);
    let pairs = |fault: Fault| {
        let twins = (0..900).filter_map(|number| Twin::new(&script(&extent, number), &mut Rng::new(number)));
        twins.filter(|twin| twin.run(&mut Faulty(fault)).unwrap().is_some()).count()
    };
    assert_eq!(pairs(Fault::None), 0);
    assert!(pairs(Fault::LostLine) > 0);
    assert!(pairs(Fault::TallyOctet) > 0);
}

/// With `confirm` called at once, as published, the original panics where the list says and nowhere else.
#[test]
fn as_published_the_original_panics_only_where_the_list_says() {
    quiet();
    let published = Manner { confirm_at_once: true, ..Manner::default() };
    for number in 0..600 {
        let mut generator = Generator::new(number, Plan { outside: number % 2 == 0, view_every: 4, longest: 120 });
        let (n, d, m) = generator.sizes();
        let script = Script::judge(n, d, m, published, &mut generator);
        assert!(script.steps.iter().all(|step| !step.surprise), "{}", script.text());
    }
}

/// Finding 14. 65,535 is 51 times 1,285: the original's sum of 65,535 and 2 stops at 65,535, and the last frame goes out without a credit.
#[test]
fn an_sdu_of_65535_octets_is_counted_one_frame_short() {
    let printed =
        rows(&format!("T 2 2 64\nR 128\nS 1 1 c 14070a0080005000ffff33000505\nP 1 1\nA 0 - - - -\nV\nK 0 {}\nV", "00".repeat(65_535)));
    let credits = |line: &String| line.split(' ').nth(14).map(str::to_string);
    assert_eq!(credits(&printed[6]).as_deref(), Some("1285"));
    assert!(printed[8].ends_with(" 1286"));
    assert_eq!(credits(&printed[10]).as_deref(), Some("0"));
}
