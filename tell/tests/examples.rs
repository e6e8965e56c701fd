//! The scripts of examples/ on a program that prints rows. TELL_PROGRAM has its name and words, a line each: `./test` sets it.

use std::ffi::OsString;
use std::path::PathBuf;
use tell::{plan, screen, sent, tell, with_screen, Line, Page, Program};

fn program(script: String) -> Program {
    let command = std::env::var("TELL_PROGRAM").expect("TELL_PROGRAM names a program");
    let mut words = command.lines().map(OsString::from);
    let name = words.next().expect("TELL_PROGRAM names a program");
    Program::start(&name, &words.collect::<Vec<_>>(), script).expect("the program runs")
}

fn printed(script: String) -> Vec<String> {
    program(script).rows().map(|row| row.expect("rows are read")).collect()
}

/// The files of a folder of the repository with this ending.
fn files(folder: &str, ending: &str) -> Vec<PathBuf> {
    let root = PathBuf::from(env!("CARGO_MANIFEST_DIR")).join("..").join(folder);
    let files = std::fs::read_dir(&root).unwrap_or_else(|error| panic!("{}: {error}", root.display()));
    let files = files.map(|file| file.expect("a file").path());
    files.filter(|file| file.extension().is_some_and(|it| it == ending)).collect()
}

fn text(file: &PathBuf) -> String {
    std::fs::read_to_string(file).unwrap_or_else(|error| panic!("{}: {error}", file.display()))
}

#[test]
#[ignore = "needs a program"]
fn examples_are_told_as_they_stand() {
    let told = files("examples", "told");
    assert!(told.len() >= 4, "{told:?}");
    for file in told {
        let script = text(&file.with_extension("script"));
        let mut page = Page::new(Vec::new());
        tell(&script, &mut program(sent(&script)).rows(), &mut page).expect("rows that fit");
        let printed = String::from_utf8(page.into_inner()).expect("text");
        let expected = text(&file);
        let at = (1..).zip(printed.lines().zip(expected.lines())).find(|(_, (printed, expected))| printed != expected);
        assert!(printed == expected, "{}: differs, first at {at:?}; `./chanrun --tell` writes it anew", file.display());
    }
}

/// The service screens of examples/: those of the scripts beside them.
#[test]
#[ignore = "needs a program"]
fn screens_are_shown_as_they_stand() {
    let screens = files("examples", "screen");
    assert!(!screens.is_empty());
    for file in screens {
        let script = text(&file.with_extension("script"));
        let mut shown = Vec::new();
        screen(&script, &mut program(with_screen(&script)).rows(), &mut shown).expect("rows that fit");
        assert_eq!(String::from_utf8(shown).expect("text"), text(&file), "{}; `./chanrun --screen` writes it anew", file.display());
    }
}

/// The looking lines of a screen leave every row of the script as it is, and a script that ends with them has the numbers that the screen shows.
#[test]
#[ignore = "needs a program"]
fn a_screen_changes_no_row() {
    for file in files("examples", "script") {
        let script = text(&file);
        let (own, all) = (printed(script.clone()), printed(with_screen(&script)));
        assert!(all.len() > own.len() && all[..own.len()] == own, "{}", file.display());
    }
    let script = text(&PathBuf::from(env!("CARGO_MANIFEST_DIR")).join("../examples/service-screen.script"));
    let (own, all) = (printed(script.clone()), printed(with_screen(&script)));
    // `V` with its sixteen slots, and sixteen times `t`.
    assert_eq!(all[all.len() - 33..], own[own.len() - 33..]);
}

/// Every change that the recorded scripts make has words, and leaves no octet behind.
#[test]
#[ignore = "needs a program"]
fn every_change_has_words() {
    for file in files("oracle/recorded", "script") {
        let script = text(&file);
        let mut page = Page::new(Vec::new());
        tell(&script, &mut program(sent(&script)).rows(), &mut page).expect("rows that fit");
        let told = String::from_utf8(page.into_inner()).expect("text");
        let none = ["no words here", "of no job", "here, only", "lost: only", "that are no signal", "that are no frames"];
        let wordless = told.lines().find(|line| none.iter().any(|words| line.contains(words)));
        assert_eq!(wordless, None, "{}", file.display());
    }
}

/// The rows of a script's own calls, out of what is printed for what was sent.
fn own(script: &str, printed: Vec<String>) -> Vec<String> {
    let mut printed = printed.into_iter().peekable();
    let mut own: Vec<String> = printed.next().into_iter().collect();
    // A row, and the slots behind it where it begins a view.
    let mut row = || {
        let mut rows: Vec<String> = printed.next().into_iter().collect();
        while let Some(slot) = printed.next_if(|row| row.starts_with('=')) {
            rows.push(slot);
        }
        rows
    };
    for line in plan(script) {
        let Line::Played { asked, .. } = line else { continue };
        for looked_at in asked.map_or(vec![None], |parts| parts.into_iter().map(|part| part.looked_at).collect()) {
            own.extend(row());
            // The view, each slot's room, open jobs and tallies, where they were looked at.
            (0..looked_at.map_or(0, |looks| looks.calls().count())).for_each(|_| drop(row()));
        }
    }
    own.extend(printed);
    own
}

/// Looking lines, and a PDU cut into its signals, leave every row of the script as it is.
#[test]
#[ignore = "needs a program"]
fn what_is_put_in_changes_no_row() {
    let scripts = [files("examples", "script"), files("oracle/recorded", "script")].concat();
    assert!(scripts.len() >= 10, "{scripts:?}");
    for file in scripts {
        let script = text(&file);
        assert_eq!(own(&script, printed(sent(&script))), printed(script), "{}", file.display());
    }
}
