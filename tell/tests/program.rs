//! The program as it is called: its words, its exit status, and what it says where something fails. Shell words stand for `chanrun`.

use std::io::Write;
use std::process::{Command, Output, Stdio};

const TELL: &str = env!("CARGO_BIN_EXE_tell");

fn run(words: &[&str], script: &str) -> Output {
    let mut child =
        Command::new(TELL).args(words).stdin(Stdio::piped()).stdout(Stdio::piped()).stderr(Stdio::piped()).spawn().expect("tell runs");
    // It may end before it reads.
    let _ = child.stdin.take().expect("piped").write_all(script.as_bytes());
    child.wait_with_output().expect("tell ends")
}

/// The exit status, and what was said on standard error.
fn ended(words: &[&str], script: &str) -> (Option<i32>, String) {
    let output = run(words, script);
    (output.status.code(), String::from_utf8_lossy(&output.stderr).into_owned())
}

/// A program that reads its script and then does this.
fn program(does: &str) -> String {
    format!("cat > /dev/null; {does}")
}

const NO_TABLE: &str = r"printf 'answer octets\n1 -\n0 - 0 0 0 1\n'";

#[test]
fn a_script_is_told_from_standard_input_or_a_file() {
    let output = run(&["-", "sh", "-c", &program(NO_TABLE)], "Q\n");
    assert_eq!(output.status.code(), Some(0));
    let told = "   1  Q\n      asked    is a disconnect due?\n      answer   1 BadTable: there is no table, or none can have these sizes\n      changed  nothing\n";
    assert_eq!(String::from_utf8_lossy(&output.stdout), told);
    let path = std::env::temp_dir().join(format!("tell-{}.script", std::process::id()));
    std::fs::write(&path, "Q\r\n").expect("a file is written");
    let output = run(&[path.to_str().expect("text"), "sh", "-c", &program(NO_TABLE)], "");
    std::fs::remove_file(&path).expect("the file is removed");
    assert_eq!(String::from_utf8_lossy(&output.stdout), told);
}

#[test]
fn the_program_is_given_the_script_with_its_looking_lines() {
    let echo = r#"printf 'answer octets\n'; while read -r line; do case $line in Q) echo "1 -";; V) echo "0 - 0 0 0 1";; *) echo "? -";; esac; done"#;
    assert_eq!(ended(&["-", "sh", "-c", echo], "# a scene\n\nQ\nQ\n"), (Some(0), String::new()));
    assert_eq!(ended(&["-", "sh", "-c", echo], "Q\nx\n"), (Some(1), String::new()));
    // A program may say by its own status that a line couldn't be read.
    assert_eq!(ended(&["-", "sh", "-c", &format!("{echo}; exit 1")], "Q\nx\n"), (Some(1), String::new()));
}

#[test]
fn a_screen_is_shown_at_the_scripts_end() {
    let echo = r#"printf 'answer octets\n'; while read -r line; do case $line in V) echo "0 - 0 0 0 1";; *) echo "1 -";; esac; done"#;
    let output = run(&["--screen", "-", "sh", "-c", echo], "# a scene\nQ\nT 0 1 64\n");
    assert_eq!((output.status.code(), &output.stdout[..]), (Some(0), &b"There is no table, and no slot.\n"[..]));
    // Lines that cannot be read are named beside it.
    let unread = r"printf 'answer octets\n? -\n1 -\n? -\n0 - 0 0 0 1\n'";
    let said = "tell: line 1: `z` is no call\ntell: line 4: the word `slot` is missing: a number of 1 to 5 digits, at most 65535\n";
    assert_eq!(ended(&["--screen", "-", "sh", "-c", &program(unread)], "z\nQ\n#\nt\n"), (Some(1), said.to_string()));
    let why = (Some(2), "tell: the program's rows end where a row of the script must stand\n".to_string());
    assert_eq!(ended(&["--screen", "-", "sh", "-c", &program(r"printf 'answer octets\n'")], "Q\n"), why);
}

#[test]
fn octets_that_are_no_text_cannot_be_read() {
    let mut child = Command::new(TELL)
        .args(["-", "sh", "-c", &program(r"printf 'answer octets\n? -\n'")])
        .stdin(Stdio::piped())
        .stdout(Stdio::null())
        .spawn()
        .expect("tell runs");
    child.stdin.take().expect("piped").write_all(b"R 1\xff\n").expect("tell reads");
    assert_eq!(child.wait().expect("tell ends").code(), Some(1));
}

#[test]
fn what_fails_is_said_in_one_sentence() {
    let cases: [(&[&str], &str, &str); 6] = [
        (&["-", "/nowhere/chanrun"], "Q\n", "tell: /nowhere/chanrun can't be run: "),
        (&["/nowhere/script", "cat"], "", "tell: /nowhere/script: "),
        (&["-", "false"], "Q\n", "tell: the program's rows end where the head line `answer octets` must stand"),
        (&["-", "cat"], "Q\n", "tell: the program printed `Q` where the head line `answer octets` must stand"),
        (
            &["-", "sh", "-c", "cat > /dev/null; echo answer octets"],
            "Q\n",
            "tell: line 1: the program's rows end where the row of its call must stand",
        ),
        (
            &["-", "sh", "-c", "cat > /dev/null; echo answer octets; exit 3"],
            "#\n",
            "tell: sh printed its rows and ended with exit status: 3",
        ),
    ];
    for (words, script, why) in cases {
        let (status, said) = ended(words, script);
        assert_eq!(status, Some(2), "{words:?}");
        assert!(said.starts_with(why) && said.lines().count() == 1, "{words:?}: {said}");
    }
}

#[test]
fn words_are_looked_at_first() {
    for words in [&[][..], &["-"], &["--tell", "cat"], &["-x", "cat"], &["--screen", "-"], &["--screen", "--screen", "cat"]] {
        let (status, said) = ended(words, "");
        assert_eq!(status, Some(2), "{words:?}");
        assert!(said.starts_with("usage: tell [--screen] FILE PROGRAM"), "{words:?}: {said}");
    }
    let output = run(&["--help"], "");
    assert_eq!(output.status.code(), Some(0));
    assert!(output.stdout.starts_with(b"usage: tell [--screen] FILE PROGRAM"));
}

#[test]
fn an_output_that_takes_nothing_is_a_failure() {
    let full = || std::fs::OpenOptions::new().write(true).open("/dev/full").expect("/dev/full");
    // Where nothing can be said, the status stands.
    let status = Command::new(TELL).stderr(full()).status().expect("tell runs");
    assert_eq!(status.code(), Some(2));
    let no_table = "cat > /dev/null; echo answer octets; echo 0 - 0 0 0 1";
    for words in [&["-", "sh", "-c", "cat > /dev/null; echo answer octets"][..], &["--screen", "-", "sh", "-c", no_table], &["--help"]] {
        let mut child =
            Command::new(TELL).args(words).stdin(Stdio::piped()).stdout(full()).stderr(Stdio::piped()).spawn().expect("tell runs");
        let _ = child.stdin.take().expect("piped").write_all(b"# a scene\n");
        let output = child.wait_with_output().expect("tell ends");
        assert_eq!(output.status.code(), Some(2), "{words:?}");
        assert!(output.stderr.starts_with(b"tell: the output can't be written: "), "{words:?}");
    }
}
