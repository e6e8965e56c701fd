//! What is a line of a script.

/// The lines of a script, each with its number from 1, without what ends it: a newline and a carriage return right before its end. What
/// stands behind the last newline is a line where there is something.
pub fn lines(script: &str) -> impl Iterator<Item = (usize, &str)> {
    let ended = script.strip_suffix('\n').unwrap_or(script);
    let lines = ended.split('\n').map(|line| line.strip_suffix('\r').unwrap_or(line));
    (1..).zip(lines).filter(|_| !script.is_empty())
}

/// The lines that are played. An empty line, and one that begins with `#`, is passed over.
pub fn played(script: &str) -> impl Iterator<Item = (usize, &str)> {
    lines(script).filter(|(_, line)| is_played(line))
}

/// False for a line that is passed over.
pub fn is_played(line: &str) -> bool {
    !line.is_empty() && !line.starts_with('#')
}

#[cfg(test)]
mod tests {
    use super::*;

    #[test]
    fn lines_are_numbered_and_end_before_a_carriage_return() {
        let cases: [(&str, &[&str]); 8] = [
            ("", &[]),
            ("\n", &[""]),
            ("V", &["V"]),
            ("V\n", &["V"]),
            ("V\r\nQ\r", &["V", "Q"]),
            ("V\r\r\n", &["V\r"]),
            ("V\rQ\n\n", &["V\rQ", ""]),
            ("#\n V\n", &["#", " V"]),
        ];
        for (script, expected) in cases {
            let expected: Vec<_> = (1..).zip(expected.iter().copied()).collect();
            assert_eq!(lines(script).collect::<Vec<_>>(), expected, "{script:?}");
        }
    }

    #[test]
    fn comments_and_empty_lines_are_passed_over() {
        let script = "# a scene\n\nT 1 1 64\n#V\r\n\r\n #\nQ # no comment";
        assert_eq!(played(script).collect::<Vec<_>>(), [(3, "T 1 1 64"), (6, " #"), (7, "Q # no comment")]);
    }
}
