//! A script told from rows given by hand.

use tell::{tell, Page, Trouble};

/// What is told, and whether every line could be read.
pub fn told(script: &str, rows: &str) -> Result<(String, bool), Trouble> {
    let mut page = Page::new(Vec::new());
    let mut lines = rows.lines().map(|line| Ok(line.to_string()));
    let all_read = tell(script, &mut lines, &mut page)?;
    Ok((String::from_utf8(page.into_inner()).expect("text"), all_read))
}
