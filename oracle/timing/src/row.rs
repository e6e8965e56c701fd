//! A table of figures: of each row what the port takes, and the original without and with its copy. Each sitting times every row, in the same order; a row keeps the figures of
//! the sitting in which its sides together were fastest, so that they are of one time, and of a quiet one.

/// Nanoseconds for one frame, job, take or signal.
#[derive(Clone, Copy)]
pub struct Times {
    pub port: f64,
    pub original: f64,
    /// The original with the copy that it leaves to its host: of a frame into a packet, or of a frame to the controller.
    pub copied: Option<f64>,
}

impl Times {
    /// Of the medians of a stretch, by side and kind, for each of so many.
    pub fn each(sides: &[Vec<f64>], kind: usize, of: usize) -> Self {
        let one = |side: &Vec<f64>| side[kind] / of as f64;
        Self { port: one(&sides[0]), original: one(&sides[1]), copied: sides.get(2).map(one) }
    }

    fn sum(&self) -> f64 {
        self.port + self.original + self.copied.unwrap_or(0.0)
    }
}

#[derive(Default)]
pub struct Table {
    rows: Vec<(String, Times)>,
    /// The row that comes next in this sitting.
    next: usize,
}

impl Table {
    /// The next sitting starts with the first row.
    pub fn again(&mut self) {
        self.next = 0;
    }

    /// A row begins with its label: what was timed, and its sizes, in columns.
    pub fn add(&mut self, label: String, times: Times) {
        match self.rows.get_mut(self.next) {
            None => self.rows.push((label, times)),
            Some((_, best)) if times.sum() < best.sum() => *best = times,
            Some(_) => {}
        }
        self.next += 1;
    }

    pub fn print(&self, label: &str) {
        let copies = self.rows.iter().any(|(_, times)| times.copied.is_some());
        let head = format!("| {label} | port, ns | original, ns | ratio |{}", if copies { " with its copy, ns | ratio |" } else { "" });
        println!("{head}\n{}|", "|---".repeat(head.matches('|').count() - 1));
        for (label, Times { port, original, copied }) in &self.rows {
            let end = match copied {
                Some(copied) => format!(" {copied:.1} | {:.2} |", port / copied),
                None if copies => " | |".to_string(),
                None => String::new(),
            };
            println!("| {label} | {port:.1} | {original:.1} | {:.2} |{end}", port / original);
        }
        println!();
    }
}
