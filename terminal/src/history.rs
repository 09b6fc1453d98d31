//! The lines that were typed before.

/// How many are kept; the oldest goes first.
const LIMIT: usize = 500;

#[derive(Debug, Default)]
pub struct History {
    lines: Vec<String>,
}

impl History {
    /// Keeps a line, but none of blanks and none twice in a row.
    pub fn add(&mut self, line: &str) {
        if line.trim().is_empty() || self.lines.last().is_some_and(|last| last == line) {
            return;
        }
        if self.lines.len() == LIMIT {
            self.lines.remove(0);
        }
        self.lines.push(line.to_string());
    }

    pub fn count(&self) -> usize {
        self.lines.len()
    }

    /// The oldest is 0.
    pub fn get(&self, at: usize) -> Option<&str> {
        self.lines.get(at).map(String::as_str)
    }
}

#[cfg(test)]
mod tests {
    use super::*;

    #[test]
    fn keeps_lines_in_order_without_blanks_and_repeats() {
        let mut history = History::default();
        for line in ["RUN", "RUN", "", "  ", "LIST", "RUN"] {
            history.add(line);
        }
        let kept: Vec<_> = (0..history.count())
            .filter_map(|at| history.get(at))
            .collect();
        assert_eq!(kept, ["RUN", "LIST", "RUN"]);
    }

    #[test]
    fn forgets_the_oldest() {
        let mut history = History::default();
        for number in 0..=LIMIT {
            history.add(&number.to_string());
        }
        assert_eq!(history.count(), LIMIT);
        assert_eq!(history.get(0), Some("1"));
    }
}
