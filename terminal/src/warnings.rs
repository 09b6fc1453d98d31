//! What can be wrong with a rule book whose lines are all taken. Each warning has a name, by which it is switched off.

#[derive(Clone, Copy, Debug, PartialEq, Eq, PartialOrd, Ord)]
pub enum Warning {
    Target,
    Replaced,
    Unreached,
    Remark,
    Erased,
    Nul,
    Ends,
    Unended,
    Bits,
}

/// Every warning, its name, and what it is given for.
const ROWS: [(Warning, &str, &str); 9] = [
    (
        Warning::Target,
        "target",
        "GOTO or GOSUB to a line that is not there",
    ),
    (
        Warning::Replaced,
        "replaced",
        "a line that replaces or deletes an earlier one",
    ),
    (
        Warning::Unreached,
        "unreached",
        "a statement to which no run comes",
    ),
    (
        Warning::Remark,
        "remark",
        "a word that REM makes a remark: 20 REMOVED",
    ),
    (
        Warning::Erased,
        "erased",
        "_ or Ctrl-U that takes bytes back",
    ),
    (Warning::Nul, "nul", "NUL bytes, which typing drops"),
    (Warning::Ends, "ends", "lines that end in different ways"),
    (Warning::Unended, "unended", "a last line without an end"),
    (
        Warning::Bits,
        "bits",
        "AND, OR or NOT for which a condition never holds, or always",
    ),
];

impl Warning {
    fn row(self) -> &'static (Warning, &'static str, &'static str) {
        let row = ROWS.iter().find(|row| row.0 == self);
        row.expect("every warning has a row")
    }

    pub fn name(self) -> &'static str {
        self.row().1
    }

    pub fn named(name: &str) -> Option<Warning> {
        let row = ROWS.iter().find(|row| row.1 == name);
        row.map(|row| row.0)
    }
}

/// The table of warnings.
pub fn table() -> String {
    let row = |(_, name, words): &(Warning, &str, &str)| format!("--no-{name:<10} {words}\n");
    ROWS.iter().map(row).collect()
}

#[cfg(test)]
mod tests {
    use super::*;

    #[test]
    fn each_has_a_name_and_a_row() {
        for (warning, name, words) in ROWS {
            assert_eq!(Warning::named(name), Some(warning));
            assert_eq!(warning.name(), name);
            assert!(table().contains(&format!("--no-{name} ")) && table().contains(words));
        }
        assert_eq!(Warning::named("bit"), None);
        assert!(table().lines().all(|row| row.len() <= 80));
    }
}
