//! The rules on paper: their names and their words.

/// A rule as the paper has it: "1. **Box.** While ..", up to the next rule or blank line.
#[derive(Clone, Debug, PartialEq, Eq)]
pub struct Rule {
    pub name: String,
    pub words: String,
}

pub fn rules(paper: &str) -> Vec<Rule> {
    let (mut rules, mut is_in_one): (Vec<Rule>, bool) = (Vec::new(), false);
    for line in paper.lines() {
        let head = format!("{}. **", rules.len() + 1);
        let begins = line
            .strip_prefix(&head)
            .and_then(|rest| rest.split_once(".**"));
        if let Some((name, words)) = begins {
            rules.push(Rule {
                name: name.to_string(),
                words: words.trim().to_string(),
            });
        } else if let (true, Some(rule)) = (is_in_one && !line.trim().is_empty(), rules.last_mut())
        {
            rule.words += &format!(" {}", line.trim());
        }
        is_in_one = begins.is_some() || is_in_one && !line.trim().is_empty();
    }
    rules
}

pub fn name_of(rules: &[Rule], rule: u8) -> &str {
    let at = usize::from(rule).checked_sub(1);
    at.and_then(|at| rules.get(at))
        .map_or("no such rule", |rule| rule.name.as_str())
}

#[cfg(test)]
mod tests {
    use super::*;

    #[test]
    fn names_and_words() {
        let paper = "# Rules\n\n1. **Box.** Stays\n   out.\n2. **Four hours.** Waits.\n\nMore words.\n3. **Late.** No.";
        let rules = rules(paper);
        let told: Vec<(&str, &str)> = rules
            .iter()
            .map(|rule| (&rule.name[..], &rule.words[..]))
            .collect();
        assert_eq!(
            told,
            [
                ("Box", "Stays out."),
                ("Four hours", "Waits."),
                ("Late", "No.")
            ]
        );
        assert_eq!(
            (name_of(&rules, 3), name_of(&rules, 0), name_of(&rules, 4)),
            ("Late", "no such rule", "no such rule")
        );
    }
}
