//! What was drawn and answered, so that a reader sees that nothing is hollow.

use std::collections::BTreeMap;

/// What is counted: a number, or a word (with number 0).
type Key = (u32, &'static str);

/// How often each thing came up, by group.
#[derive(Default)]
pub struct Tally {
    groups: BTreeMap<&'static str, BTreeMap<Key, u64>>,
}

impl Tally {
    /// A number came up.
    pub fn number(&mut self, group: &'static str, number: u32) {
        *self.group(group).entry((number, "")).or_default() += 1;
    }

    /// A word came up.
    pub fn word(&mut self, group: &'static str, word: &'static str) {
        *self.group(group).entry((0, word)).or_default() += 1;
    }

    fn group(&mut self, group: &'static str) -> &mut BTreeMap<Key, u64> {
        self.groups.entry(group).or_default()
    }

    /// Adds what another tally counted.
    pub fn add(&mut self, other: &Tally) {
        for (group, keys) in &other.groups {
            for (key, times) in keys {
                *self.group(group).entry(*key).or_default() += times;
            }
        }
    }

    /// One line for each group.
    pub fn print(&self) {
        for (group, keys) in &self.groups {
            let mut line = format!("  {group:<22}");
            for ((number, word), times) in keys {
                if word.is_empty() {
                    line += &format!(" {number}: {times} ");
                } else {
                    line += &format!(" {word}: {times} ");
                }
            }
            println!("{}", line.trim_end());
        }
    }

    /// What a whole comparison must have met and never did.
    pub fn missing(&self) -> Vec<String> {
        let mut missing = Vec::new();
        for (group, numbers) in NUMBERS {
            for number in *numbers {
                if !self.has(group, (*number, "")) {
                    missing.push(format!("{group} {number}"));
                }
            }
        }
        for (group, words) in WORDS {
            for word in *words {
                if !self.has(group, (0, word)) {
                    missing.push(format!("{group} {word}"));
                }
            }
        }
        missing
    }

    fn has(&self, group: &str, key: Key) -> bool {
        let mut found = self.groups.get(group).into_iter();
        found.any(|keys| keys.contains_key(&key))
    }
}

/// Answers of a function: 0 where it was not refused, every refusal that document 01
/// lets it give, and 30. Then what the accepted traces had.
const NUMBERS: &[(&str, &[u32])] = &[
    ("examine answers", &[0, 1, 2, 3, 4, 5, 6, 7, 8, 9, 10, 11]),
    (
        "run answers",
        &[0, 1, 2, 3, 4, 5, 6, 7, 8, 9, 10, 11, 12, 30],
    ),
    (
        "write answers",
        &[0, 2, 3, 4, 5, 6, 7, 17, 9, 10, 11, 18, 30],
    ),
    ("new answers", &[0, 1, 2, 3, 4, 5, 6, 7, 8, 9, 10, 11, 30]),
    ("arrive answers", &[0, 13, 11, 14, 30]),
    ("close answers", &[0, 13, 15, 30]),
    ("drain answers", &[0, 13, 16, 15, 30]),
    ("model 1, order", &[0, 1, 2]),
    ("model 2, order", &[0, 1, 2]),
    (
        "ports",
        &[1, 2, 3, 4, 5, 6, 7, 8, 9, 10, 11, 12, 13, 14, 15, 16],
    ),
    (
        "speedup",
        &[1, 2, 3, 4, 5, 6, 7, 8, 9, 10, 11, 12, 13, 14, 15, 16],
    ),
];

/// Things with names that must have come up.
const WORDS: &[(&str, &[&str])] = &[
    (
        "traces",
        &[
            "empty",
            "even",
            "bursty",
            "skewed",
            "full",
            "damaged",
            "overlong",
            "drawn bytes",
        ],
    ),
    ("log lent", &["longer", "exact", "shorter"]),
    ("output lent", &["longer", "exact", "shorter"]),
    ("tables", &["good", "damaged"]),
    ("switches", &["good", "damaged", "drawn words"]),
    ("an arrival was", &["accepted", "dropped"]),
    ("a drain ended", &["empty", "not empty"]),
    ("walks", &["file order", "drawn steps"]),
    ("rival", &["ahead of greedy", "past 3 x sent"]),
];
