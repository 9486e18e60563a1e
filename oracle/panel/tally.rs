//! What a run has seen: sessions of each kind, and how they were answered.
use super::report;
use std::collections::BTreeMap;

#[derive(Default)]
pub struct Tally {
    kinds: BTreeMap<&'static str, u64>,
    answers: BTreeMap<String, u64>,
}

impl Tally {
    pub fn count(&mut self, kind: &'static str, answers: &[u8]) {
        *self.kinds.entry(kind).or_default() += 1;
        for line in report::lines(answers) {
            let text = String::from_utf8_lossy(line);
            let class = match text.split(' ').next() {
                Some("no") => &text,
                Some(word) => word,
                None => "",
            };
            match self.answers.get_mut(class) {
                Some(count) => *count += 1,
                None => drop(self.answers.insert(class.to_owned(), 1)),
            }
        }
    }

    pub fn lines(&self) -> u64 {
        self.answers.values().sum()
    }

    pub fn report(&self) -> String {
        let kinds: Vec<String> = self.kinds.iter().map(|(k, n)| format!("{k} {n}")).collect();
        let answers = self.answers.iter().map(|(a, n)| format!("'{a}' {n}"));
        let answers: Vec<String> = answers.collect();
        format!(
            "sessions by kind: {}\nanswers: {}\n",
            kinds.join(", "),
            answers.join(", ")
        )
    }
}
