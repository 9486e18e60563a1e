//! What a run has seen: lists of each kind, and how the oracle answered.
use std::collections::BTreeMap;

#[derive(Default)]
pub struct Tally {
    kinds: BTreeMap<&'static str, u64>,
    answers: BTreeMap<String, u64>,
    lines: u64,
    unported: u64,
}

impl Tally {
    pub fn count(&mut self, kind: &'static str, answer: &str, unported: bool) {
        *self.kinds.entry(kind).or_default() += 1;
        self.lines += 1;
        self.unported += u64::from(unported);
        let class = match answer {
            "ok" | "bad" => answer,
            refusal if refusal.starts_with("no ") => refusal,
            _ => "a value",
        };
        *self.answers.entry(class.to_owned()).or_default() += 1;
    }

    pub fn report(&self) -> String {
        let kinds: Vec<String> = self
            .kinds
            .iter()
            .map(|(kind, n)| format!("{kind} {n}"))
            .collect();
        let answers: Vec<String> = self
            .answers
            .iter()
            .map(|(answer, n)| format!("'{answer}' {n}"))
            .collect();
        format!(
            "lines by kind: {}\noracle's answers: {}\n{} lines, of which {} call what is not ported yet\n",
            kinds.join(", "),
            answers.join(", "),
            self.lines,
            self.unported
        )
    }
}
