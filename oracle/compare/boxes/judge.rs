//! Whether a panel program keeps to README.md's rule for a confirm box, and whether the focus or a
//! touch came under the box. Both are read from its lines and the answers to them, so that a line
//! left out or refused counts as what it is.
use super::program::Program;
use std::collections::BTreeSet;

/// The first place at which a program does not keep to the rule.
pub struct Breach {
    pub place: usize,
    pub why: Why,
}

#[derive(Clone, Copy, PartialEq)]
pub enum Why {
    /// A call of the opening is refused.
    Refused,
    /// The box's layer is not let through.
    TurnedAway,
    Broken(&'static str),
}

/// What came under the box.
pub struct Seen {
    /// The first answer that names a field under the box, or in a hit a layer under it.
    pub slip: Option<usize>,
    /// Hits after the first end that was taken in which something lay.
    pub hits: u64,
}

const ASKS: [&str; 3] = ["interest", "request_focus", "request_focus_next_frame"];

fn name(line: &str) -> &str {
    line.split(' ').next().unwrap_or_default()
}

/// The number at this place of a line or an answer.
fn number(line: &str, place: usize) -> Option<u64> {
    line.split(' ').nth(place)?.parse().ok()
}

fn is_taken(answer: &str) -> bool {
    answer == "ok"
}

/// The id that a line asks the focus for.
pub fn asked(line: &str) -> Option<u64> {
    let asks = ASKS.contains(&name(line));
    asks.then(|| number(line, 1))
        .flatten()
        .filter(|id| *id != 0)
}

/// The id that an interest call names on a layer of a lower Order than this one.
pub fn asked_below(line: &str, order: u64) -> Option<u64> {
    let lower = name(line) == "interest" && number(line, 2).is_some_and(|own| own < order);
    lower.then(|| asked(line)).flatten()
}

/// The fields under the box: those of the pages, and whatever else makes an interest call on a
/// layer of a lower Order at any time, but for the box's own.
fn under(program: &Program) -> BTreeSet<u64> {
    let order = program.layer.0;
    let below = program
        .lines
        .iter()
        .filter_map(|line| asked_below(line, order));
    let all = program.pages.iter().copied().chain(below);
    all.filter(|id| !program.fields.contains(id)).collect()
}

pub fn seen(program: &Program, answers: &[String]) -> Seen {
    let under = under(program);
    let mut seen = Seen {
        slip: None,
        hits: 0,
    };
    let mut ended = false;
    let asked = program.lines.iter().zip(answers).enumerate();
    for (place, (line, answer)) in asked.skip(program.last) {
        let below = match name(line) {
            "focused" => number(answer, 0).is_some_and(|id| under.contains(&id)),
            "layer_id_at" if ended => {
                let order = number(answer, 0);
                seen.hits += u64::from(order.is_some());
                order.is_some_and(|order| order < program.layer.0)
            }
            call => {
                ended |= call == "end" && is_taken(answer);
                false
            }
        };
        if below {
            seen.slip = Some(place);
            break;
        }
    }
    seen
}

pub fn breach(program: &Program, answers: &[String]) -> Option<Breach> {
    let mut walk = Walk::of(program);
    let asked = program.lines.iter().zip(answers).enumerate();
    let mut asked = asked.skip(program.first);
    asked.find_map(|(place, (line, answer))| {
        let why = if place <= program.last {
            walk.opening(place, line, answer)
        } else {
            walk.open(line, answer)
        };
        why.map(|why| Breach { place, why })
    })
}

/// How far a program has come with the rule.
struct Walk<'a> {
    program: &'a Program,
    under: BTreeSet<u64>,
    /// The fields of the box that have not made their interest calls.
    wanting: BTreeSet<u64>,
    /// The fields under the box that are still to be ignored: those of the pages, and what else
    /// was asked for by then.
    owed: BTreeSet<u64>,
    /// Whether the box's layer is let through, where that was asked a line before.
    let_through: Option<bool>,
    /// A modal layer of the box's Order or a higher one was set since the last end.
    set: bool,
    /// An end was taken after the opening.
    ended: bool,
}

impl<'a> Walk<'a> {
    fn of(program: &'a Program) -> Self {
        let under = under(program);
        let before = program.lines.iter().take(program.last);
        let mut owed: BTreeSet<u64> = before.filter_map(|line| asked(line)).collect();
        owed.extend(&program.pages);
        owed.retain(|id| under.contains(id));
        Self {
            program,
            under,
            wanting: program.fields.iter().copied().collect(),
            owed,
            let_through: None,
            set: false,
            ended: false,
        }
    }

    fn opening(&mut self, place: usize, line: &str, answer: &str) -> Option<Why> {
        let program = self.program;
        let id = number(line, 1).unwrap_or_default();
        let was_let_through = self.let_through;
        self.let_through = (line == program.named("allows_interaction")).then_some(answer == "1");
        if place == program.first {
            self.set = true;
            let begins = line == program.named("set_modal_layer");
            return unless(begins, "the opening does not begin with its modal layer")
                .or(refused(answer));
        }
        if place == program.last {
            return self.last(line).or(refused(answer));
        }
        match name(line) {
            "new" | "begin" | "end" => Some(Why::Broken("a begin or an end within the opening")),
            "interest" if line == program.wanted(id) && program.fields.contains(&id) => {
                self.wanting.remove(&id);
                match was_let_through {
                    None => Some(Why::Broken(
                        "it was not asked whether the box is let through",
                    )),
                    Some(false) => Some(Why::TurnedAway),
                    Some(true) => refused(answer),
                }
            }
            "ignore_focus" if self.under.contains(&id) => {
                if self.wanting.is_empty() {
                    self.owed.remove(&id);
                }
                refused(answer)
            }
            _ => self.asks_under(line, "a field under the box is asked for in the opening"),
        }
    }

    /// The opening's last call.
    fn last(&self, line: &str) -> Option<Why> {
        let fields = &self.program.fields;
        let request = |id: &u64| line == format!("request_focus_next_frame {id}");
        unless(
            fields.iter().any(request),
            "the opening does not end with a request of a field of the box",
        )
        .or(unless(
            self.wanting.is_empty(),
            "a field of the box made no interest call in the opening",
        ))
        .or(unless(
            self.owed.is_empty(),
            "a field under the box was not ignored after the box's interest calls",
        ))
    }

    fn asks_under(&self, line: &str, broken: &'static str) -> Option<Why> {
        let asks = asked(line).is_some_and(|id| self.under.contains(&id));
        unless(!asks, broken)
    }

    fn open(&mut self, line: &str, answer: &str) -> Option<Why> {
        let order = self.program.layer.0;
        let higher = |place: usize| number(line, place).is_some_and(|own| order <= own);
        match name(line) {
            "new" => Some(Why::Broken("a new memory")),
            "set_modal_layer" => {
                self.set |= is_taken(answer) && higher(1);
                None
            }
            "end" if is_taken(answer) => {
                self.ended = true;
                let set = std::mem::take(&mut self.set);
                unless(set, "an end was taken in a pass without the modal layer")
            }
            "interest" if self.ended && !higher(2) => None,
            "interest" if self.ended => {
                self.asks_under(line, "a field under the box on a layer of no lower Order")
            }
            "interest" => self.asks_under(line, "an interest call under the box before an end"),
            _ => self.asks_under(line, "a field under the box is asked for"),
        }
    }
}

fn unless(kept: bool, broken: &'static str) -> Option<Why> {
    (!kept).then_some(Why::Broken(broken))
}

fn refused(answer: &str) -> Option<Why> {
    (!is_taken(answer)).then_some(Why::Refused)
}
