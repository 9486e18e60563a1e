//! A line of the pass program as a form, from document 01's words: single spaces, decimal numbers, a minus before coordinates and sizes alone. A line that is
//! no form is read as nothing; whether the numbers of a form are taken is not asked here.
use crate::words::{EventWords, LayerWords};

/// Coordinates and sizes are 32nds of a point. A number past 2^63 - 1 is as far past every bound as that one.
pub type Steps = i64;

/// A used entry: its id, and its left, top, right and bottom edge.
pub type UsedWords = (u64, [Steps; 4]);

/// The entries of `begin` and `end` are in `Lists`.
pub enum Form {
    Begin,
    Want(LayerWords, u64),
    Area(LayerWords, [Steps; 2], [Steps; 2]),
    Top(LayerWords),
    Sub(LayerWords, LayerWords),
    Modal(LayerWords),
    End,
    Hit([Steps; 2]),
    Focus,
}

/// What the last `begin` and the last `end` listed, kept so that a line needs no room of its own.
#[derive(Default)]
pub struct Lists {
    pub events: Vec<EventWords>,
    pub used: Vec<UsedWords>,
}

pub fn read(line: &[u8], lists: &mut Lists) -> Option<Form> {
    let inner = line.strip_prefix(b"(")?.strip_suffix(b")")?;
    let space = inner.iter().position(|&b| b == b' ');
    let (name, rest) = inner.split_at(space.unwrap_or(inner.len()));
    let mut r = Reader { rest };
    let form = match name {
        b"begin" => {
            r.list(&mut lists.events, Reader::event)?;
            Form::Begin
        }
        b"want" => Form::Want(r.layer()?, r.number()?),
        b"area" => Form::Area(r.layer()?, r.all(Reader::steps)?, r.all(Reader::steps)?),
        b"top" => Form::Top(r.layer()?),
        b"sub" => {
            let [order, parent, child] = r.all(Reader::number)?;
            Form::Sub((order, parent), (order, child))
        }
        b"modal" => Form::Modal(r.layer()?),
        b"end" => {
            r.list(&mut lists.used, Reader::used)?;
            Form::End
        }
        b"hit" => Form::Hit(r.all(Reader::steps)?),
        b"focus" => Form::Focus,
        _ => return None,
    };
    r.rest.is_empty().then_some(form)
}

/// What is left of a form. Each word and each entry is read with the space before it.
struct Reader<'a> {
    rest: &'a [u8],
}

impl Reader<'_> {
    fn skip(&mut self, text: &[u8]) -> Option<()> {
        self.rest = self.rest.strip_prefix(text)?;
        Some(())
    }

    fn number(&mut self) -> Option<u64> {
        self.skip(b" ")?;
        self.digits()
    }

    fn digits(&mut self) -> Option<u64> {
        let end = self.rest.iter().position(|b| !b.is_ascii_digit());
        let (digits, rest) = self.rest.split_at(end.unwrap_or(self.rest.len()));
        self.rest = rest;
        let worth = |digit: &u8| u64::from(digit - b'0');
        match digits {
            [] | [b'0', _, ..] => None,
            // So few digits fit in any case.
            _ if digits.len() < 20 => Some(digits.iter().fold(0, |n, d| 10 * n + worth(d))),
            _ => digits
                .iter()
                .try_fold(0_u64, |n, d| n.checked_mul(10)?.checked_add(worth(d))),
        }
    }

    fn steps(&mut self) -> Option<Steps> {
        self.skip(b" ")?;
        let minus = self.skip(b"-").is_some();
        let steps = self.digits()?;
        let steps_or_most = Steps::try_from(steps).unwrap_or(Steps::MAX);
        match (minus, steps) {
            (true, 0) => None,
            (true, _) => Some(-steps_or_most),
            (false, _) => Some(steps_or_most),
        }
    }

    fn all<T: Copy + Default, const N: usize>(
        &mut self,
        word: impl Fn(&mut Self) -> Option<T>,
    ) -> Option<[T; N]> {
        let mut all = [T::default(); N];
        for place in &mut all {
            *place = word(self)?;
        }
        Some(all)
    }

    fn layer(&mut self) -> Option<LayerWords> {
        Some((self.number()?, self.number()?))
    }

    /// Entries to the end of the form.
    fn list<T>(&mut self, list: &mut Vec<T>, entry: impl Fn(&mut Self) -> Option<T>) -> Option<()> {
        list.clear();
        while !self.rest.is_empty() {
            list.push(entry(self)?);
        }
        Some(())
    }

    fn event(&mut self) -> Option<EventWords> {
        let event = if self.skip(b" (key").is_some() {
            let key = self.number()?;
            let pressed = match self.number()? {
                0 => false,
                1 => true,
                _ => return None,
            };
            EventWords::Key {
                key,
                pressed,
                repeat: false,
                modifiers: self.number()?,
            }
        } else {
            self.skip(b" (ask")?;
            EventWords::Focus(self.number()?)
        };
        self.skip(b")")?;
        Some(event)
    }

    fn used(&mut self) -> Option<UsedWords> {
        self.skip(b" (")?;
        let used = (self.digits()?, self.all(Reader::steps)?);
        self.skip(b")")?;
        Some(used)
    }
}
