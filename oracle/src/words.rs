//! The words of a line of ../shared/REPLAY.md, read one after another. A reader answers nothing where the line does not fit.
use crate::emath::{Pos2, Rect, pos2};

/// An area's state as a line has it: codes of any size, floats of any value.
#[derive(Clone, Copy)]
pub struct StateWords {
    pub pivot_pos: Option<Pos2>,
    pub pivot: [u64; 2],
    pub size: Option<Pos2>,
    pub interactable: bool,
}

#[derive(Clone, Copy)]
pub enum EventWords {
    Key {
        key: u64,
        pressed: bool,
        repeat: bool,
        modifiers: u64,
    },
    Focus(u64),
    Pointer(Pos2),
    Zoom(f32),
    Other,
}

/// A layer as a line has it: Order and id.
pub type LayerWords = (u64, u64);

/// A widget's record as a line has it.
#[derive(Clone, Copy)]
pub struct WidgetWords {
    pub id: u64,
    pub parent: u64,
    pub layer: LayerWords,
    pub rect: Rect,
    pub interact_rect: Rect,
    pub sense: u64,
    pub enabled: bool,
    pub visible: bool,
}

pub struct Words<'a> {
    rest: Vec<&'a [u8]>,
}

impl<'a> Words<'a> {
    pub fn of(line: &'a [u8]) -> Self {
        let mut rest: Vec<&[u8]> = line.split(|&b| b == b' ').collect();
        rest.reverse();
        Self { rest }
    }

    pub fn word(&mut self) -> Option<&'a [u8]> {
        self.rest.pop()
    }

    /// Decimal, no leading zeros, at most 2^64 - 1.
    pub fn number(&mut self) -> Option<u64> {
        let word = self.word()?;
        let plain =
            word.iter().all(u8::is_ascii_digit) && (word == b"0" || !word.starts_with(b"0"));
        if plain {
            str::from_utf8(word).ok()?.parse().ok()
        } else {
            None
        }
    }

    pub fn flag(&mut self) -> Option<bool> {
        match self.number()? {
            0 => Some(false),
            1 => Some(true),
            _ => None,
        }
    }

    pub fn float(&mut self) -> Option<f32> {
        let bits = u32::try_from(self.number()?).ok()?;
        Some(f32::from_bits(bits))
    }

    pub fn pos(&mut self) -> Option<Pos2> {
        Some(pos2(self.float()?, self.float()?))
    }

    pub fn rect(&mut self) -> Option<Rect> {
        Some(Rect {
            min: self.pos()?,
            max: self.pos()?,
        })
    }

    pub fn layer(&mut self) -> Option<LayerWords> {
        Some((self.number()?, self.number()?))
    }

    /// A flag and two floats, which are read and forgotten where the flag says so.
    pub fn held_pos(&mut self) -> Option<Option<Pos2>> {
        let held = self.flag()?;
        let pos = self.pos()?;
        Some(held.then_some(pos))
    }

    pub fn state(&mut self) -> Option<StateWords> {
        Some(StateWords {
            pivot_pos: self.held_pos()?,
            pivot: [self.number()?, self.number()?],
            size: self.held_pos()?,
            interactable: self.flag()?,
        })
    }

    pub fn event(&mut self) -> Option<EventWords> {
        Some(match self.word()? {
            b"k" => EventWords::Key {
                key: self.number()?,
                pressed: self.flag()?,
                repeat: self.flag()?,
                modifiers: self.number()?,
            },
            b"a" => EventWords::Focus(self.number()?),
            b"p" => EventWords::Pointer(self.pos()?),
            b"z" => EventWords::Zoom(self.float()?),
            b"o" => EventWords::Other,
            _ => return None,
        })
    }

    pub fn widget(&mut self) -> Option<WidgetWords> {
        Some(WidgetWords {
            id: self.number()?,
            parent: self.number()?,
            layer: self.layer()?,
            rect: self.rect()?,
            interact_rect: self.rect()?,
            sense: self.number()?,
            enabled: self.flag()?,
            visible: self.flag()?,
        })
    }

    /// A count and as many entries, to the end of the line.
    pub fn list<T>(&mut self, entry: impl Fn(&mut Self) -> Option<T>) -> Option<Vec<T>> {
        let count = self.number()?;
        let mut all = Vec::new();
        while !self.rest.is_empty() {
            all.push(entry(self)?);
        }
        (all.len() as u64 == count).then_some(all)
    }

    pub fn end(&self) -> Option<()> {
        self.rest.is_empty().then_some(())
    }
}
