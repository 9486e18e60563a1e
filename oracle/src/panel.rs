//! The pass program over egui's own text: a session in, its answers out (document 01, "The pass program").
use crate::area::AreaState;
use crate::convert;
use crate::emath::{Align2, Pos2, Rect, Vec2, pos2, vec2};
use crate::memory::Memory;
use crate::panel_forms::{self, Form, Lists, Steps, UsedWords};
use crate::refusals::{self, Refusal, lowest, when};
use crate::stand_ins::{IdMap, RawInput, ViewportId, ViewportIdSet};
use crate::words::LayerWords;
use crate::{Id, LayerId};
use std::io::{Read, Write};

/// The longest session and the longest line, in bytes, the line without its end.
const SESSION: usize = 65_536;
const LINE: usize = 16_384;

/// How far a coordinate or a size may go, in 32nds of a point.
const BOUND: Steps = 524_288;

const NO_FORM: u64 = 10;

enum Answer {
    Done,
    Layer(LayerId),
    Id(Id),
    Nothing,
}

type Answered = Result<Answer, u64>;

/// egui's memory, and what its calls are given, kept from one pass to the next as egui's own context keeps it.
struct Panel {
    memory: Memory,
    lists: Lists,
    input: RawInput,
    live: ViewportIdSet,
    used: IdMap<Rect>,
}

pub fn answer_all() -> std::io::Result<()> {
    let mut session = Vec::new();
    let most = SESSION as u64 + 1;
    std::io::stdin().take(most).read_to_end(&mut session)?;
    let mut out = Vec::new();
    answers(&session, &mut out);
    std::io::stdout().write_all(&out)
}

/// Adds the answers to a whole session, a line each.
pub fn answers(session: &[u8], out: &mut Vec<u8>) {
    if SESSION < session.len() {
        put(Err(refusals::LIST), out);
        return;
    }
    let mut panel = Panel::new();
    for line in session.split_inclusive(|&b| b == b'\n') {
        put(panel.answer(line.strip_suffix(b"\n").unwrap_or(line)), out);
    }
}

/// The lines of the refusals, each at its number.
const NO: [&[u8]; 11] = [
    b"", b"no 1\n", b"no 2\n", b"no 3\n", b"no 4\n", b"no 5\n", b"no 6\n", b"no 7\n", b"no 8\n",
    b"no 9\n", b"no 10\n",
];

fn put(answered: Answered, out: &mut Vec<u8>) {
    match answered {
        Ok(Answer::Done) => out.extend_from_slice(b"ok\n"),
        Ok(Answer::Nothing) => out.extend_from_slice(b"none\n"),
        Ok(Answer::Id(id)) => put_numbers(b"id", &[id.value()], out),
        Ok(Answer::Layer(LayerId { order, id })) => {
            put_numbers(b"layer", &[order as u64, id.value()], out);
        }
        Err(number) => out.extend_from_slice(NO[number as usize]),
    }
}

/// A word, and numbers with a space before each. By hand, since `write!` takes several times as long.
fn put_numbers(word: &[u8], numbers: &[u64], out: &mut Vec<u8>) {
    out.extend_from_slice(word);
    for &number in numbers {
        let mut room = [b' '; 21];
        let mut first = room.len();
        let mut rest = number;
        loop {
            first -= 1;
            room[first] = b'0' + (rest % 10) as u8;
            rest /= 10;
            if rest == 0 {
                break;
            }
        }
        out.extend_from_slice(&room[first - 1..]);
    }
    out.push(b'\n');
}

fn unless(refusal: Refusal) -> Result<(), u64> {
    refusal.map_or(Ok(()), Err)
}

/// The greatest magnitude is far from the lowest `Steps`, so that each has one.
fn past_bound(all: &[Steps]) -> Refusal {
    when(refusals::OFF_GRID, all.iter().any(|n| BOUND < n.abs()))
}

fn rect_refusal([left, top, right, bottom]: [Steps; 4]) -> Refusal {
    let reversed = right < left || bottom < top;
    let past = past_bound(&[left, top, right, bottom]);
    past.or(when(refusals::REVERSED, reversed))
}

/// A size past the bound is 3, a negative one 4, however large.
fn size_refusal(size: [Steps; 2]) -> Refusal {
    let past = size.iter().any(|&n| BOUND < n);
    let negative = size.iter().any(|&n| n < 0);
    when(refusals::OFF_GRID, past).or(when(refusals::REVERSED, negative))
}

fn points(steps: Steps) -> f32 {
    steps as f32 / 32.0
}

fn pos([x, y]: [Steps; 2]) -> Pos2 {
    pos2(points(x), points(y))
}

fn size([width, height]: [Steps; 2]) -> Vec2 {
    vec2(points(width), points(height))
}

fn used_entry(&(id, [left, top, right, bottom]): &UsedWords) -> (Id, Rect) {
    let (min, max) = (pos([left, top]), pos([right, bottom]));
    (convert::id(id), Rect { min, max })
}

impl Panel {
    fn new() -> Self {
        Self {
            memory: Memory::default(),
            lists: Lists::default(),
            input: RawInput::default(),
            live: ViewportIdSet::from_iter([ViewportId::default()]),
            used: IdMap::default(),
        }
    }

    fn answer(&mut self, line: &[u8]) -> Answered {
        if LINE < line.len() {
            return Err(NO_FORM);
        }
        match panel_forms::read(line, &mut self.lists).ok_or(NO_FORM)? {
            Form::Begin => self.begin(),
            Form::Want(layer, id) => self.want(layer, id),
            Form::Area(layer, pos, size) => self.area(layer, pos, size),
            Form::Top(layer) => self.top(layer),
            Form::Sub(parent, child) => self.sub(parent, child),
            Form::Modal(layer) => self.modal(layer),
            Form::End => self.end(),
            Form::Hit(pos) => self.hit(pos),
            Form::Focus => Ok(self.memory.focused().map_or(Answer::Nothing, Answer::Id)),
        }
    }

    fn begin(&mut self) -> Answered {
        unless(refusals::events(&self.lists.events))?;
        let events = self.lists.events.iter().enumerate();
        self.input.events.clear();
        let converted = events.map(|(i, e)| convert::event(e, i));
        self.input.events.extend(converted);
        self.memory.begin_pass(&self.input, &self.live);
        Ok(Answer::Done)
    }

    /// Refusal 6 where an id is new to a full cache, and no modal layer turns it away.
    fn cache_full(&self, layer: LayerId, id: Id) -> Refusal {
        let full = refusals::CACHED <= self.memory.cached()
            && !self.memory.is_cached(id)
            && self.memory.allows_interaction(layer);
        when(refusals::FULL, full)
    }

    fn want(&mut self, layer: LayerWords, id: u64) -> Answered {
        unless(lowest([refusals::id(id), refusals::layer(layer)]))?;
        let (layer, id) = (convert::layer(layer), convert::id(id));
        unless(self.cache_full(layer, id))?;
        self.memory.interested_in_focus(id, layer);
        Ok(Answer::Done)
    }

    /// Refusal 6 where those of these layers that are new do not fit the stack.
    fn stack_full<const N: usize>(&self, layers: [LayerId; N]) -> Refusal {
        let held = self.memory.areas().order();
        if held.len() + N <= refusals::LAYERS {
            return None;
        }
        let places = layers.iter().enumerate();
        let new = places.filter(|&(i, l)| !held.contains(l) && !layers[..i].contains(l));
        let room = refusals::LAYERS - held.len();
        when(refusals::FULL, room < new.count())
    }

    fn area(&mut self, layer: LayerWords, at: [Steps; 2], of: [Steps; 2]) -> Answered {
        let floats = lowest([past_bound(&at), size_refusal(of)]);
        unless(refusals::layer(layer).or(floats))?;
        let layer = convert::layer(layer);
        unless(self.stack_full([layer]))?;
        let state = AreaState {
            pivot_pos: Some(pos(at)),
            pivot: Align2::LEFT_TOP,
            size: Some(size(of)),
            interactable: true,
            last_became_visible_at: None,
        };
        self.memory.areas_mut().set_state(layer, state);
        Ok(Answer::Done)
    }

    fn top(&mut self, layer: LayerWords) -> Answered {
        unless(refusals::layer(layer))?;
        let layer = convert::layer(layer);
        unless(self.stack_full([layer]))?;
        self.memory.areas_mut().move_to_top(layer);
        Ok(Answer::Done)
    }

    /// Refusal 9: another parent this pass, a child that is a parent, a parent that is a child.
    fn family(&self, parent: LayerId, child: LayerId) -> Refusal {
        let areas = self.memory.areas();
        let second = areas.parent_layer(child).is_some_and(|held| held != parent);
        let nested = areas.is_parent(child) || areas.is_sublayer(&parent);
        when(refusals::FAMILY, second || nested)
    }

    /// Both layers are of one Order, so that refusal 8 asks only whether they are the same.
    fn sub(&mut self, parent: LayerWords, child: LayerWords) -> Answered {
        unless(lowest([refusals::layer(parent), refusals::layer(child)]))?;
        let (parent, child) = (convert::layer(parent), convert::layer(child));
        let pair = when(refusals::PAIR, parent == child);
        let refusal = self.stack_full([parent, child]).or(pair);
        unless(refusal.or_else(|| self.family(parent, child)))?;
        self.memory.areas_mut().set_sublayer(parent, child);
        Ok(Answer::Done)
    }

    fn modal(&mut self, layer: LayerWords) -> Answered {
        unless(refusals::layer(layer))?;
        self.memory.set_modal_layer(convert::layer(layer));
        Ok(Answer::Done)
    }

    fn end(&mut self) -> Answered {
        let entries = &self.lists.used;
        let too_long = refusals::USED < entries.len();
        unless(when(refusals::LIST, too_long))?;
        let each = entries.iter();
        unless(lowest(
            each.map(|&(id, rect)| refusals::id(id).or(rect_refusal(rect))),
        ))?;
        self.used.clear();
        self.used.extend(entries.iter().map(used_entry));
        // An id that stands twice has taken one place. 5 is above all that an entry is refused by, so it comes last.
        let twice = self.used.len() < entries.len();
        unless(when(refusals::LIST, twice))?;
        self.memory.end_pass(&self.used);
        Ok(Answer::Done)
    }

    fn hit(&self, at: [Steps; 2]) -> Answered {
        unless(past_bound(&at))?;
        let found = self.memory.layer_id_at(pos(at));
        Ok(found.map_or(Answer::Nothing, Answer::Layer))
    }
}
