//! What is answered to a request, by whomever: numbers, and how they are told.

use second::refusal::Answer;
use second::state::State;
use second::steps::Active;
use second::table::Table;

use super::wire::{Line, Next, Sink, Teller};

pub const LINE_PLACES: usize = 64;

pub enum Answers {
    State(Box<StateAnswers>),
    Table(Box<TableAnswers>),
    Image(Box<ImageAnswers>),
}

/// A call that changes a state: its number and what came back.
pub struct Stepped {
    pub refusal: u32,
    pub state: State,
}

pub struct Walked {
    pub stepped: Stepped,
    pub left: u64,
    pub shown: u64,
    pub lines: [Line; LINE_PLACES],
}

pub struct StateAnswers {
    pub arrive: Stepped,
    pub done: Stepped,
    pub advance: Stepped,
    pub walk: Walked,
    pub ask: Answer<Next>,
    pub active: Answer<Active>,
    pub margin: Answer<i64>,
}

pub struct TableAnswers {
    /// C has no such call.
    pub check: Option<u32>,
    pub fresh: Stepped,
    pub write: u32,
    pub buffer: Vec<u8>,
}

pub struct ImageAnswers {
    pub read: Answer<Table>,
    pub check: u32,
    pub entries: Entries,
}

/// The program shows the part itself; C is told where it lies.
pub enum Entries {
    Bytes(Vec<u8>),
    Part {
        refusal: u32,
        offset: u64,
        length: u64,
    },
}

impl Answers {
    /// Every number, in the order of the wire.
    pub fn tell(&self, sink: &mut impl Sink) {
        match self {
            Answers::State(answers) => answers.tell(sink),
            Answers::Table(answers) => answers.tell(sink),
            Answers::Image(answers) => answers.tell(sink),
        }
    }
}

impl StateAnswers {
    fn tell(&self, sink: &mut impl Sink) {
        tell_stepped("arrive", &self.arrive, sink);
        tell_stepped("done", &self.done, sink);
        tell_stepped("advance", &self.advance, sink);
        tell_stepped("walk", &self.walk.stepped, sink);
        let call = "walk";
        let mut told = Teller { call, sink };
        told.number("left", self.walk.left);
        told.number("shown", self.walk.shown);
        let lines = self.walk.lines.iter().enumerate();
        lines.for_each(|(place, line)| told.line(place, line));
        let call = "ask";
        let mut told = Teller { call, sink };
        told.number("refusal", self.ask.refusal.into());
        told.next(&self.ask.value);
        let call = "active";
        let mut told = Teller { call, sink };
        told.number("refusal", self.active.refusal.into());
        told.number("mask", self.active.value.mask.into());
        told.number("actives", self.active.value.count.into());
        let call = "margin";
        let mut told = Teller { call, sink };
        told.number("refusal", self.margin.refusal.into());
        told.number("ticks", self.margin.value as u64);
    }
}

impl TableAnswers {
    fn tell(&self, sink: &mut impl Sink) {
        if let Some(check) = self.check {
            let call = "check";
            Teller { call, sink }.number("refusal", check.into());
        }
        tell_stepped("fresh", &self.fresh, sink);
        let call = "write_image";
        let mut told = Teller { call, sink };
        told.number("refusal", self.write.into());
        told.number("length", self.buffer.len() as u64);
        sink.bytes(&self.buffer);
    }
}

impl ImageAnswers {
    fn tell(&self, sink: &mut impl Sink) {
        let call = "read_image";
        let mut told = Teller { call, sink };
        told.number("refusal", self.read.refusal.into());
        told.table(&self.read.value);
        let call = "check_image";
        Teller { call, sink }.number("refusal", self.check.into());
        let call = "entries";
        let mut told = Teller { call, sink };
        match &self.entries {
            Entries::Bytes(bytes) => {
                told.number("length", bytes.len() as u64);
                sink.bytes(bytes);
            }
            Entries::Part {
                refusal,
                offset,
                length,
            } => {
                told.number("refusal", (*refusal).into());
                told.number("offset", *offset);
                told.number("length", *length);
            }
        }
    }
}

fn tell_stepped(call: &'static str, stepped: &Stepped, sink: &mut impl Sink) {
    let mut told = Teller { call, sink };
    told.number("refusal", stepped.refusal.into());
    told.state(&stepped.state);
}
