//! The calls that a request asks for, each on a copy of its own. All of them keep to what include/lomvadric.h asks of a caller: that makes them safe.

use second::refusal::Answer;
use second::state;
use second::steps::Active;
use second::table;

use super::header::{self, Line, State, Table, Use};
use super::places::{lent, lent_bytes, shown};
use crate::states::answers::{
    Answers, Entries, ImageAnswers, StateAnswers, Stepped, TableAnswers, Walked,
};
use crate::states::request::Request;
use crate::states::wire::{self, STATE_NUMBERS, TABLE_NUMBERS};

/// What stands before the call in a place that it fills.
const LEFTOVER: u64 = 0xA5A5_A5A5_A5A5_A5A5;

pub fn answers(request: &Request) -> Result<Answers, String> {
    Ok(match request {
        Request::State {
            state,
            guest,
            ticks,
        } => Answers::State(Box::new(of_state(state, *guest as usize, *ticks)?)),
        Request::Table {
            table,
            length,
            fill,
        } => Answers::Table(Box::new(of_table(table, &vec![*fill; *length])?)),
        Request::Image(image) => Answers::Image(Box::new(of_image(image)?)),
    })
}

fn in_call(call: &str) -> impl Fn(String) -> String + '_ {
    move |reason| format!("lomvadric_{call}: {reason}")
}

fn of_state(state: &state::State, guest: usize, ticks: u64) -> Result<StateAnswers, String> {
    let state = State::from(state);
    let arrive = |place| unsafe { header::lomvadric_arrive(place, guest) };
    let done = |place| unsafe { header::lomvadric_done(place, guest) };
    let advance = |place| unsafe { header::lomvadric_advance(place, ticks) };
    Ok(StateAnswers {
        arrive: stepped(state, arrive).map_err(in_call("arrive"))?,
        done: stepped(state, done).map_err(in_call("done"))?,
        advance: stepped(state, advance).map_err(in_call("advance"))?,
        walk: walk(state, ticks).map_err(in_call("walk"))?,
        ask: ask(state).map_err(in_call("ask"))?,
        active: active(state).map_err(in_call("active"))?,
        margin: margin(state, guest).map_err(in_call("margin"))?,
    })
}

fn stepped(state: State, call: impl FnOnce(*mut State) -> u32) -> Result<Stepped, String> {
    let (refusal, left) = lent(state, call)?;
    let state = state::State::from(&left);
    Ok(Stepped { refusal, state })
}

fn walk(state: State, ticks: u64) -> Result<Walked, String> {
    let call = |place| unsafe { header::lomvadric_walk(place, ticks) };
    let (walked, left) = lent(state, call)?;
    let (refusal, state) = (walked.refusal, state::State::from(&left));
    Ok(Walked {
        stepped: Stepped { refusal, state },
        left: walked.left,
        shown: walked.shown as u64,
        lines: walked.lines.map(line),
    })
}

fn line(line: Line) -> wire::Line {
    wire::Line {
        first: line.first,
        end: line.end,
        used: used(line.used),
    }
}

fn used(used: Use) -> wire::Used {
    wire::Used {
        kind: used.kind.into(),
        guest: used.guest as u64,
        owner: used.owner as u64,
    }
}

fn ask(state: State) -> Result<Answer<wire::Next>, String> {
    let next = shown(state, |place| unsafe { header::lomvadric_ask(place) })?;
    let value = wire::Next {
        used: used(next.used),
        deadline: next.deadline,
        span: next.span,
    };
    let refusal = next.refusal;
    Ok(Answer { refusal, value })
}

fn active(state: State) -> Result<Answer<Active>, String> {
    let given = shown(state, |place| unsafe { header::lomvadric_active(place) })?;
    let (mask, count) = (given.mask, given.actives);
    let (refusal, value) = (given.refusal, Active { mask, count });
    Ok(Answer { refusal, value })
}

fn margin(state: State, guest: usize) -> Result<Answer<i64>, String> {
    let call = |place| unsafe { header::lomvadric_margin(place, guest) };
    let distance = shown(state, call)?;
    let (refusal, value) = (distance.refusal, distance.ticks);
    Ok(Answer { refusal, value })
}

fn of_table(table: &table::Table, buffer: &[u8]) -> Result<TableAnswers, String> {
    let table = Table::from(table);
    let (write, buffer) = write(table, buffer).map_err(in_call("write_image"))?;
    Ok(TableAnswers {
        check: None,
        fresh: fresh(table).map_err(in_call("fresh"))?,
        write,
        buffer,
    })
}

fn fresh(table: Table) -> Result<Stepped, String> {
    let leftover = State::from(&wire::state_of(&[LEFTOVER; STATE_NUMBERS]));
    let call = |place| {
        shown(table, |table| unsafe {
            header::lomvadric_fresh(place, table)
        })
    };
    let (refusal, left) = lent(leftover, call)?;
    let (refusal, state) = (refusal?, state::State::from(&left));
    Ok(Stepped { refusal, state })
}

fn write(table: Table, buffer: &[u8]) -> Result<(u32, Vec<u8>), String> {
    let length = buffer.len();
    let write = |table, place| unsafe { header::lomvadric_write_image(table, place, length) };
    let (refusal, left) = lent_bytes(buffer, |place| shown(table, |table| write(table, place)))?;
    Ok((refusal?, left))
}

/// The image lies in a place of exactly its size.
fn of_image(image: &[u8]) -> Result<ImageAnswers, String> {
    let before = image.to_vec();
    let answers = ImageAnswers {
        read: read(image).map_err(in_call("read_image"))?,
        check: super::check_image(image),
        entries: entries(image),
    };
    if std::hint::black_box(image) != before {
        return Err("the image was changed".to_string());
    }
    Ok(answers)
}

fn read(image: &[u8]) -> Result<Answer<table::Table>, String> {
    let leftover = Table::from(&wire::table_of(&[LEFTOVER; TABLE_NUMBERS]));
    let (start, length) = (image.as_ptr(), image.len());
    let call = |place| unsafe { header::lomvadric_read_image(place, start, length) };
    let (refusal, left) = lent(leftover, call)?;
    let value = table::Table::from(&left);
    Ok(Answer { refusal, value })
}

fn entries(image: &[u8]) -> Entries {
    let part = unsafe { header::lomvadric_entries(image.as_ptr(), image.len()) };
    Entries::Part {
        refusal: part.refusal,
        offset: part.offset as u64,
        length: part.length as u64,
    }
}
