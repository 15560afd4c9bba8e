//! What the second implementation answers to a request.

use second::image::{self, Reading};
use second::refusal::Answer;
use second::state::{self, State};
use second::steps::{self, Ask, Portion, Source};
use second::table::{self, Table};

use super::answers::{
    Answers, Entries, ImageAnswers, StateAnswers, Stepped, TableAnswers, Walked, LINE_PLACES,
};
use super::request::Request;
use super::wire::{Line, Next, Used};

/// How it is answered: as the program `test_answers` does, or as include/lomvadric.h has it.
#[derive(Clone, Copy, PartialEq, Eq)]
pub enum Form {
    Program,
    Archive,
}

pub fn answers(request: &Request, form: Form) -> Answers {
    match request {
        Request::State {
            state,
            guest,
            ticks,
        } => Answers::State(Box::new(of_state(state, *guest, *ticks, form))),
        Request::Table {
            table,
            length,
            fill,
        } => Answers::Table(Box::new(of_table(table, vec![*fill; *length], form))),
        Request::Image(image) => Answers::Image(Box::new(of_image(image, form))),
    }
}

fn of_state(state: &State, guest: u64, ticks: u64, form: Form) -> StateAnswers {
    let ask = steps::ask(state);
    StateAnswers {
        arrive: stepped(state, |changed| steps::arrive(changed, guest)),
        done: stepped(state, |changed| steps::done(changed, guest)),
        advance: stepped(state, |changed| steps::advance(changed, ticks)),
        walk: walked(state, ticks, form),
        ask: Answer {
            refusal: ask.refusal,
            value: next(ask.value, form),
        },
        active: steps::active(state),
        margin: steps::margin(state, guest),
    }
}

fn of_table(table: &Table, mut buffer: Vec<u8>, form: Form) -> TableAnswers {
    let fresh = state::fresh(table);
    TableAnswers {
        check: (form == Form::Program).then(|| table::check(table)),
        fresh: Stepped {
            refusal: fresh.refusal,
            state: fresh.value,
        },
        write: image::write(table, &mut buffer),
        buffer,
    }
}

fn of_image(image: &[u8], form: Form) -> ImageAnswers {
    let Answer {
        refusal,
        value: Reading { table, entries },
    } = image::read(image);
    let part = Entries::Part {
        refusal,
        offset: entries.offset as u64,
        length: entries.length as u64,
    };
    ImageAnswers {
        read: Answer {
            refusal,
            value: table,
        },
        check: refusal,
        entries: match form {
            Form::Program => Entries::Bytes(image[entries.offset..][..entries.length].to_vec()),
            Form::Archive => part,
        },
    }
}

fn stepped(state: &State, call: impl Fn(&mut State) -> u32) -> Stepped {
    let mut state = *state;
    let refusal = call(&mut state);
    Stepped { refusal, state }
}

/// The second implementation has no walk: the first portions of its advance, and the state after as many ticks as they have.
fn walked(state: &State, ticks: u64, form: Form) -> Walked {
    let Answer {
        refusal,
        value: mut portions,
    } = steps::portions(state, ticks);
    portions.truncate(LINE_PLACES);
    let made = portions.last().map_or(0, |portion| portion.end - state.now);
    let mut reached = stepped(state, |changed| {
        steps::advance(changed, if refusal == 0 { made } else { ticks })
    });
    reached.refusal = refusal;
    let mut lines = [Line::default(); LINE_PLACES];
    for (line, portion) in lines.iter_mut().zip(&portions) {
        *line = line_of(portion, form);
    }
    Walked {
        left: if refusal == 0 { ticks - made } else { 0 },
        shown: portions.len() as u64,
        stepped: reached,
        lines,
    }
}

fn line_of(portion: &Portion, form: Form) -> Line {
    Line {
        first: portion.first,
        end: portion.end,
        used: next(portion.answer, form).used,
    }
}

fn next(answer: Ask, form: Form) -> Next {
    let (deadline, span) = match answer {
        Ask::Run { deadline, span, .. } | Ask::Burn { deadline, span, .. } => (deadline, span),
        Ask::Nothing => (0, 0),
    };
    Next {
        used: used(answer, form),
        deadline,
        span,
    }
}

/// A number that the kind does not have is 0. Who owns a guest's own budget is told to C alone.
fn used(answer: Ask, form: Form) -> Used {
    let (kind, guest, owner) = match answer {
        Ask::Nothing => (0, 0, 0),
        Ask::Run { guest, source, .. } => match source {
            Source::Own if form == Form::Program => (1, guest, 0),
            Source::Own => (1, guest, guest),
            Source::Spare { owner } => (2, guest, owner),
        },
        Ask::Burn { owner, .. } => (3, 0, owner),
    };
    Used { kind, guest, owner }
}
