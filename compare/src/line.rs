//! What a call answers, and how it is written.

use crate::codes::Code;
use crate::packet::{write_packet, Fields, Form, END_CODE};

/// What became of a request.
#[derive(Clone, Copy, PartialEq, Eq, Debug)]
pub struct Outcome {
    /// The command's byte, which may be unknown.
    pub command: u8,
    pub param: u32,
    pub size: u32,
    pub code: Code,
}

/// What a call answers.
#[derive(Clone, Copy, Default, Debug)]
pub struct Answer {
    first: Option<Outcome>,
    second: Option<Outcome>,
    count: usize,
}

impl Answer {
    /// The outcomes, in their order.
    pub fn outcomes(&self) -> impl Iterator<Item = Outcome> {
        self.first.into_iter().chain(self.second)
    }

    /// What the call wrote, at the front of the answer buffer that it was lent.
    pub fn written<'a>(&self, out: &'a [u8]) -> &'a [u8] {
        &out[..self.count]
    }
}

/// The host line of a module during a call: the answer buffer, and what was answered so far.
pub(crate) struct Line<'a> {
    out: &'a mut [u8],
    own: u16,
    pub answer: Answer,
}

impl<'a> Line<'a> {
    pub fn new(out: &'a mut [u8], own: u16) -> Line<'a> {
        Line {
            out,
            own,
            answer: Answer::default(),
        }
    }

    /// The free part of the buffer behind the packet of an outcome; none for a broadcast.
    fn put(&mut self, to: Form, outcome: Outcome) -> Option<&mut [u8]> {
        if self.answer.first.is_none() {
            self.answer.first = Some(outcome);
        } else {
            self.answer.second = Some(outcome);
        }
        let form = to.reply(self.own)?;
        let fields = Fields {
            command: outcome.command,
            param: outcome.param,
            size: outcome.size,
            flag: outcome.code as u8,
        };
        self.answer.count += write_packet(&mut self.out[self.answer.count..], form, fields);
        Some(&mut self.out[self.answer.count..])
    }

    /// Answers an outcome, of a request in this form.
    pub fn say(&mut self, to: Form, outcome: Outcome) {
        self.put(to, outcome);
    }

    /// Answers an outcome with data, Size bytes that `fill` writes.
    pub fn say_with(&mut self, to: Form, outcome: Outcome, fill: impl FnOnce(&mut [u8])) {
        let size = outcome.size as usize;
        if let Some(rest) = self.put(to, outcome) {
            fill(&mut rest[..size]);
            rest[size] = END_CODE;
            self.answer.count += size + 1;
        }
    }
}
