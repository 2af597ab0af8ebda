//! The bench program a second time: lines of text in, a line of text out for each.

use crate::call::{Call, Calls};
use crate::Answer;

/// The bytes that the bench's card lies in.
const BUFFER: usize = 65_536;

/// A bench whose card is worked on by one implementation's calls.
pub struct Bench<'a> {
    calls: &'a Calls,
    buffer: Vec<u8>,
    /// 0 until a format is accepted.
    len: usize,
}

impl<'a> Bench<'a> {
    pub fn new(calls: &'a Calls) -> Bench<'a> {
        Bench { calls, buffer: vec![0; BUFFER], len: 0 }
    }

    /// The card, empty until a format is accepted.
    pub fn card(&self) -> &[u8] {
        &self.buffer[..self.len]
    }

    /// What a line, without its newline, is answered.
    pub fn answer(&mut self, line: &[u8]) -> Answer {
        let Some(call) = parse(line) else { return Answer::refused(10) };
        match call {
            Call::Format { buckets, sectors, .. } if self.len == 0 => {
                self.first_format(call, buckets, sectors)
            }
            _ => call.run(self.calls, &mut self.buffer[..self.len]),
        }
    }

    /// It is given the length that its own numbers call for, and a card longer than the buffer is 8.
    fn first_format(&mut self, call: Call, buckets: u32, sectors: u32) -> Answer {
        let length = 16 * (1 + u128::from(buckets) * (u128::from(sectors) + 1));
        if length > BUFFER as u128 {
            return Answer::refused(8);
        }
        let answer = call.run(self.calls, &mut self.buffer[..length as usize]);
        if answer.code == 0 {
            self.len = length as usize;
        }
        answer
    }

    /// The answers to a text, one line for each of its lines. A last one without its newline counts unless
    /// it is empty.
    pub fn session(&mut self, input: &[u8]) -> String {
        let mut lines: Vec<&[u8]> = input.split(|&byte| byte == b'\n').collect();
        if lines.last().is_some_and(|last| last.is_empty()) {
            lines.pop();
        }
        lines.into_iter().map(|line| said(self.answer(line)) + "\n").collect()
    }
}

fn said(Answer { code, bib, at, status, time, reads }: Answer) -> String {
    format!("code={code} bib={bib} at={at} status={status} time={time} reads={reads}")
}

/// The call of a line; `None` is a line off the grammar.
pub fn parse(line: &[u8]) -> Option<Call> {
    let mut fields = Fields(line.split(|&byte| byte == b' '));
    let call = match fields.value("op")? {
        b"format" => Call::Format {
            buckets: fields.number("buckets")?,
            sectors: fields.number("sectors")?,
            td: fields.number("td")?,
            ti: fields.number("ti")?,
        },
        b"post" => Call::Post {
            bib: fields.number("bib")?,
            at: fields.number("at")?,
            status: fields.number("status")?,
            time: fields.number("time")?,
        },
        b"strike" => Call::Strike { bib: fields.number("bib")?, at: fields.number("at")? },
        b"look" => Call::Look { bib: fields.number("bib")?, at: fields.number("at")? },
        b"next" => Call::Next { bib: fields.number("bib")?, at: fields.number("at")? },
        _ => return None,
    };
    fields.0.next().is_none().then_some(call)
}

/// The fields of a line, taken in order.
struct Fields<I>(I);

impl<'a, I: Iterator<Item = &'a [u8]>> Fields<I> {
    /// What stands behind `name=` in the next field.
    fn value(&mut self, name: &str) -> Option<&'a [u8]> {
        self.0.next()?.strip_prefix(name.as_bytes())?.strip_prefix(b"=")
    }

    /// A plain decimal without leading zeros, at most 4294967295.
    fn number(&mut self, name: &str) -> Option<u32> {
        let digits = self.value(name)?;
        let plain = digits == b"0" || digits.first().is_some_and(|&first| first != b'0');
        if !plain || !digits.iter().all(u8::is_ascii_digit) {
            return None;
        }
        std::str::from_utf8(digits).ok()?.parse().ok()
    }
}
