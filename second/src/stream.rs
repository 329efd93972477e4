//! A script as requests in octets, and the answers to them as the text that the script prints (docs/CALLS.md, "Requests in octets").

use std::io::{BufRead, Read, Write};

use crate::calls::{
    begun, checked, lines, looked, put, taken, written, Line, ReaderSlots, Said, WriterSlots, AREA_OCTET, FRAME_ROOM,
    HELD_ROOM, LENT, RECORD_ROOM, SLOTS, UNIT_ROOM,
};
use crate::frame::big_endian;
use crate::reader::{Answer, Class, Expected, Look, HELD_PART};

/// A number's octets, and a row's: eight numbers.
const NUMBER: usize = 8;
const ROW: usize = 64;
/// The desk's rows: the answer, the writer's state, the reader's state; behind them the frame area.
const STATE_ROWS: usize = 1 + 2 * SLOTS;
const WRITER: usize = 1;
const READER: usize = WRITER + STATE_ROWS;
const ROWS: usize = (READER + STATE_ROWS) * ROW;
const DESK: usize = ROWS + FRAME_ROOM;
/// In a state: the first channel's row and the first lane's row.
const CHANNELS: usize = 1;
const LANES: usize = CHANNELS + SLOTS;
/// In a channel's row: whether a count is expected, and the count. In a lane's row: how many octets it holds, or its next frame number; the span of
/// what it holds.
const KNOWN: usize = 4;
const COUNT: usize = 5;
const LENGTH: usize = 5;
const SPAN: usize = 6;
/// In the octets behind a write: insert octets, OCF octets, the batch.
const INSERT_ROOM: usize = 256;
const OCF_ROOM: usize = 16;

/// What a request asks for.
#[derive(Clone, Copy)]
enum What {
    Keep = 0,
    Read = 1,
    LayHeld = 2,
    Blank = 3,
    LayDesk = 4,
    SetWriter = 5,
    SetReader = 6,
    Write = 7,
    Check = 8,
    Look = 9,
}

fn octets_of(numbers: &[u64]) -> Vec<u8> {
    numbers.iter().flat_map(|number| number.to_be_bytes()).collect()
}

/// Where a number of a row stands.
fn place(row: usize, number: usize) -> u64 {
    (row * ROW + number * NUMBER) as u64
}

/// Appends a request: its row, which is filled up with zeros, and the octets behind it.
fn ask(out: &mut Vec<u8>, what: What, numbers: &[u64], behind: &[u8]) {
    let mut row = [0; ROW / NUMBER];
    row[0] = what as u64;
    row[1] = behind.len() as u64;
    row[2..2 + numbers.len()].copy_from_slice(numbers);
    out.extend(octets_of(&row));
    out.extend(behind);
}

/// Lays numbers on the desk, from this number of this row on.
fn lay(out: &mut Vec<u8>, row: usize, number: usize, numbers: &[u64]) {
    ask(out, What::LayDesk, &[place(row, number)], &octets_of(numbers));
}

/// States of zeros, and every area full of octets 55.
fn anew(out: &mut Vec<u8>) {
    ask(out, What::Blank, &[], &[]);
    let desk = [vec![0; ROWS], vec![AREA_OCTET; FRAME_ROOM]].concat();
    ask(out, What::LayDesk, &[0], &desk);
}

/// Lays a setting into a state that begins with this row, and leaves all else of it.
fn lay_setting(out: &mut Vec<u8>, state: usize, said: &Said) {
    lay(out, state, 0, &said.front);
    for slot in 0..SLOTS {
        lay(out, state + CHANNELS + slot, 0, &said.channels[slot]);
        lay(out, state + LANES + slot, 0, &said.lanes[slot]);
    }
}

/// Lays numbers into a slot's row, if there is such a slot.
fn lay_slot(out: &mut Vec<u8>, first: usize, slot: u64, number: usize, numbers: &[u64]) {
    if slot < SLOTS as u64 {
        lay(out, first + slot as usize, number, numbers);
    }
}

/// Lays into a lane's row of the reader how many octets the lane holds, and their span behind that.
fn lay_held(out: &mut Vec<u8>, slot: u64, number: u64, span: u64) {
    lay_slot(out, READER + LANES, slot, LENGTH, &[number, span]);
}

/// Octets for a place that has room for so many.
fn padded(octets: &[u8], room: usize) -> Result<Vec<u8>, String> {
    if octets.len() > room {
        return Err(format!("at most {room} octets"));
    }
    let mut padded = octets.to_vec();
    padded.resize(room, 0);
    Ok(padded)
}

/// The requests of a line.
fn requests_of(said: &mut Said, line: &Line) -> Result<Vec<u8>, String> {
    let mut out = Vec::new();
    match line {
        Line::Nothing => {}
        Line::Setting(setting) => {
            *said = setting.clone();
            anew(&mut out);
        }
        Line::Channel(slot, numbers) => put(&mut said.channels, *slot, *numbers),
        Line::Lane(slot, numbers) => put(&mut said.lanes, *slot, *numbers),
        Line::Begin => {
            lay_setting(&mut out, WRITER, said);
            ask(&mut out, What::SetWriter, &[], &[]);
            lay_setting(&mut out, READER, said);
            ask(&mut out, What::SetReader, &[], &[]);
        }
        Line::Take => {
            lay_setting(&mut out, WRITER, said);
            lay_setting(&mut out, READER, said);
        }
        Line::Count(slot, number) => lay_slot(&mut out, WRITER + CHANNELS, *slot, COUNT, &[*number]),
        Line::Next(slot, number) => lay_slot(&mut out, WRITER + LANES, *slot, LENGTH, &[*number]),
        Line::Expect(slot, Expected { known, count }) => {
            lay_slot(&mut out, READER + CHANNELS, *slot, KNOWN, &[u64::from(*known), *count]);
        }
        Line::Hold { slot, number, span } => lay_held(&mut out, *slot, *number, *span),
        Line::Held { slot, octets, span } => {
            if *slot < SLOTS as u64 {
                ask(&mut out, What::LayHeld, &[slot * HELD_PART as u64], octets);
            }
            lay_held(&mut out, *slot, octets.len() as u64, *span);
        }
        Line::Write { lane, batch, insert, ocf, area } => {
            let behind = [padded(insert, INSERT_ROOM)?, padded(ocf, OCF_ROOM)?, batch.clone()].concat();
            ask(&mut out, What::Write, &[*lane, insert.len() as u64, ocf.len() as u64, *area], &behind);
        }
        Line::Look(frame) => ask(&mut out, What::Look, &[], frame),
        Line::Read { frame, areas } => ask(&mut out, What::Read, areas, frame),
        Line::Keep(length) => {
            let [units, records, held] = LENT;
            ask(&mut out, What::Keep, &[units, records, held, *length], &[]);
        }
        Line::Check(octets) => ask(&mut out, What::Check, &[], octets),
    }
    Ok(out)
}

/// A script as requests.
pub fn requests(script: impl BufRead, out: &mut impl Write) -> Result<(), String> {
    let mut said = Said::default();
    let mut first = Vec::new();
    anew(&mut first);
    out.write_all(&first).map_err(|error| error.to_string())?;
    for line in lines(script) {
        let (number, line) = line?;
        let octets = requests_of(&mut said, &line).map_err(|expected| format!("line {number}: expected {expected}"))?;
        out.write_all(&octets).map_err(|error| error.to_string())?;
    }
    out.flush().map_err(|error| error.to_string())
}

/// An area of an answer.
fn area(answers: &mut impl Read, length: usize) -> Result<Vec<u8>, String> {
    let mut octets = vec![0; length];
    answers.read_exact(&mut octets).map_err(|error| format!("an answer is cut: {error}"))?;
    Ok(octets)
}

/// The numbers of a row of the desk.
fn row<const N: usize>(desk: &[u8], row: usize) -> [u64; N] {
    std::array::from_fn(|i| big_endian(&desk[row * ROW + i * NUMBER..][..NUMBER]))
}

fn setting_on(desk: &[u8], state: usize) -> Said {
    Said {
        front: row(desk, state),
        channels: std::array::from_fn(|slot| row(desk, state + CHANNELS + slot)),
        lanes: std::array::from_fn(|slot| row(desk, state + LANES + slot)),
    }
}

/// A number of each of the eight rows from this row on.
fn column(desk: &[u8], first: usize, number: usize) -> [u64; SLOTS] {
    std::array::from_fn(|slot| row::<{ ROW / NUMBER }>(desk, first + slot)[number])
}

fn writer_on(desk: &[u8]) -> WriterSlots {
    WriterSlots {
        said: setting_on(desk, WRITER),
        counts: column(desk, WRITER + CHANNELS, COUNT),
        next: column(desk, WRITER + LANES, LENGTH),
    }
}

fn reader_on(desk: &[u8]) -> ReaderSlots {
    let known = column(desk, READER + CHANNELS, KNOWN);
    let count = column(desk, READER + CHANNELS, COUNT);
    ReaderSlots {
        said: setting_on(desk, READER),
        expects: std::array::from_fn(|slot| Expected { known: known[slot] == 1, count: count[slot] }),
        held: column(desk, READER + LANES, LENGTH),
        span: column(desk, READER + LANES, SPAN),
    }
}

/// The class that the first two numbers of an answer say.
fn class_of(class: u64, refusal: u64) -> Result<Class, String> {
    match (class, u8::try_from(refusal)) {
        (0, Ok(0)) => Ok(Class::Idle),
        (1, Ok(0)) => Ok(Class::Counted),
        (2, Ok(0)) => Ok(Class::Read),
        (3, Ok(number)) => Ok(Class::Refused(number)),
        (4, Ok(0)) => Ok(Class::Repeat),
        _ => Err(format!("an answer has class {class} and refusal {refusal}")),
    }
}

fn answer_on(desk: &[u8]) -> Result<Answer, String> {
    let [class, refusal, units, octets, missing, idle, fill, dropped] = row(desk, 0);
    let class = class_of(class, refusal)?;
    Ok(Answer { class, units, octets, missing, idle, fill, dropped, channel: None, lane: None })
}

fn look_on(desk: &[u8]) -> Result<Look, String> {
    let [class, refusal, channel, lane, missing, others @ ..]: [u64; ROW / NUMBER] = row(desk, 0);
    if others != [0; ROW / NUMBER - 5] {
        return Err("a look's answer has a number that should be 0".to_string());
    }
    // A place and one; 0 is none.
    let place = |number: u64| number.checked_sub(1).map(|place| place as usize);
    Ok(Look { class: class_of(class, refusal)?, missing, channel: place(channel), lane: place(lane) })
}

/// The settings that a script has said so far, and that both states should have.
#[derive(Default)]
struct Course {
    said: Said,
    writer: Said,
    reader: Said,
}

/// A refused set-up leaves a state of zeros.
fn set_up(said: &Said, refusal: u64) -> Said {
    if refusal == 0 {
        return said.clone();
    }
    Said::default()
}

impl Course {
    /// A line that says a setting.
    fn say(&mut self, line: &Line) {
        match line {
            Line::Setting(said) => *self = Course { said: said.clone(), ..Course::default() },
            Line::Channel(slot, numbers) => put(&mut self.said.channels, *slot, *numbers),
            Line::Lane(slot, numbers) => put(&mut self.said.lanes, *slot, *numbers),
            Line::Take => (self.writer, self.reader) = (self.said.clone(), self.said.clone()),
            _ => {}
        }
    }

    /// The numbers that the text does not show whole: settings, and the numbers of rows that are 0.
    fn hold(&self, desk: &[u8]) -> Result<(), String> {
        if setting_on(desk, WRITER) != self.writer || setting_on(desk, READER) != self.reader {
            return Err("a state has another setting".to_string());
        }
        for state in [WRITER, READER] {
            let says = |first, number| column(desk, state + first, number).iter().any(|&number| number != 0);
            let flags = column(desk, state + CHANNELS, KNOWN);
            let known = if state == READER { 1 } else { 0 };
            let [.., last]: [u64; ROW / NUMBER] = row(desk, state);
            if last != 0
                || flags.iter().any(|&flag| flag > known)
                || says(CHANNELS, 6)
                || says(CHANNELS, 7)
                || (state == WRITER && says(LANES, SPAN))
                || says(LANES, 7)
            {
                return Err("a number is not 0 that should be".to_string());
            }
        }
        Ok(())
    }

    /// The desk of an answer.
    fn desk(&self, answers: &mut impl Read) -> Result<Vec<u8>, String> {
        let desk = area(answers, DESK)?;
        self.hold(&desk)?;
        Ok(desk)
    }

    /// The number that the desk of an answer has in row 0, and no other.
    fn number_on(desk: &[u8]) -> Result<u64, String> {
        let [number, others @ ..]: [u64; ROW / NUMBER] = row(desk, 0);
        if others != [0; ROW / NUMBER - 1] {
            return Err("an answer of one number has others".to_string());
        }
        Ok(number)
    }

    /// Both set-ups, the writer's first.
    fn begin(&mut self, answers: &mut impl Read) -> Result<String, String> {
        let desk = area(answers, DESK)?;
        let writer = Course::number_on(&desk)?;
        self.writer = set_up(&self.said, writer);
        self.hold(&desk)?;
        let desk = area(answers, DESK)?;
        let reader = Course::number_on(&desk)?;
        self.reader = set_up(&self.said, reader);
        self.hold(&desk)?;
        Ok(begun([writer, reader], &writer_on(&desk), &reader_on(&desk)))
    }

    /// What a line of the script prints, from the answer to it.
    fn printed(&mut self, line: &Line, answers: &mut impl Read) -> Result<String, String> {
        match line {
            Line::Begin => self.begin(answers),
            Line::Write { .. } => {
                let desk = self.desk(answers)?;
                Ok(written(Course::number_on(&desk)?, &writer_on(&desk), &desk[ROWS..]))
            }
            Line::Check(_) => Ok(checked(Course::number_on(&self.desk(answers)?)?)),
            Line::Look(_) => {
                let desk = self.desk(answers)?;
                Ok(looked(&look_on(&desk)?, &reader_on(&desk)))
            }
            Line::Read { .. } | Line::Keep(_) => {
                let desk = self.desk(answers)?;
                let held = area(answers, HELD_ROOM)?;
                let units = area(answers, UNIT_ROOM)?;
                let records = area(answers, RECORD_ROOM)?;
                Ok(taken(&answer_on(&desk)?, &reader_on(&desk), [&units, &records, &held]))
            }
            _ => {
                self.say(line);
                Ok(String::new())
            }
        }
    }
}

/// The answers to a script's requests, as what the script prints.
pub fn answers(script: impl BufRead, mut answers: impl Read, out: &mut impl Write) -> Result<(), String> {
    let mut course = Course::default();
    for line in lines(script) {
        let (number, line) = line?;
        let text = course.printed(&line, &mut answers).map_err(|what| format!("line {number}: {what}"))?;
        if !text.is_empty() {
            write!(out, "{number} {text}").map_err(|error| error.to_string())?;
        }
    }
    match answers.read(&mut [0]) {
        Ok(0) => out.flush().map_err(|error| error.to_string()),
        _ => Err("there is an answer more than the script asks for".to_string()),
    }
}
