//! `second calls`: a script of single calls (docs/CALLS.md), with any setting, state and areas, and all that each call leaves.

use std::io::{BufRead, Write};

use crate::frame::frame_check;
use crate::reader::{
    Answer, Areas, Class, Expected, Look, Reader, HELD_AREA, HELD_PART, RECORD, RECORD_AREA, UNIT_AREA,
};
use crate::setting::{Channel, Kind, Lane, Setting};
use crate::text::{decimal, hex, unhex, words};
use crate::writer::{Lent, Writer};

/// The octets that lent areas are full of where a setting begins.
pub const AREA_OCTET: u8 = 0x55;
/// All areas are a little longer than the calls want; the octets past what is lent are looked at too.
pub const FRAME_ROOM: usize = 4_200;
pub const HELD_ROOM: usize = HELD_AREA + 16;
pub const UNIT_ROOM: usize = UNIT_AREA + 16;
pub const RECORD_ROOM: usize = RECORD_AREA + 32;
pub const SLOTS: usize = 8;

/// The lengths of unit, record and held area where none are said.
pub const LENT: [u64; 3] = [UNIT_AREA as u64, RECORD_AREA as u64, HELD_AREA as u64];

/// A line of a script.
pub enum Line {
    Nothing,
    Setting(Said),
    Channel(u64, [u64; 4]),
    Lane(u64, [u64; 5]),
    Begin,
    Take,
    Count(u64, u64),
    Next(u64, u64),
    Expect(u64, Expected),
    Held { slot: u64, octets: Vec<u8>, span: u64 },
    Hold { slot: u64, number: u64, span: u64 },
    Write { lane: u64, batch: Vec<u8>, insert: Vec<u8>, ocf: Vec<u8>, area: u64 },
    Look(Vec<u8>),
    Read { frame: Vec<u8>, areas: [u64; 3] },
    Keep(u64),
    Check(Vec<u8>),
}

impl Line {
    /// What the words of a line say.
    pub fn parse(words: &[&str]) -> Result<Line, String> {
        match words {
            [] => Ok(Line::Nothing),
            ["begin"] => Ok(Line::Begin),
            ["take"] => Ok(Line::Take),
            ["held", slot, octets, span @ ..] if span.len() <= 1 => {
                let mut octets = unhex(octets)?;
                octets.truncate(HELD_PART);
                let span = match span {
                    [] => span_of(octets.len() as u64),
                    [span, ..] => kept(decimal(span)?),
                };
                Ok(Line::Held { slot: decimal(slot)?, octets, span })
            }
            ["write", lane, batch, insert, ocf, area] => Ok(Line::Write {
                lane: decimal(lane)?,
                batch: unhex(batch)?,
                insert: unhex(insert)?,
                ocf: unhex(ocf)?,
                area: decimal(area)?,
            }),
            ["look", frame] => Ok(Line::Look(unhex(frame)?)),
            ["read", frame, lengths @ ..] if lengths.len() <= 3 => {
                Ok(Line::Read { frame: unhex(frame)?, areas: area_lengths(lengths)? })
            }
            ["check", octets] => Ok(Line::Check(unhex(octets)?)),
            [word, numbers @ ..] => {
                let numbers: Result<Vec<u64>, String> = numbers.iter().map(|number| decimal(number)).collect();
                Line::of_numbers(word, &numbers?)
            }
        }
    }

    /// A line that says numbers alone. They are taken as they are, within their types.
    fn of_numbers(word: &str, numbers: &[u64]) -> Result<Line, String> {
        match (word, numbers) {
            ("setting", &[length, spacecraft, bit, insert, check, listed, numbered]) => {
                let front = [length, spacecraft % 65_536, bit % 256, insert, u64::from(check == 1), listed, numbered];
                Ok(Line::Setting(Said { front, ..Said::default() }))
            }
            ("channel", &[slot, virtual_channel, service, octets, ocf]) => {
                Ok(Line::Channel(slot, [virtual_channel % 256, service % 256, octets % 256, u64::from(ocf == 1)]))
            }
            ("lane", &[slot, channel, map, kind, longest, upid]) => {
                Ok(Line::Lane(slot, [channel % 256, map % 256, u64::from(kind != 0), longest % 65_536, upid % 256]))
            }
            ("count", &[slot, number]) => Ok(Line::Count(slot, number)),
            ("next", &[slot, number]) => Ok(Line::Next(slot, number)),
            ("expect", &[slot, known, count]) => Ok(Line::Expect(slot, Expected { known: known == 1, count })),
            ("hold", &[slot, number]) => Ok(Line::Hold { slot, number: kept(number), span: span_of(kept(number)) }),
            ("hold", &[slot, number, span]) => Ok(Line::Hold { slot, number: kept(number), span: kept(span) }),
            ("keep", &[length]) => Ok(Line::Keep(length)),
            _ => Err("a line of a script".to_string()),
        }
    }
}

/// A number that a reader keeps of a lane, of octets or of frames, within its two octets.
fn kept(number: u64) -> u64 {
    number % 65_536
}

/// The span where a line says none: one frame carries what is held.
fn span_of(held: u64) -> u64 {
    held.min(1)
}

/// A setting as the script says it: numbers in eight slots of each kind, not judged.
#[derive(Clone, Default, PartialEq, Eq)]
pub struct Said {
    /// F, spacecraft, bit, I, check, listed channels, numbered lanes.
    pub front: [u64; 7],
    /// Virtual channel, service, octets of the count, OCF.
    pub channels: [[u64; 4]; SLOTS],
    /// Channel, map, kind, longest, UPID.
    pub lanes: [[u64; 5]; SLOTS],
}

impl Said {
    fn listed(&self) -> usize {
        self.front[5].min(SLOTS as u64) as usize
    }

    fn numbered(&self) -> usize {
        self.front[6].min(SLOTS as u64) as usize
    }

    /// The setting to be judged. A bit that is none makes it not valid, and so do more slots than there are.
    fn setting(&self) -> Setting {
        let [frame_length, spacecraft, bit, insert, check, listed, numbered] = self.front;
        if bit > 1 || listed > SLOTS as u64 || numbered > SLOTS as u64 {
            return Setting::default();
        }
        let channel = |slot: &[u64; 4]| Channel {
            virtual_channel: slot[0],
            service: slot[1],
            count_length: slot[2],
            ocf: slot[3] == 1,
        };
        let lane = |slot: &[u64; 5]| Lane {
            channel: slot[0] as usize,
            map: slot[1],
            kind: if slot[2] == 0 { Kind::Packet } else { Kind::Access },
            longest: slot[3],
            upid: slot[4],
        };
        Setting {
            frame_length,
            spacecraft,
            destination: bit == 1,
            insert,
            check: check == 1,
            channels: self.channels[..listed as usize].iter().map(channel).collect(),
            lanes: self.lanes[..numbered as usize].iter().map(lane).collect(),
        }
    }

    fn sum(&self) -> u64 {
        let channels = self.channels.iter().flatten();
        let lanes = self.lanes.iter().flatten();
        sum(self.front.iter().chain(channels).chain(lanes).copied())
    }
}

/// Each number after the sum so far times 31, modulo 2^32.
fn sum(numbers: impl Iterator<Item = u64>) -> u64 {
    numbers.fold(0, |sum, number| (sum * 31 + number % (1 << 32)) % (1 << 32))
}

fn area_sum(area: &[u8]) -> u32 {
    area.iter().fold(0, |sum: u32, &octet| sum.wrapping_mul(31).wrapping_add(u32::from(octet)))
}

/// A writer's state in all its slots; slots past the listed are not the writer's business.
#[derive(Clone, Default)]
pub struct WriterSlots {
    pub said: Said,
    pub counts: [u64; SLOTS],
    pub next: [u64; SLOTS],
}

impl WriterSlots {
    fn writer(&self) -> Writer {
        Writer {
            setting: self.said.setting(),
            counts: self.counts[..self.said.listed()].to_vec(),
            next: self.next[..self.said.numbered()].to_vec(),
        }
    }

    fn take(&mut self, writer: &Writer) {
        self.counts[..writer.counts.len()].copy_from_slice(&writer.counts);
        self.next[..writer.next.len()].copy_from_slice(&writer.next);
    }

    fn line(&self) -> String {
        format!("writer counts {} next {} setting {}\n", list(&self.counts), list(&self.next), self.said.sum())
    }
}

/// A reader's state in all its slots.
#[derive(Clone, Default)]
pub struct ReaderSlots {
    pub said: Said,
    pub expects: [Expected; SLOTS],
    pub held: [u64; SLOTS],
    pub span: [u64; SLOTS],
}

impl ReaderSlots {
    fn reader(&self) -> Reader {
        Reader {
            setting: self.said.setting(),
            expected: self.expects[..self.said.listed()].to_vec(),
            held: self.held[..self.said.numbered()].iter().map(|&held| held as usize).collect(),
            span: self.span[..self.said.numbered()].to_vec(),
        }
    }

    fn take(&mut self, reader: &Reader) {
        self.expects[..reader.expected.len()].copy_from_slice(&reader.expected);
        for (slot, &held) in self.held.iter_mut().zip(&reader.held) {
            *slot = held as u64;
        }
        self.span[..reader.span.len()].copy_from_slice(&reader.span);
    }

    fn line(&self) -> String {
        let expects = self.expects.map(|e| format!("{}:{}", u8::from(e.known), e.count)).join(" ");
        let (held, span) = (list(&self.held), list(&self.span));
        format!("reader expects {expects} held {held} span {span} setting {}\n", self.said.sum())
    }
}

/// The setting said so far, both ends, and the areas.
struct Ends {
    said: Said,
    writer: WriterSlots,
    reader: ReaderSlots,
    frame: Vec<u8>,
    units: Vec<u8>,
    records: Vec<u8>,
    held: Vec<u8>,
}

impl Ends {
    fn new(said: Said) -> Ends {
        Ends {
            said,
            writer: WriterSlots::default(),
            reader: ReaderSlots::default(),
            frame: vec![AREA_OCTET; FRAME_ROOM],
            units: vec![AREA_OCTET; UNIT_ROOM],
            records: vec![AREA_OCTET; RECORD_ROOM],
            held: vec![AREA_OCTET; HELD_ROOM],
        }
    }

    /// Both set-ups. A refused one leaves a state of zeros.
    fn begin(&mut self) -> String {
        let setting = self.said.setting();
        let writer = Writer::fresh(&setting);
        let reader = Reader::fresh(&setting);
        let refusal = |refusal: Option<&u8>| refusal.map_or(0, |&number| u64::from(number));
        let outcomes = [refusal(writer.as_ref().err()), refusal(reader.as_ref().err())];
        self.writer = WriterSlots::default();
        if let Ok(writer) = writer {
            self.writer.said = self.said.clone();
            self.writer.take(&writer);
        }
        self.reader = ReaderSlots::default();
        if let Ok(reader) = reader {
            self.reader.said = self.said.clone();
            self.reader.take(&reader);
        }
        begun(outcomes, &self.writer, &self.reader)
    }

    fn write(&mut self, lent: &Lent, area_length: u64) -> String {
        let mut writer = self.writer.writer();
        let length = area_length.min(FRAME_ROOM as u64) as usize;
        let refusal = writer.write(lent, &mut self.frame[..length]).err();
        self.writer.take(&writer);
        written(refusal.map_or(0, u64::from), &self.writer, &self.frame)
    }

    fn read(&mut self, frame: &[u8], lengths: [u64; 3]) -> String {
        let mut reader = self.reader.reader();
        let lent = |length: u64, room: usize| length.min(room as u64) as usize;
        let mut areas = Areas {
            units: &mut self.units[..lent(lengths[0], UNIT_ROOM)],
            records: &mut self.records[..lent(lengths[1], RECORD_ROOM)],
            held: &mut self.held[..lent(lengths[2], HELD_ROOM)],
        };
        let answer = reader.read(frame, &mut areas);
        self.reader.take(&reader);
        taken(&answer, &self.reader, [&self.units, &self.records, &self.held])
    }

    /// A look is lent nothing and leaves all as it is.
    fn look(&self, frame: &[u8]) -> String {
        looked(&self.reader.reader().look(frame), &self.reader)
    }

    /// One line of the script; what it prints.
    fn obey(&mut self, line: &Line) -> String {
        match line {
            Line::Begin => return self.begin(),
            Line::Write { lane, batch, insert, ocf, area } => {
                return self.write(&Lent { lane: *lane, batch, insert, ocf }, *area);
            }
            Line::Look(frame) => return self.look(frame),
            Line::Read { frame, areas } => return self.read(frame, *areas),
            Line::Keep(length) => {
                let frame = self.frame[..(*length).min(FRAME_ROOM as u64) as usize].to_vec();
                return self.read(&frame, LENT);
            }
            Line::Check(octets) => return checked(frame_check(octets).into()),
            _ => self.say(line),
        }
        String::new()
    }

    /// A line that says a part of the setting or of a state.
    fn say(&mut self, line: &Line) {
        match line {
            Line::Setting(said) => *self = Ends::new(said.clone()),
            Line::Channel(slot, numbers) => put(&mut self.said.channels, *slot, *numbers),
            Line::Lane(slot, numbers) => put(&mut self.said.lanes, *slot, *numbers),
            Line::Take => {
                self.writer.said = self.said.clone();
                self.reader.said = self.said.clone();
            }
            Line::Count(slot, number) => put(&mut self.writer.counts, *slot, *number),
            Line::Next(slot, number) => put(&mut self.writer.next, *slot, *number),
            Line::Expect(slot, expected) => put(&mut self.reader.expects, *slot, *expected),
            Line::Hold { slot, number, span } => {
                put(&mut self.reader.held, *slot, *number);
                put(&mut self.reader.span, *slot, *span);
            }
            Line::Held { slot, octets, span } if *slot < SLOTS as u64 => {
                let lane = *slot as usize;
                self.reader.held[lane] = octets.len() as u64;
                self.reader.span[lane] = *span;
                self.held[lane * HELD_PART..lane * HELD_PART + octets.len()].copy_from_slice(octets);
            }
            _ => {}
        }
    }
}

// ---- what is printed for a call, without the script's line

/// 0 is done.
fn outcome(refusal: u64) -> String {
    if refusal == 0 {
        return "done".to_string();
    }
    format!("refused {refusal}")
}

pub fn begun(refusals: [u64; 2], writer: &WriterSlots, reader: &ReaderSlots) -> String {
    let [one, other] = refusals.map(outcome);
    format!("begin writer {one} reader {other}\n{}{}", writer.line(), reader.line())
}

pub fn written(refusal: u64, writer: &WriterSlots, frame: &[u8]) -> String {
    let octets = front(frame, writer.said.front[0]);
    format!("write {}\nframe {}\narea {}\n{}", outcome(refusal), hex(octets), area_sum(frame), writer.line())
}

/// The areas are those of units, records and held octets.
pub fn taken(answer: &Answer, reader: &ReaderSlots, areas: [&[u8]; 3]) -> String {
    let [units, records, held] = areas;
    let mut text = answer_line(answer);
    text += &format!("units {}\n", hex(front(units, answer.octets)));
    text += &format!("records {}\n", hex(front(records, answer.units.saturating_mul(RECORD as u64))));
    for (lane, &length) in reader.held.iter().enumerate().filter(|(_, &length)| length > 0) {
        let length = if length <= HELD_PART as u64 { length } else { 0 };
        text += &format!("lane {lane} {}\n", hex(front(&held[lane * HELD_PART..], length)));
    }
    let sums = areas.map(|area| area_sum(area).to_string()).join(" ");
    text + &format!("areas {sums}\n{}", reader.line())
}

pub fn looked(look: &Look, reader: &ReaderSlots) -> String {
    let place = |place: Option<usize>| place.map_or("-".to_string(), |place| place.to_string());
    let (channel, lane) = (place(look.channel), place(look.lane));
    let class = class_words(look.class);
    format!("look {class} missing {} channel {channel} lane {lane}\n{}", look.missing, reader.line())
}

pub fn checked(check: u64) -> String {
    format!("check {check:04X}\n")
}

/// The first octets, as many as there are.
fn front(octets: &[u8], length: u64) -> &[u8] {
    &octets[..length.min(octets.len() as u64) as usize]
}

fn class_words(class: Class) -> String {
    match class {
        Class::Idle => "idle".to_string(),
        Class::Counted => "counted".to_string(),
        Class::Read => "read".to_string(),
        Class::Repeat => "repeat".to_string(),
        Class::Refused(number) => format!("refused {number}"),
    }
}

fn answer_line(answer: &Answer) -> String {
    let class = class_words(answer.class);
    let Answer { units, octets, missing, idle, fill, dropped, .. } = answer;
    format!("read {class} units {units} octets {octets} missing {missing} idle {idle} fill {fill} dropped {dropped}\n")
}

/// The lengths of unit, record and held area, where the line says them.
fn area_lengths(said: &[&str]) -> Result<[u64; 3], String> {
    let mut lengths = LENT;
    for (length, word) in lengths.iter_mut().zip(said) {
        *length = decimal(word)?;
    }
    Ok(lengths)
}

/// Changes a slot, if there is one.
pub fn put<T>(slots: &mut [T], place: u64, value: T) {
    if let Some(slot) = usize::try_from(place).ok().and_then(|place| slots.get_mut(place)) {
        *slot = value;
    }
}

fn list(numbers: &[u64]) -> String {
    numbers.iter().map(|number| number.to_string()).collect::<Vec<_>>().join(" ")
}

/// The lines of a script that say this setting. More than eight channels or lanes are said by their number alone.
pub fn setting_lines(setting: &Setting) -> String {
    let mut text = format!(
        "setting {} {} {} {} {} {} {}\n",
        setting.frame_length,
        setting.spacecraft,
        u8::from(setting.destination),
        setting.insert,
        u8::from(setting.check),
        setting.channels.len(),
        setting.lanes.len(),
    );
    for (slot, channel) in setting.channels.iter().enumerate().take(SLOTS) {
        let Channel { virtual_channel, service, count_length, ocf } = channel;
        text += &format!("channel {slot} {virtual_channel} {service} {count_length} {}\n", u8::from(*ocf));
    }
    for (slot, lane) in setting.lanes.iter().enumerate().take(SLOTS) {
        let kind = u8::from(lane.kind == Kind::Access);
        text += &format!("lane {slot} {} {} {kind} {} {}\n", lane.channel, lane.map, lane.longest, lane.upid);
    }
    text
}

/// Each line of a script, by its number.
pub fn lines(input: impl BufRead) -> impl Iterator<Item = Result<(usize, Line), String>> {
    input.lines().enumerate().map(|(place, line)| {
        let line = line.map_err(|error| error.to_string())?;
        let number = place + 1;
        let line = Line::parse(&words(&line)).map_err(|expected| format!("line {number}: expected {expected}"))?;
        Ok((number, line))
    })
}

/// Obeys a script; each call's first line begins with the script's line.
pub fn run(input: impl BufRead, out: &mut impl Write) -> Result<(), String> {
    let mut ends = Ends::new(Said::default());
    for line in lines(input) {
        let (number, line) = line?;
        let printed = ends.obey(&line);
        if !printed.is_empty() {
            write!(out, "{number} {printed}").map_err(|error| error.to_string())?;
        }
    }
    out.flush().map_err(|error| error.to_string())
}
