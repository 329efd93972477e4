//! The work that docs/FIGURES.md counts, by a Rust program that is made to be quick: what ours is held against. Written from document 01, with A2, A3 and A5 of document 02.
//! Its calls are the paper's: a read is lent a frame and the areas, a write a lane and its batch, and each call judges what it is lent. A
//! setting is judged once, in set-up; the states are kept in their place and can be changed by the calls alone, so that they stay valid. No call
//! asks for memory. The frame check goes eight octets at a time, by tables (slicing by eight); built with --cfg 'check="table"' it goes an octet
//! at a time by a table of 256, and with --cfg 'check="bits"' bit by bit.
//!
//!     quick pass|batches|check|read|write LENGTH yes|no
//!     quick units|records|frames LENGTH yes|no
//!
//! LENGTH is the frame length, and the last word whether frames have a check. Input is frames, or for write, batches and frames whole
//! batches of 32,768 octets. The first five print how many frames there were and a sum over what came out, as crate `measure` does; the
//! others what came out itself.

use std::hint::black_box;
use std::io::{self, Read, Write};

// ---- the frame check

/// TABLES[0] has the remainder of each octet; TABLES[k] that of an octet with k octets of zeros behind it.
#[cfg(not(check = "bits"))]
static TABLES: [[u16; 256]; 8] = tables();

const GENERATOR: u16 = 0x1021;

/// The register shifted eight times.
const fn shifted(mut register: u16, generator: u16) -> u16 {
    let mut bit = 0;
    while bit < 8 {
        register = if register & 0x8000 != 0 { register << 1 ^ generator } else { register << 1 };
        bit += 1;
    }
    register
}

#[cfg(not(check = "bits"))]
const fn tables() -> [[u16; 256]; 8] {
    let mut tables = [[0u16; 256]; 8];
    let mut octet = 0;
    while octet < 256 {
        tables[0][octet] = shifted((octet as u16) << 8, GENERATOR);
        octet += 1;
    }
    let mut more = 1;
    while more < 8 {
        let mut octet = 0;
        while octet < 256 {
            let before = tables[more - 1][octet];
            tables[more][octet] = before << 8 ^ tables[0][(before >> 8) as usize];
            octet += 1;
        }
        more += 1;
    }
    tables
}

/// The compiler is not told the generator: of a loop over bits with one that it knows it makes a table.
#[cfg(check = "bits")]
fn frame_check(octets: &[u8]) -> u16 {
    let generator = black_box(GENERATOR);
    octets.iter().fold(0xFFFF, |register, &octet| shifted(register ^ u16::from(octet) << 8, generator))
}

#[cfg(check = "table")]
fn frame_check(octets: &[u8]) -> u16 {
    octets.iter().fold(0xFFFF, step)
}

#[cfg(not(check = "bits"))]
fn step(register: u16, octet: &u8) -> u16 {
    register << 8 ^ TABLES[0][usize::from((register >> 8) as u8 ^ octet)]
}

#[cfg(not(any(check = "bits", check = "table")))]
fn frame_check(octets: &[u8]) -> u16 {
    let mut register = 0xFFFFu16;
    let mut eights = octets.chunks_exact(8);
    for o in &mut eights {
        register = TABLES[7][usize::from(o[0] ^ (register >> 8) as u8)]
            ^ TABLES[6][usize::from(o[1] ^ register as u8)]
            ^ TABLES[5][usize::from(o[2])]
            ^ TABLES[4][usize::from(o[3])]
            ^ TABLES[3][usize::from(o[4])]
            ^ TABLES[2][usize::from(o[5])]
            ^ TABLES[1][usize::from(o[6])]
            ^ TABLES[0][usize::from(o[7])];
    }
    eights.remainder().iter().fold(register, step)
}

// ---- the setting

#[derive(Clone, Copy, PartialEq)]
enum Kind {
    Packets,
    #[allow(dead_code)] // what is measured has none
    Access,
}

#[derive(Clone, Copy)]
struct Channel {
    virtual_channel: u8,
    service: u8,
    /// n, the octets of the count.
    count_length: u8,
    ocf: bool,
}

#[derive(Clone, Copy)]
struct Lane {
    channel: u8,
    map: u8,
    kind: Kind,
    upid: u8,
    longest: u16,
}

struct Setting {
    length: usize,
    spacecraft: u16,
    destination: bool,
    insert: usize,
    check: bool,
    channels: Vec<Channel>,
    lanes: Vec<Lane>,
}

impl Channel {
    /// The highest count.
    fn top(&self) -> u64 {
        (1 << (8 * self.count_length)) - 1
    }
}

impl Setting {
    fn valid(&self) -> bool {
        let (channels, lanes) = (&self.channels, &self.lanes);
        (32..=4_096).contains(&self.length)
            && self.insert <= 64
            && (1..=8).contains(&channels.len())
            && (1..=8).contains(&lanes.len())
            && channels.iter().enumerate().all(|(i, c)| {
                c.virtual_channel <= 62
                    && c.service <= 1
                    && (1..=7).contains(&c.count_length)
                    && self.zone(c).is_some()
                    && channels[..i]
                        .iter()
                        .all(|d| d.virtual_channel != c.virtual_channel || (d.service != c.service && d.ocf == c.ocf))
            })
            && lanes.iter().enumerate().all(|(i, l)| {
                let (least, upid) = match l.kind {
                    Kind::Packets => (2, l.upid == 0),
                    Kind::Access => (1, (1..=30).contains(&l.upid)),
                };
                usize::from(l.channel) < channels.len()
                    && l.map <= 15
                    && (least..=8_192).contains(&l.longest)
                    && upid
                    && lanes[..i].iter().all(|m| m.channel != l.channel || m.map != l.map)
            })
    }

    /// Where the construction rule stands.
    fn data_field(&self, channel: &Channel) -> usize {
        7 + usize::from(channel.count_length) + self.insert
    }

    /// Z, where it is at least 1.
    fn zone(&self, channel: &Channel) -> Option<usize> {
        let ocf = if channel.ocf { 4 } else { 0 };
        let check = if self.check { 2 } else { 0 };
        self.length.checked_sub(self.data_field(channel) + 3 + ocf + check).filter(|&zone| zone > 0)
    }
}

/// What a state keeps of a channel or a lane beside its setting, worked out once in set-up.
#[derive(Clone, Copy)]
struct Place {
    data_field: usize,
    zone: usize,
}

fn places(setting: &Setting) -> Vec<Place> {
    let place = |c: &Channel| Place { data_field: setting.data_field(c), zone: setting.zone(c).unwrap_or(1) };
    setting.channels.iter().map(place).collect()
}

// ---- packets

/// What is known of the packet that begins here, of which there is an octet.
enum Measure {
    Unreadable,
    TooFew,
    Long { length: usize, idle: bool },
}

#[inline(always)]
fn measure(octets: &[u8]) -> Measure {
    if octets[0] >> 5 != 0 {
        return if octets[0] >> 5 == 0b111 { encapsulated(octets) } else { Measure::Unreadable };
    }
    let Some(head) = octets.first_chunk::<6>() else { return Measure::TooFew };
    let length = 7 + usize::from(u16::from_be_bytes([head[4], head[5]]));
    Measure::Long { length, idle: u16::from_be_bytes([head[0], head[1]]) & 0x07FF == 0x07FF }
}

/// The same of an encapsulation packet: header and length of each length-of-length. A header of one octet is the whole packet where it is idle.
fn encapsulated(octets: &[u8]) -> Measure {
    let (header, length) = [(1, 0), (2, 1), (4, 2), (8, 4)][usize::from(octets[0] & 0b11)];
    let Some(head) = octets.get(..header) else { return Measure::TooFew };
    let idle = octets[0] >> 2 & 0b111 == 0;
    let total = match length {
        0 => usize::from(idle),
        _ => head[header - length..].iter().fold(0, |total, &octet| total << 8 | usize::from(octet)),
    };
    if total < header {
        return Measure::Unreadable;
    }
    Measure::Long { length: total, idle }
}

/// How many octets E0 these begin with.
fn idle_run(octets: &[u8]) -> usize {
    let eights = octets.chunks_exact(8).take_while(|eight| **eight == [0xE0; 8]).count();
    8 * eights + octets[8 * eights..].iter().take_while(|&&octet| octet == 0xE0).count()
}

// ---- reading

const HELD: usize = 65_536;
const PART: usize = 8_192;
const UNITS: usize = 12_288;
const RECORDS: usize = 49_152;
const RECORD: usize = 24;

struct Reader {
    setting: Setting,
    places: Vec<Place>,
    /// The count that each channel expects, once one was taken.
    expected: Vec<Option<u64>>,
    /// What each lane holds.
    held: Vec<Held>,
}

/// Octets that a lane holds, and the frames of the lane that carry them.
#[derive(Clone, Copy, Default)]
struct Held {
    octets: usize,
    span: u32,
}

struct Areas<'a> {
    held: &'a mut [u8],
    units: &'a mut [u8],
    records: &'a mut [u8],
}

#[derive(Clone, Copy, PartialEq)]
enum Class {
    Idle,
    Counted,
    Read,
    Repeat,
    Refused(u8),
}

#[derive(Clone, Copy)]
struct Answer {
    class: Class,
    units: usize,
    octets: usize,
    missing: u64,
    idle: usize,
    fill: usize,
    dropped: usize,
}

impl Answer {
    fn of(class: Class) -> Answer {
        Answer { class, units: 0, octets: 0, missing: 0, idle: 0, fill: 0, dropped: 0 }
    }
}

/// What the records of a call have in common: their first word, and the count.
#[derive(Clone, Copy)]
struct Common {
    head: [u8; 4],
    count: u64,
}

/// Hands out a unit of two parts, the second behind the first, that so many frames carry.
#[inline(always)]
fn hand_out(
    answer: &mut Answer,
    areas: &mut Areas,
    common: Common,
    first: Option<std::ops::Range<usize>>,
    second: &[u8],
    span: u32,
) {
    let start = answer.octets;
    let mut end = start;
    if let Some(range) = first {
        end += range.len();
        areas.units[start..end].copy_from_slice(&areas.held[range]);
    }
    areas.units[end..end + second.len()].copy_from_slice(second);
    end += second.len();
    let at = RECORD * answer.units;
    let record: &mut [u8; RECORD] = (&mut areas.records[at..at + RECORD]).try_into().unwrap();
    record[..4].copy_from_slice(&common.head);
    record[4..8].copy_from_slice(&(start as u32).to_be_bytes());
    record[8..12].copy_from_slice(&((end - start) as u32).to_be_bytes());
    record[12..20].copy_from_slice(&common.count.to_be_bytes());
    record[20..].copy_from_slice(&span.to_be_bytes());
    answer.units += 1;
    answer.octets = end;
}

impl Reader {
    fn set_up(setting: Setting) -> Option<Reader> {
        if !setting.valid() {
            return None;
        }
        let (expected, held) = (vec![None; setting.channels.len()], vec![Held::default(); setting.lanes.len()]);
        Some(Reader { places: places(&setting), expected, held, setting })
    }

    fn read(&mut self, frame: &[u8], areas: &mut Areas) -> Answer {
        let setting = &self.setting;
        if areas.held.len() != HELD || areas.units.len() < UNITS || areas.records.len() < RECORDS {
            return Answer::of(Class::Refused(2));
        }
        if frame.len() != setting.length {
            return Answer::of(Class::Refused(3));
        }
        if setting.check {
            let (checked, check) = frame.split_at(frame.len() - 2);
            if frame_check(checked).to_be_bytes() != *check {
                return Answer::of(Class::Refused(4));
            }
        }
        let word = u32::from_be_bytes([frame[0], frame[1], frame[2], frame[3]]);
        let flags = frame[6];
        if word >> 28 != 0b1100 {
            return Answer::of(Class::Refused(5));
        }
        if (word >> 12) as u16 != setting.spacecraft || (word >> 11 & 1 == 1) != setting.destination {
            return Answer::of(Class::Refused(6));
        }
        if word & 1 == 1 {
            return Answer::of(Class::Refused(7));
        }
        let length = usize::from(u16::from_be_bytes([frame[4], frame[5]]));
        if length != setting.length - 1 || flags & 0x30 != 0 || flags & 0xC0 == 0x40 {
            return Answer::of(Class::Refused(8));
        }
        let virtual_channel = (word >> 5 & 0x3F) as u8;
        if virtual_channel == 63 {
            return Answer::of(Class::Idle);
        }
        let service = flags >> 7;
        let found = setting.channels.iter().position(|c| c.virtual_channel == virtual_channel && c.service == service);
        let Some(place) = found else { return Answer::of(Class::Refused(9)) };
        let channel = setting.channels[place];
        if flags & 7 != channel.count_length {
            return Answer::of(Class::Refused(10));
        }
        if (flags & 8 != 0) != channel.ocf {
            return Answer::of(Class::Refused(11));
        }
        let count = u64::from_be_bytes(frame[7..15].try_into().unwrap()) >> (64 - 8 * channel.count_length);
        let map = (word >> 1 & 15) as u8;
        let lane = setting.lanes.iter().position(|l| usize::from(l.channel) == place && l.map == map);
        let Some(lane) = lane.filter(|_| flags & 0x40 == 0) else {
            if self.repeats(place, count) {
                return Answer::of(Class::Repeat);
            }
            let mut answer = Answer::of(Class::Counted);
            self.take(place, count, &mut answer);
            return answer;
        };
        let Place { data_field, zone } = self.places[place];
        let of = setting.lanes[lane];
        let (rule, upid) = (frame[data_field] >> 5, frame[data_field] & 31);
        let rule_fits = if of.kind == Kind::Packets { rule == 0 } else { rule == 1 || rule == 2 };
        let pointer = usize::from(u16::from_be_bytes([frame[data_field + 1], frame[data_field + 2]]));
        if !rule_fits || upid != of.upid || (pointer >= zone && pointer != 0xFFFF) {
            return Answer::of(Class::Refused(12));
        }
        if self.repeats(place, count) {
            return Answer::of(Class::Repeat);
        }
        let mut answer = Answer::of(Class::Read);
        self.take(place, count, &mut answer);
        let zone = &frame[data_field + 3..data_field + 3 + zone];
        let pointer = Some(pointer).filter(|&pointer| pointer != 0xFFFF);
        let common = Common { head: [lane as u8, channel.virtual_channel, of.map, channel.service], count };
        match of.kind {
            Kind::Packets => self.packets(lane, zone, pointer, common, areas, &mut answer),
            Kind::Access => self.access(lane, zone, rule, pointer, common, areas, &mut answer),
        }
        answer
    }

    /// Whether a count is the last one taken on its channel.
    fn repeats(&self, place: usize, count: u64) -> bool {
        let top = self.setting.channels[place].top();
        self.expected[place].is_some_and(|expected| (count + 1) & top == expected)
    }

    /// Takes a count; a gap drops what all lanes of the channel hold.
    fn take(&mut self, place: usize, count: u64, answer: &mut Answer) {
        let top = self.setting.channels[place].top();
        if let Some(expected) = self.expected[place] {
            answer.missing = count.wrapping_sub(expected) & top;
        }
        self.expected[place] = Some((count + 1) & top);
        if answer.missing != 0 {
            for (lane, held) in self.setting.lanes.iter().zip(&mut self.held) {
                if usize::from(lane.channel) == place {
                    answer.dropped += held.octets;
                    *held = Held::default();
                }
            }
        }
    }

    fn packets(
        &mut self,
        lane: usize,
        zone: &[u8],
        pointer: Option<usize>,
        common: Common,
        areas: &mut Areas,
        answer: &mut Answer,
    ) {
        let longest = usize::from(self.setting.lanes[lane].longest);
        let begin = lane * PART;
        let lead = &zone[..pointer.unwrap_or(zone.len())];
        let held = std::mem::take(&mut self.held[lane]);
        if held.octets == 0 {
            answer.dropped += lead.len();
        } else {
            self.join(lane, held, lead, pointer, common, areas, answer);
        }
        let Some(mut at) = pointer else { return };
        while at < zone.len() {
            let rest = &zone[at..];
            if rest[0] == 0xE0 {
                // The longest is at least 2, so that a run of these is idle octets whatever else the setting says.
                let run = idle_run(rest);
                answer.idle += run;
                at += run;
                continue;
            }
            match measure(rest) {
                Measure::Long { length, idle } if length <= longest && length <= rest.len() => {
                    if idle {
                        answer.idle += length;
                    } else {
                        hand_out(answer, areas, common, None, &rest[..length], 1);
                    }
                    at += length;
                }
                Measure::Long { length, .. } if length > longest => {
                    answer.dropped += rest.len();
                    return;
                }
                Measure::Unreadable => {
                    answer.dropped += rest.len();
                    return;
                }
                Measure::TooFew if rest.len() >= longest => {
                    answer.dropped += rest.len();
                    return;
                }
                _ => {
                    areas.held[begin..begin + rest.len()].copy_from_slice(rest);
                    self.held[lane] = Held { octets: rest.len(), span: 1 };
                    return;
                }
            }
        }
    }

    /// The lead follows what the lane held.
    fn join(
        &mut self,
        lane: usize,
        before: Held,
        lead: &[u8],
        pointer: Option<usize>,
        common: Common,
        areas: &mut Areas,
        answer: &mut Answer,
    ) {
        let longest = usize::from(self.setting.lanes[lane].longest);
        let begin = lane * PART;
        let held = before.octets;
        let all = held + lead.len();
        let measured = if held >= 8 {
            measure(&areas.held[begin..begin + held])
        } else {
            // The packet's first octets, as many as its measure asks for.
            let mut head = [0; 8];
            let known = all.min(8);
            head[..held].copy_from_slice(&areas.held[begin..begin + held]);
            head[held..known].copy_from_slice(&lead[..known - held]);
            measure(&head[..known])
        };
        let fails = |answer: &mut Answer| answer.dropped += all;
        if pointer == Some(0) {
            return fails(answer);
        }
        match measured {
            Measure::Long { length, idle } if length == all && length <= longest => {
                if idle {
                    answer.idle += all;
                } else {
                    hand_out(answer, areas, common, Some(begin..begin + held), lead, before.span + 1);
                }
            }
            Measure::TooFew if all < longest => self.goes_on(lane, before, lead, pointer, areas, answer),
            Measure::Long { length, .. } if length > all && length <= longest => {
                self.goes_on(lane, before, lead, pointer, areas, answer)
            }
            _ => fails(answer),
        }
    }

    /// A held packet that is longer than what there is of it: only without a pointer may it be.
    fn goes_on(
        &mut self,
        lane: usize,
        before: Held,
        lead: &[u8],
        pointer: Option<usize>,
        areas: &mut Areas,
        answer: &mut Answer,
    ) {
        let begin = lane * PART;
        let Held { octets: held, span } = before;
        if pointer.is_some() {
            answer.dropped += held + lead.len();
        } else {
            areas.held[begin + held..begin + held + lead.len()].copy_from_slice(lead);
            self.held[lane] = Held { octets: held + lead.len(), span: span + 1 };
        }
    }

    fn access(
        &mut self,
        lane: usize,
        zone: &[u8],
        rule: u8,
        pointer: Option<usize>,
        common: Common,
        areas: &mut Areas,
        answer: &mut Answer,
    ) {
        let longest = usize::from(self.setting.lanes[lane].longest);
        let begin = lane * PART;
        let octets = &zone[..pointer.map_or(zone.len(), |last| last + 1)];
        answer.fill = zone.len() - octets.len();
        let Held { octets: mut held, mut span } = std::mem::take(&mut self.held[lane]);
        if rule == 1 {
            answer.dropped += held;
            (held, span) = (0, 0);
        } else if held == 0 {
            answer.dropped += octets.len();
            return;
        }
        let all = held + octets.len();
        if pointer.is_some() && all <= longest {
            hand_out(answer, areas, common, Some(begin..begin + held), octets, span + 1);
        } else if pointer.is_none() && all < longest {
            areas.held[begin + held..begin + all].copy_from_slice(octets);
            self.held[lane] = Held { octets: all, span: span + 1 };
        } else {
            answer.dropped += all;
        }
    }
}

// ---- writing

const BATCH: usize = 32_768;

struct Writer {
    setting: Setting,
    places: Vec<Place>,
    /// Each channel's next count, and each lane's next frame number.
    counts: Vec<u64>,
    next: Vec<usize>,
}

/// Behind the packet that begins here, where it is whole and may be in a batch.
#[inline(always)]
fn behind(batch: &[u8], at: usize, longest: usize) -> Option<usize> {
    match measure(&batch[at..]) {
        Measure::Long { length, idle: false } if length <= longest && length <= batch.len() - at => Some(at + length),
        _ => None,
    }
}

/// Whether a packet batch keeps its rule; and where its first packet at or behind an octet starts, or the batch's end.
fn walk(batch: &[u8], longest: usize, begin: usize) -> Option<usize> {
    let mut at = 0;
    while at < begin.min(batch.len()) {
        at = behind(batch, at, longest)?;
    }
    let first = at;
    while at < batch.len() {
        at = behind(batch, at, longest)?;
    }
    Some(first)
}

impl Writer {
    fn set_up(setting: Setting) -> Option<Writer> {
        if !setting.valid() {
            return None;
        }
        let (counts, next) = (vec![0; setting.channels.len()], vec![0; setting.lanes.len()]);
        Some(Writer { places: places(&setting), counts, next, setting })
    }

    fn write(&mut self, lane: usize, batch: &[u8], insert: &[u8], ocf: &[u8], area: &mut [u8]) -> Result<(), u8> {
        let setting = &self.setting;
        if area.len() < setting.length {
            return Err(2);
        }
        let Some(&of) = setting.lanes.get(lane) else { return Err(13) };
        let channel = setting.channels[usize::from(of.channel)];
        let Place { data_field, zone } = self.places[usize::from(of.channel)];
        let number = self.next[lane];
        let begin = number * zone;
        let longest = usize::from(of.longest);
        let most = if of.kind == Kind::Packets { BATCH } else { longest };
        if batch.is_empty() || batch.len() > most {
            return Err(14);
        }
        // Where the pointer leads to: the first packet that starts in the zone, or the unit's last octet.
        let to = match of.kind {
            Kind::Packets => walk(batch, longest, begin).ok_or(14)?,
            Kind::Access => batch.len() - 1,
        };
        if insert.len() != setting.insert || ocf.len() != if channel.ocf { 4 } else { 0 } {
            return Err(15);
        }
        let frames = batch.len().div_ceil(zone);
        if number >= frames {
            return Err(16);
        }
        let pointer = if to - begin < zone { (to - begin) as u16 } else { 0xFFFF };
        let rule = match of.kind {
            Kind::Packets => 0,
            Kind::Access if number == 0 => 1,
            Kind::Access => 2,
        };

        let frame = &mut area[..setting.length];
        let word = 0b1100 << 28
            | u32::from(setting.spacecraft) << 12
            | u32::from(setting.destination) << 11
            | u32::from(channel.virtual_channel) << 5
            | u32::from(of.map) << 1;
        frame[..4].copy_from_slice(&word.to_be_bytes());
        frame[4..6].copy_from_slice(&((setting.length - 1) as u16).to_be_bytes());
        frame[6] = channel.service << 7 | u8::from(channel.ocf) << 3 | channel.count_length;
        let count = &mut self.counts[usize::from(of.channel)];
        // Eight octets at once: what is behind the count is written later.
        frame[7..15].copy_from_slice(&(*count << (64 - 8 * channel.count_length)).to_be_bytes());
        *count = (*count + 1) & channel.top();
        if !insert.is_empty() {
            frame[7 + usize::from(channel.count_length)..data_field].copy_from_slice(insert);
        }
        frame[data_field] = rule << 5 | of.upid;
        frame[data_field + 1..data_field + 3].copy_from_slice(&pointer.to_be_bytes());
        let part = &batch[begin..batch.len().min(begin + zone)];
        let (octets, rest) = frame[data_field + 3..].split_at_mut(part.len());
        octets.copy_from_slice(part);
        let (fill, rest) = rest.split_at_mut(zone - part.len());
        if !fill.is_empty() {
            fill.fill(if of.kind == Kind::Packets { 0xE0 } else { 0 });
        }
        if let (Some(to), Some(ocf)) = (rest.first_chunk_mut::<4>(), ocf.first_chunk::<4>()) {
            *to = *ocf;
        }
        if setting.check {
            let (checked, check) = frame.split_at_mut(setting.length - 2);
            check.copy_from_slice(&frame_check(checked).to_be_bytes());
        }
        self.next[lane] = if number + 1 == frames { 0 } else { number + 1 };
        Ok(())
    }
}

// ---- the work

/// As crate `measure` has it in its file: OCF, no insert zone, a count of 3 octets, one packet lane. The compiler does not know it.
fn setting(length: usize, check: bool) -> Setting {
    black_box(Setting {
        length,
        spacecraft: 42,
        destination: false,
        insert: 0,
        check,
        channels: vec![Channel { virtual_channel: 3, service: 0, count_length: 3, ocf: true }],
        lanes: vec![Lane { channel: 0, map: 5, kind: Kind::Packets, upid: 0, longest: 8_192 }],
    })
}

/// The last of the first n octets, or 0.
fn last(area: &[u8], n: usize) -> u64 {
    if n == 0 {
        0
    } else {
        u64::from(area[n - 1])
    }
}

/// A sum of low halves.
fn plus(a: u64, b: u64) -> u64 {
    (a & 0xFFFF_FFFF) + (b & 0xFFFF_FFFF)
}

#[derive(Clone, Copy, PartialEq)]
enum Shown {
    Nothing,
    Units,
    Records,
}

fn each(area: &mut [u8], mut of: impl FnMut(&[u8]) -> u64) -> (u64, u64) {
    let mut input = io::stdin().lock();
    let (mut frames, mut sum) = (0, 0);
    while input.read_exact(area).is_ok() {
        sum = plus(sum, of(area));
        frames += 1;
    }
    (frames, sum)
}

fn read(length: usize, check: bool, shown: Shown) -> Option<(u64, u64)> {
    let mut out = io::stdout().lock();
    let mut reader = Reader::set_up(setting(length, check))?;
    let (mut held, mut units, mut records) = (vec![0; HELD], vec![0; UNITS], vec![0; RECORDS]);
    let total = each(&mut vec![0; length], |frame| {
        let mut areas = Areas { held: &mut held, units: &mut units, records: &mut records };
        let a = reader.read(frame, &mut areas);
        match shown {
            Shown::Nothing => {}
            Shown::Units => out.write_all(&units[..a.octets]).unwrap(),
            Shown::Records => out.write_all(&records[..RECORD * a.units]).unwrap(),
        }
        let counted = plus(plus(a.units as u64, a.octets as u64), plus(a.idle as u64, a.dropped as u64));
        black_box((a.class, a.fill));
        plus(counted, plus(a.missing, last(&units, a.octets)))
    });
    Some(total)
}

fn write(length: usize, check: bool, shown: bool) -> Option<(u64, u64)> {
    let mut out = io::stdout().lock();
    let mut writer = Writer::set_up(setting(length, check))?;
    let mut area = vec![0; length];
    let (mut frames, mut sum) = (0, 0);
    each(&mut vec![0; BATCH], |batch| loop {
        writer.write(0, batch, &[], &[0; 4], &mut area).expect("the batch is good");
        if shown {
            out.write_all(&area).unwrap();
        }
        sum = plus(sum, plus(last(&area, length / 2), last(&area, length)));
        frames += 1;
        if writer.next[0] == 0 {
            return 0;
        }
    });
    Some((frames, sum))
}

fn main() {
    let words: Vec<String> = std::env::args().collect();
    let usage = "usage: quick WORK LENGTH yes|no";
    let [_, work, length, check] = &words[..] else { panic!("{usage}") };
    let length: usize = length.parse().expect(usage);
    let check = check == "yes";
    let total = match work.as_str() {
        "pass" => Some(each(&mut vec![0; length], |area| last(area, 1))),
        "batches" => Some(each(&mut vec![0; BATCH], |area| last(area, 1))),
        "check" => Some(each(&mut vec![0; length], |area| u64::from(frame_check(area)))),
        "read" => read(length, check, Shown::Nothing),
        "write" => write(length, check, false),
        "units" => read(length, check, Shown::Units).filter(|_| false),
        "records" => read(length, check, Shown::Records).filter(|_| false),
        "frames" => write(length, check, true).filter(|_| false),
        _ => panic!("{usage}"),
    };
    if let Some((frames, sum)) = total {
        println!("frames {frames} sum {sum}");
    }
}
