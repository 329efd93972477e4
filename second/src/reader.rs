//! The reader (document 01, "Reading"; refusals 1 to 12), whole counts and spans in the records (document 02, A2), frames
//! sent twice (A3), packets of two families (A5), and the look before a read (A7).

use std::cmp::Ordering;

use crate::frame::{
    big_endian, frame_check_holds, put_big_endian, Header, NO_POINTER, RULE_ACCESS_CONTINUES, RULE_ACCESS_START,
    RULE_PACKETS,
};
use crate::packet::{measure, Measure};
use crate::setting::{Channel, Kind, Lane, Setting};

pub const HELD_AREA: usize = 65_536;
/// A lane's part of the held area.
pub const HELD_PART: usize = 8_192;
pub const UNIT_AREA: usize = 12_288;
pub const RECORD_AREA: usize = 49_152;
pub const RECORD: usize = 24;

/// Whether a count is expected, and which. The count is judged in any case: "each count is below 256^n".
#[derive(Clone, Copy, PartialEq, Eq, Debug, Default)]
pub struct Expected {
    pub known: bool,
    pub count: u64,
}

/// The reader's state. The default is the state of zeros, which is not valid.
#[derive(Clone, PartialEq, Eq, Debug, Default)]
pub struct Reader {
    pub setting: Setting,
    /// The count each channel expects, if any.
    pub expected: Vec<Expected>,
    /// How many octets each lane holds.
    pub held: Vec<usize>,
    /// How many frames of each lane carry what it holds: its span so far.
    pub span: Vec<u64>,
}

#[derive(Clone, Copy, PartialEq, Eq, Debug)]
pub enum Class {
    Idle,
    Counted,
    Read,
    /// The count taken last on its channel, once more.
    Repeat,
    Refused(u8),
}

/// The answer; refused and idle frames and repeats have zero counts.
#[derive(Clone, Copy, PartialEq, Eq, Debug)]
pub struct Answer {
    pub class: Class,
    pub units: u64,
    pub octets: u64,
    pub missing: u64,
    pub idle: u64,
    pub fill: u64,
    pub dropped: u64,
    /// Where the frame belongs, for the programs' totals: its channel if counted or read, its lane if read. A repeat is not
    /// taken, and belongs nowhere.
    pub channel: Option<usize>,
    pub lane: Option<usize>,
}

/// What a look answers; refused and idle frames and repeats have nothing missing.
#[derive(Clone, Copy, PartialEq, Eq, Debug)]
pub struct Look {
    pub class: Class,
    pub missing: u64,
    /// Where the frame belongs: its channel if counted, read or a repeat, its lane if read.
    pub channel: Option<usize>,
    pub lane: Option<usize>,
}

/// The three areas that a read is lent.
pub struct Areas<'a> {
    pub held: &'a mut [u8],
    pub units: &'a mut [u8],
    pub records: &'a mut [u8],
}

/// A frame that passed the checks.
enum Passed {
    Idle,
    Counted { channel: usize, count: u64 },
    Read { channel: usize, count: u64, lane: usize, rule: u8, pointer: u16 },
    Repeat { channel: usize },
}

/// What a lane holds before a frame.
struct Held<'a> {
    octets: &'a [u8],
    span: u64,
}

/// Octets of a unit, up to and with those of this frame, and how many frames of the lane carry them.
#[derive(Default)]
struct Carried {
    octets: Vec<u8>,
    span: u64,
}

/// What one data field gave, apart from what a gap dropped.
#[derive(Default)]
struct Harvest {
    units: Vec<Carried>,
    held: Carried,
    idle: usize,
    fill: usize,
    dropped: usize,
}

impl Answer {
    fn empty(class: Class) -> Answer {
        Answer { class, units: 0, octets: 0, missing: 0, idle: 0, fill: 0, dropped: 0, channel: None, lane: None }
    }
}

impl Look {
    fn empty(class: Class) -> Look {
        Look { class, missing: 0, channel: None, lane: None }
    }
}

impl Held<'_> {
    /// What is held goes on in this frame.
    fn followed_by(&self, octets: &[u8]) -> Carried {
        Carried { octets: [self.octets, octets].concat(), span: self.span + 1 }
    }
}

impl Carried {
    /// A unit that begins in this frame.
    fn begun(octets: &[u8]) -> Carried {
        Carried { octets: octets.to_vec(), span: 1 }
    }

    fn len(&self) -> usize {
        self.octets.len()
    }
}

impl Areas<'_> {
    /// Refusal 2, which only a call that is lent areas can give.
    fn judge(&self) -> Result<(), u8> {
        if self.held.len() != HELD_AREA || self.units.len() < UNIT_AREA || self.records.len() < RECORD_AREA {
            return Err(2);
        }
        Ok(())
    }
}

impl Reader {
    /// Set-up: a fresh reader, or refusal 1.
    pub fn fresh(setting: &Setting) -> Result<Reader, u8> {
        if !setting.valid() {
            return Err(1);
        }
        Ok(Reader {
            expected: vec![Expected::default(); setting.channels.len()],
            held: vec![0; setting.lanes.len()],
            span: vec![0; setting.lanes.len()],
            setting: setting.clone(),
        })
    }

    pub fn valid(&self) -> bool {
        self.setting.valid()
            && self
                .setting
                .channels
                .iter()
                .zip(&self.expected)
                .all(|(channel, expected)| expected.count < channel.modulus())
            && self.setting.lanes.iter().zip(&self.held).all(|(lane, &held)| (held as u64) < lane.longest)
            && self.held.iter().zip(&self.span).all(|(&held, &span)| span_fits(held as u64, span))
    }

    /// What a frame is and how many are missing before it. No area is lent and nothing changes.
    pub fn look(&self, frame: &[u8]) -> Look {
        match self.judge_state().and_then(|()| self.judge_frame(frame)) {
            Err(number) => Look::empty(Class::Refused(number)),
            Ok(Passed::Idle) => Look::empty(Class::Idle),
            Ok(Passed::Repeat { channel }) => Look { channel: Some(channel), ..Look::empty(Class::Repeat) },
            Ok(Passed::Counted { channel, count }) => {
                Look { missing: self.missing(channel, count), channel: Some(channel), ..Look::empty(Class::Counted) }
            }
            Ok(Passed::Read { channel, count, lane, .. }) => Look {
                class: Class::Read,
                missing: self.missing(channel, count),
                channel: Some(channel),
                lane: Some(lane),
            },
        }
    }

    /// Takes a frame. Whether it was looked at before makes no difference: everything is judged again.
    pub fn read(&mut self, frame: &[u8], areas: &mut Areas) -> Answer {
        let judged = self.judge_state().and_then(|()| areas.judge()).and_then(|()| self.judge_frame(frame));
        match judged {
            Err(number) => Answer::empty(Class::Refused(number)),
            Ok(Passed::Idle) => Answer::empty(Class::Idle),
            Ok(Passed::Repeat { .. }) => Answer::empty(Class::Repeat),
            Ok(Passed::Counted { channel, count }) => {
                let (missing, dropped) = self.take_count(channel, count);
                Answer { missing, dropped: dropped as u64, channel: Some(channel), ..Answer::empty(Class::Counted) }
            }
            Ok(Passed::Read { channel, count, lane, rule, pointer }) => {
                let (missing, gap_dropped) = self.take_count(channel, count);
                let harvest = self.read_data_field(frame, lane, rule, pointer, areas.held);
                self.keep(lane, &harvest.held, areas.held);
                let octets = self.hand_out(lane, count, &harvest.units, areas);
                Answer {
                    class: Class::Read,
                    units: harvest.units.len() as u64,
                    octets: octets as u64,
                    missing,
                    idle: harvest.idle as u64,
                    fill: harvest.fill as u64,
                    dropped: (gap_dropped + harvest.dropped) as u64,
                    channel: Some(channel),
                    lane: Some(lane),
                }
            }
        }
    }

    /// Refusal 1.
    fn judge_state(&self) -> Result<(), u8> {
        if !self.valid() {
            return Err(1);
        }
        Ok(())
    }

    /// The first of refusals 3 to 12 that applies, or what the frame is. The state is valid.
    fn judge_frame(&self, frame: &[u8]) -> Result<Passed, u8> {
        let setting = &self.setting;
        if frame.len() as u64 != setting.frame_length {
            return Err(3);
        }
        if setting.check && !frame_check_holds(frame) {
            return Err(4);
        }
        let header = Header::from_octets(frame);
        if header.version != 0b1100 {
            return Err(5);
        }
        if u64::from(header.spacecraft) != setting.spacecraft || header.destination != setting.destination {
            return Err(6);
        }
        if header.end_of_header {
            return Err(7);
        }
        let length_wrong = u64::from(header.length) != setting.frame_length - 1;
        if length_wrong || header.spare != 0b00 || (header.command && !header.bypass) {
            return Err(8);
        }
        if header.virtual_channel == 63 {
            return Ok(Passed::Idle);
        }
        self.judge_channel(frame, &header).map(|passed| self.unless_sent_before(passed))
    }

    /// Refusals 9 to 12, of a virtual channel that is not 63.
    fn judge_channel(&self, frame: &[u8], header: &Header) -> Result<Passed, u8> {
        let setting = &self.setting;
        let place = setting.find_channel(u64::from(header.virtual_channel), u64::from(header.bypass)).ok_or(9)?;
        let channel = &setting.channels[place];
        if u64::from(header.count_length) != channel.count_length {
            return Err(10);
        }
        if header.ocf != channel.ocf {
            return Err(11);
        }
        let count = big_endian(&frame[7..7 + channel.count_length as usize]);
        let counted = Passed::Counted { channel: place, count };
        if header.command {
            return Ok(counted);
        }
        let Some(lane) = setting.find_lane(place, u64::from(header.map)) else { return Ok(counted) };
        let (rule, pointer) = judge_data_field(setting, channel, &setting.lanes[lane], frame)?;
        Ok(Passed::Read { channel: place, count, lane, rule, pointer })
    }

    /// A frame with the count that its channel took last is a repeat: only counts are compared, so its map, its command bit
    /// and its data field may be others.
    fn unless_sent_before(&self, passed: Passed) -> Passed {
        match passed {
            Passed::Counted { channel, count } | Passed::Read { channel, count, .. }
                if self.taken_last(channel) == Some(count) =>
            {
                Passed::Repeat { channel }
            }
            _ => passed,
        }
    }

    /// The count that a channel took last, which is the one before the expected one. Where none is expected none was taken,
    /// whatever number stands there.
    fn taken_last(&self, place: usize) -> Option<u64> {
        let modulus = self.setting.channels[place].modulus();
        let expected = self.expected[place];
        expected.known.then_some((expected.count + modulus - 1) % modulus)
    }

    /// How many frames of a channel are missing before the one with this count.
    fn missing(&self, place: usize, count: u64) -> u64 {
        let modulus = self.setting.channels[place].modulus();
        let expected = self.expected[place];
        if expected.known {
            (count + modulus - expected.count) % modulus
        } else {
            0
        }
    }

    /// Takes a frame's count; a gap drops what all lanes of the channel hold, and with it their spans. Returns missing and
    /// dropped.
    fn take_count(&mut self, place: usize, count: u64) -> (u64, usize) {
        let modulus = self.setting.channels[place].modulus();
        let missing = self.missing(place, count);
        self.expected[place] = Expected { known: true, count: (count + 1) % modulus };
        let mut dropped = 0;
        if missing != 0 {
            for (number, _) in self.setting.lanes.iter().enumerate().filter(|(_, lane)| lane.channel == place) {
                dropped += self.held[number];
                self.held[number] = 0;
                self.span[number] = 0;
            }
        }
        (missing, dropped)
    }

    fn read_data_field(&self, frame: &[u8], place: usize, rule: u8, pointer: u16, held_area: &[u8]) -> Harvest {
        let lane = &self.setting.lanes[place];
        let channel = &self.setting.channels[lane.channel];
        let zone_place = self.setting.zone_place(channel);
        let zone = &frame[zone_place..zone_place + self.setting.zone_length(channel)];
        let octets = &held_area[place * HELD_PART..place * HELD_PART + self.held[place]];
        let held = &Held { octets, span: self.span[place] };
        let pointer = if pointer == NO_POINTER { None } else { Some(usize::from(pointer)) };
        match lane.kind {
            Kind::Packet => read_packets(held, zone, pointer, lane.longest as usize),
            Kind::Access => read_access(held, zone, rule, pointer, lane.longest as usize),
        }
    }

    /// The lane now holds this; no other octet of the held area changes.
    fn keep(&mut self, place: usize, held: &Carried, held_area: &mut [u8]) {
        let begin = place * HELD_PART;
        held_area[begin..begin + held.len()].copy_from_slice(&held.octets);
        self.held[place] = held.len();
        self.span[place] = held.span;
    }

    /// Puts the units back to back and a record for each; returns the unit octets.
    fn hand_out(&self, place: usize, count: u64, units: &[Carried], areas: &mut Areas) -> usize {
        let lane = &self.setting.lanes[place];
        let channel = &self.setting.channels[lane.channel];
        let mut start = 0;
        for (unit, record) in units.iter().zip(areas.records.chunks_exact_mut(RECORD)) {
            areas.units[start..start + unit.len()].copy_from_slice(&unit.octets);
            record[0] = place as u8;
            record[1] = channel.virtual_channel as u8;
            record[2] = lane.map as u8;
            record[3] = channel.service as u8;
            put_big_endian(&mut record[4..8], start as u64);
            put_big_endian(&mut record[8..12], unit.len() as u64);
            put_big_endian(&mut record[12..20], count);
            put_big_endian(&mut record[20..24], unit.span);
            start += unit.len();
        }
        start
    }
}

/// Each frame that carries what is held has brought at least one octet of it, and where nothing is held none has.
fn span_fits(held: u64, span: u64) -> bool {
    span <= held && (held == 0 || span > 0)
}

/// Refusal 12, or the construction rule and the pointer.
fn judge_data_field(setting: &Setting, channel: &Channel, lane: &Lane, frame: &[u8]) -> Result<(u8, u16), u8> {
    let place = setting.data_field_place(channel);
    let rule = frame[place] >> 5;
    let upid = frame[place] & 0x1F;
    let pointer = big_endian(&frame[place + 1..place + 3]) as u16;
    let rule_fits = match lane.kind {
        Kind::Packet => rule == RULE_PACKETS,
        Kind::Access => rule == RULE_ACCESS_START || rule == RULE_ACCESS_CONTINUES,
    };
    let pointer_fits = usize::from(pointer) < setting.zone_length(channel) || pointer == NO_POINTER;
    if rule_fits && u64::from(upid) == lane.upid && pointer_fits {
        Ok((rule, pointer))
    } else {
        Err(12)
    }
}

/// What the octets from a packet's first one on come to, on a lane of this longest.
enum Extent {
    /// Unreadable, or too long.
    Bad,
    /// The header is not complete: the size is not known yet.
    Open,
    /// Within the longest; the octets at hand may be fewer or more.
    Known { size: usize, idle: bool },
}

/// Where the size is not known, as many octets as the longest are too long already. A size is held against the longest
/// before anything is reckoned with it: it may be any number of four octets.
fn extent(octets: &[u8], longest: usize) -> Extent {
    let (size, idle) = match measure(octets) {
        Measure::Unreadable => return Extent::Bad,
        Measure::Lacks(_) if octets.len() >= longest => return Extent::Bad,
        Measure::Lacks(_) => return Extent::Open,
        Measure::Idle { size } => (size, true),
        Measure::Packet { size, .. } => (size, false),
    };
    if size > longest as u64 {
        return Extent::Bad;
    }
    Extent::Known { size: size as usize, idle }
}

/// What becomes of a held packet when the lead follows it.
enum Fate {
    Ends { idle: bool },
    GoesOn,
    Fails,
}

/// A packet lane's zone; no pointer is FFFF.
fn read_packets(held: &Held, zone: &[u8], pointer: Option<usize>, longest: usize) -> Harvest {
    let mut harvest = Harvest::default();
    let lead = &zone[..pointer.unwrap_or(zone.len())];
    if held.octets.is_empty() {
        harvest.dropped += lead.len();
    } else {
        let joined = held.followed_by(lead);
        match fate_of_held(&joined.octets, pointer, longest) {
            Fate::Ends { idle: true } => harvest.idle += joined.len(),
            Fate::Ends { idle: false } => harvest.units.push(joined),
            Fate::GoesOn => harvest.held = joined,
            Fate::Fails => harvest.dropped += joined.len(),
        }
    }
    if let Some(first) = pointer {
        walk_packets(&zone[first..], longest, &mut harvest);
    }
    harvest
}

/// `joined` is the held octets and the lead. Only without a pointer may the packet go on.
fn fate_of_held(joined: &[u8], pointer: Option<usize>, longest: usize) -> Fate {
    if pointer == Some(0) {
        return Fate::Fails;
    }
    let longer_than_joined = if pointer.is_none() { Fate::GoesOn } else { Fate::Fails };
    match extent(joined, longest) {
        Extent::Bad => Fate::Fails,
        Extent::Open => longer_than_joined,
        Extent::Known { size, idle } => match size.cmp(&joined.len()) {
            Ordering::Less => Fate::Fails,
            Ordering::Equal => Fate::Ends { idle },
            Ordering::Greater => longer_than_joined,
        },
    }
}

/// From the pointer on: packets one after another.
fn walk_packets(octets: &[u8], longest: usize, harvest: &mut Harvest) {
    let mut rest = octets;
    while !rest.is_empty() {
        match extent(rest, longest) {
            Extent::Bad => {
                harvest.dropped += rest.len();
                return;
            }
            Extent::Known { size, idle } if size <= rest.len() => {
                if idle {
                    harvest.idle += size;
                } else {
                    harvest.units.push(Carried::begun(&rest[..size]));
                }
                rest = &rest[size..];
            }
            Extent::Open | Extent::Known { .. } => {
                harvest.held = Carried::begun(rest);
                return;
            }
        }
    }
}

/// An access lane's zone; no pointer is FFFF.
fn read_access(held: &Held, zone: &[u8], rule: u8, pointer: Option<usize>, longest: usize) -> Harvest {
    let mut harvest = Harvest::default();
    let octets = match pointer {
        Some(last) => &zone[..last + 1],
        None => zone,
    };
    harvest.fill = zone.len() - octets.len();
    let unit = if rule == RULE_ACCESS_START {
        harvest.dropped += held.octets.len();
        Carried::begun(octets)
    } else if held.octets.is_empty() {
        harvest.dropped += octets.len();
        return harvest;
    } else {
        held.followed_by(octets)
    };
    let finished = pointer.is_some();
    if finished && unit.len() <= longest {
        harvest.units.push(unit);
    } else if !finished && unit.len() < longest {
        harvest.held = unit;
    } else {
        harvest.dropped += unit.len();
    }
    harvest
}
