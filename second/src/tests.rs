//! Document 01's worked frames (cases 1 to 11), looks at them (document 02, A7), frames sent twice (A3), whole counts and spans
//! (A2), encapsulation packets (A5), the published values of the frame check, and what must not change.

use crate::calls;
use crate::demand3;
use crate::frame::frame_check;
use crate::packet::{measure, Family, Measure};
use crate::programs::{unit_line, UNITS_TITLE};
use crate::random;
use crate::reader::{
    Answer, Areas, Class, Expected, Look, Reader, HELD_AREA, HELD_PART, RECORD, RECORD_AREA, UNIT_AREA,
};
use crate::setting::{Channel, Kind, Lane, Setting};
use crate::stream;
use crate::text::{setting_from_file, setting_to_lines, unhex};
use crate::writer::{Lent, Writer};

/// The setting of the worked frames.
fn worked_setting() -> Setting {
    Setting {
        frame_length: 32,
        spacecraft: 42,
        destination: false,
        insert: 0,
        check: false,
        channels: vec![Channel { virtual_channel: 3, service: 0, count_length: 1, ocf: false }],
        lanes: vec![Lane { channel: 0, map: 5, kind: Kind::Packet, longest: 64, upid: 0 }],
    }
}

fn access_setting(longest: u64) -> Setting {
    let mut setting = worked_setting();
    setting.lanes[0] = Lane { channel: 0, map: 5, kind: Kind::Access, longest, upid: 5 };
    setting
}

fn octets(hex_with_spaces: &str) -> Vec<u8> {
    unhex(&hex_with_spaces.replace(' ', "")).unwrap()
}

/// A Space Packet of so many octets in all.
fn packet(length: usize) -> Vec<u8> {
    let mut octets = vec![0x00, 0x01, 0xC0, 0x00, 0, (length - 7) as u8];
    octets.resize(length, 0xAA);
    octets
}

fn frames_of(setting: &Setting, batch: &[u8]) -> Vec<Vec<u8>> {
    let mut writer = Writer::fresh(setting).unwrap();
    let mut frames = Vec::new();
    loop {
        let mut area = vec![0x55; 35];
        writer.write(&Lent { lane: 0, batch, insert: &[], ocf: &[] }, &mut area).unwrap();
        assert_eq!(area[32..], [0x55; 3]);
        area.truncate(32);
        frames.push(area);
        if writer.next[0] == 0 {
            return frames;
        }
    }
}

struct End {
    reader: Reader,
    held: Vec<u8>,
    units: Vec<u8>,
    records: Vec<u8>,
}

impl End {
    fn fresh(setting: &Setting) -> End {
        End {
            reader: Reader::fresh(setting).unwrap(),
            held: vec![0x55; HELD_AREA],
            units: vec![0x55; UNIT_AREA],
            records: vec![0x55; RECORD_AREA],
        }
    }

    fn read(&mut self, frame: &[u8]) -> Answer {
        self.units.fill(0x55);
        self.records.fill(0x55);
        let areas = &mut Areas { held: &mut self.held, units: &mut self.units, records: &mut self.records };
        let answer = self.reader.read(frame, areas);
        assert!(self.units[answer.octets as usize..].iter().all(|&octet| octet == 0x55));
        assert!(self.records[answer.units as usize * RECORD..].iter().all(|&octet| octet == 0x55));
        answer
    }

    /// Makes a lane hold octets, which so many frames carried.
    fn hold(&mut self, lane: usize, octets: &[u8], span: u64) {
        self.reader.held[lane] = octets.len();
        self.reader.span[lane] = span;
        self.held[lane * HELD_PART..lane * HELD_PART + octets.len()].copy_from_slice(octets);
    }
}

impl End {
    /// A read that is lent so many octets of units, records and held area.
    fn read_lent(&mut self, frame: &[u8], [units, records, held]: [usize; 3]) -> Answer {
        let areas = &mut Areas {
            held: &mut self.held[..held],
            units: &mut self.units[..units],
            records: &mut self.records[..records],
        };
        self.reader.read(frame, areas)
    }

    /// A look at a frame; the reader is as it was after it.
    fn look(&self, frame: &[u8]) -> Look {
        let before = self.reader.clone();
        let look = self.reader.look(frame);
        assert_eq!(self.reader, before);
        look
    }
}

/// Areas of which one is an octet too short.
const SHORT_AREAS: [[usize; 3]; 3] = [
    [UNIT_AREA - 1, RECORD_AREA, HELD_AREA],
    [UNIT_AREA, RECORD_AREA - 1, HELD_AREA],
    [UNIT_AREA, RECORD_AREA, HELD_AREA - 1],
];

fn looks(class: Class, missing: u64, channel: Option<usize>, lane: Option<usize>) -> Look {
    Look { class, missing, channel, lane }
}

/// The look at a frame of the worked setting's lane.
fn looks_read(missing: u64) -> Look {
    looks(Class::Read, missing, Some(0), Some(0))
}

/// The look at a repeat of a frame of this channel.
fn looks_repeat(channel: usize) -> Look {
    looks(Class::Repeat, 0, Some(channel), None)
}

fn looks_refused(number: u8) -> Look {
    looks(Class::Refused(number), 0, None, None)
}

fn case_2_batch() -> Vec<u8> {
    octets("00 01 C0 00 00 03 A1 A2 A3 A4 00 01 C0 01 00 0B B1 B2 B3 B4 B5 B6 B7 B8 B9 BA BB BC")
}

fn with_count(frame: &[u8], count: u8) -> Vec<u8> {
    let mut frame = frame.to_vec();
    frame[7] = count;
    frame
}

#[test]
fn cases_1_to_3_the_frames() {
    let frames = frames_of(&worked_setting(), &case_2_batch());
    assert_eq!(frames.len(), 2);
    assert_eq!(frames[0][..4], [0xC0, 0x02, 0xA0, 0x6A]);
    let zone_0 = "00 01 C0 00 00 03 A1 A2 A3 A4 00 01 C0 01 00 0B B1 B2 B3 B4 B5";
    assert_eq!(frames[0], octets(&format!("C0 02 A0 6A 00 1F 01 00 00 00 00 {zone_0}")));
    let zone_1 = "B6 B7 B8 B9 BA BB BC".to_string() + &" E0".repeat(14);
    assert_eq!(frames[1], octets(&format!("C0 02 A0 6A 00 1F 01 01 00 00 07 {zone_1}")));
}

#[test]
fn case_4_read_both() {
    let frames = frames_of(&worked_setting(), &case_2_batch());
    let mut end = End::fresh(&worked_setting());
    let first = end.read(&frames[0]);
    assert_eq!((first.class, first.units, first.octets, first.dropped), (Class::Read, 1, 10, 0));
    assert_eq!(end.records[..24], octets("00 03 05 00 00000000 0000000A 0000000000000000 00000001"));
    assert_eq!(end.units[..10], case_2_batch()[..10]);
    assert_eq!((end.reader.held[0], end.reader.span[0]), (11, 1));
    assert_eq!(end.held[..11], case_2_batch()[10..21]);
    let second = end.read(&frames[1]);
    assert_eq!((second.units, second.octets, second.idle, second.missing), (1, 18, 14, 0));
    assert_eq!(end.records[..24], octets("00 03 05 00 00000000 00000012 0000000000000001 00000002"));
    assert_eq!(end.units[..18], case_2_batch()[10..]);
    // Nothing is held any more, and the held area is as it was.
    assert_eq!((end.reader.held[0], end.reader.span[0]), (0, 0));
    assert_eq!(end.held[..11], case_2_batch()[10..21]);
    assert!(end.held[11..].iter().all(|&octet| octet == 0x55));
}

#[test]
fn case_5_frame_1_alone() {
    let frames = frames_of(&worked_setting(), &case_2_batch());
    let answer = End::fresh(&worked_setting()).read(&frames[1]);
    assert_eq!((answer.units, answer.dropped, answer.idle, answer.missing), (0, 7, 14, 0));
}

#[test]
fn case_6_a_gap() {
    let frames = frames_of(&worked_setting(), &case_2_batch());
    let mut end = End::fresh(&worked_setting());
    end.read(&frames[0]);
    let answer = end.read(&with_count(&frames[1], 2));
    assert_eq!((answer.missing, answer.dropped, answer.units), (1, 18, 0));
}

#[test]
fn case_7_pointers() {
    let pointers = |length| -> Vec<u16> {
        let frames = frames_of(&worked_setting(), &packet(length));
        frames.iter().map(|frame| u16::from(frame[9]) << 8 | u16::from(frame[10])).collect()
    };
    assert_eq!(pointers(60), [0, 0xFFFF, 18]);
    assert_eq!(pointers(63), [0, 0xFFFF, 0xFFFF]);
    for length in [60, 63] {
        let mut end = End::fresh(&worked_setting());
        let units: Vec<u64> =
            frames_of(&worked_setting(), &packet(length)).iter().map(|frame| end.read(frame).units).collect();
        assert_eq!(units, [0, 0, 1]);
        assert_eq!(end.units[..length], packet(length));
    }
}

#[test]
fn case_8_access() {
    let setting = access_setting(64);
    let one = frames_of(&setting, &[0x77; 21]);
    assert_eq!(one.len(), 1);
    assert_eq!(one[0][8..11], [0x25, 0x00, 0x14]);
    let two = frames_of(&setting, &[0x77; 22]);
    assert_eq!(two.len(), 2);
    assert_eq!(two[0][8..11], [0x25, 0xFF, 0xFF]);
    assert_eq!(two[1][8..11], [0x45, 0x00, 0x00]);
    assert_eq!(two[1][11], 0x77);
    assert_eq!(two[1][12..], [0; 20]);
    let mut end = End::fresh(&setting);
    assert_eq!(end.read(&two[0]).units, 0);
    let answer = end.read(&two[1]);
    assert_eq!((answer.units, answer.octets, answer.fill, answer.dropped), (1, 22, 20, 0));
}

#[test]
fn cases_9_and_10_counts() {
    let frame = frames_of(&worked_setting(), &packet(7)).remove(0);
    let answers = |counts: &[u8]| -> Vec<(Class, u64)> {
        let mut end = End::fresh(&worked_setting());
        let answers = counts.iter().map(|&count| end.read(&with_count(&frame, count)));
        answers.map(|answer| (answer.class, answer.missing)).collect()
    };
    assert_eq!(answers(&[254, 255, 0]), [(Class::Read, 0); 3]);
    assert_eq!(answers(&[255, 2]), [(Class::Read, 0), (Class::Read, 2)]);
    assert_eq!(answers(&[5, 5]), [(Class::Read, 0), (Class::Repeat, 0)]);
}

#[test]
fn case_11_edges() {
    let mut frame = frames_of(&worked_setting(), &packet(7)).remove(0);
    let mut end = End::fresh(&worked_setting());
    frame[10] = 20;
    assert_eq!(end.read(&frame).class, Class::Read);
    frame[10] = 21;
    assert_eq!(end.read(&frame).class, Class::Refused(12));
    assert_eq!(end.read(&frame[..31]).class, Class::Refused(3));
    assert_eq!(end.read(&[&frame[..], &[0]].concat()).class, Class::Refused(3));
    let mut writer = Writer::fresh(&worked_setting()).unwrap();
    let mut long = packet(64).repeat(511);
    long.extend(packet(58));
    long.extend(packet(7));
    assert_eq!(long.len(), 32_769);
    for batch in [&[], &long[..]] {
        let lent = Lent { lane: 0, batch, insert: &[], ocf: &[] };
        assert_eq!(writer.write(&lent, &mut [0; 32]), Err(14));
    }
    assert_eq!(writer, Writer::fresh(&worked_setting()).unwrap());
}

#[test]
fn the_longest_batch_is_written() {
    let mut batch = packet(64).repeat(511);
    batch.extend(packet(57));
    batch.extend(packet(7));
    assert_eq!(batch.len(), 32_768);
    assert_eq!(frames_of(&worked_setting(), &batch).len(), 32_768_usize.div_ceil(21));
}

#[test]
fn the_listing_example() {
    let frames = frames_of(&worked_setting(), &case_2_batch());
    let mut end = End::fresh(&worked_setting());
    let answers: Vec<(Class, u64, u64)> = [&frames[0], &frames[1], &frames[1]]
        .iter()
        .map(|frame| end.read(frame))
        .map(|answer| (answer.class, answer.units, answer.missing))
        .collect();
    assert_eq!(answers, [(Class::Read, 1, 0), (Class::Read, 1, 0), (Class::Repeat, 0, 0)]);
}

#[test]
fn looks_before_and_after_the_worked_frames() {
    let frames = frames_of(&worked_setting(), &case_2_batch());
    let mut end = End::fresh(&worked_setting());
    // No count is expected: none is missing.
    assert_eq!(end.look(&frames[0]), looks_read(0));
    assert_eq!(end.look(&frames[1]), looks_read(0));
    end.read(&frames[0]);
    // 1 is expected: 0 was taken last.
    assert_eq!(end.look(&frames[0]), looks_repeat(0));
    assert_eq!(end.look(&frames[1]), looks_read(0));
    end.read(&frames[1]);
    // 2 is expected: 0 - 2 modulo 256, and 1 was taken last.
    assert_eq!(end.look(&frames[0]), looks_read(254));
    assert_eq!(end.look(&frames[1]), looks_repeat(0));
}

#[test]
fn a_look_at_a_gap_drops_nothing() {
    let frames = frames_of(&worked_setting(), &case_2_batch());
    let late = with_count(&frames[1], 2);
    let mut end = End::fresh(&worked_setting());
    end.read(&frames[0]);
    assert_eq!(end.look(&late), looks_read(1));
    assert_eq!(end.reader.held, [11]);
    let answer = end.read(&late);
    assert_eq!((answer.missing, answer.dropped, answer.units, answer.idle), (1, 18, 0, 14));
    // 3 is expected now.
    assert_eq!(end.look(&late), looks_repeat(0));
}

#[test]
fn looks_at_counts_around_the_wrap() {
    let frame = frames_of(&worked_setting(), &packet(7)).remove(0);
    let missing = |counts: &[u8]| -> Vec<u64> {
        let mut end = End::fresh(&worked_setting());
        let missing = |count: &u8| {
            let frame = with_count(&frame, *count);
            let look = end.look(&frame);
            assert_eq!(end.read(&frame).missing, look.missing);
            look.missing
        };
        counts.iter().map(missing).collect()
    };
    assert_eq!(missing(&[254, 255, 0]), [0, 0, 0]);
    assert_eq!(missing(&[255, 2]), [0, 2]);
    assert_eq!(missing(&[5, 5]), [0, 0]);
    assert_eq!(missing(&[5, 4]), [0, 254]);
}

/// Frames of the worked setting, each with the refusal that it gives: frame 1 with one octet other, or of another length.
fn refused_frames() -> Vec<(u8, Vec<u8>)> {
    let frame = frames_of(&worked_setting(), &case_2_batch()).remove(1);
    let with = |place: usize, octet: u8| {
        let mut frame = frame.clone();
        frame[place] = octet;
        frame
    };
    vec![
        (3, frame[..31].to_vec()),
        (3, [&frame[..], &[0xE0]].concat()),
        (3, Vec::new()),
        (5, with(0, 0xD0)),
        (6, with(2, 0xB0)),
        (6, with(2, 0xA8)),
        (7, with(3, 0x6B)),
        (8, with(5, 0x20)),
        (8, with(6, 0x11)),
        (8, with(6, 0x41)),
        (9, with(3, 0x8A)),
        (9, with(6, 0x81)),
        (10, with(6, 0x02)),
        (11, with(6, 0x09)),
        (12, with(8, 0x20)),
        (12, with(8, 0x01)),
        (12, with(10, 21)),
    ]
}

#[test]
fn a_look_gives_the_frames_own_number_where_areas_are_short() {
    let frames = frames_of(&worked_setting(), &case_2_batch());
    let mut end = End::fresh(&worked_setting());
    end.read(&frames[0]);
    let state = end.reader.clone();
    for (number, frame) in refused_frames() {
        assert_eq!(end.look(&frame), looks_refused(number));
        for lengths in SHORT_AREAS {
            assert_eq!(end.read_lent(&frame, lengths).class, Class::Refused(2));
        }
        assert_eq!(end.read(&frame).class, Class::Refused(number));
    }
    // A good frame too.
    for lengths in SHORT_AREAS {
        assert_eq!(end.look(&frames[1]), looks_read(0));
        assert_eq!(end.read_lent(&frames[1], lengths).class, Class::Refused(2));
    }
    assert_eq!(end.reader, state);
}

#[test]
fn a_look_holds_the_frame_check() {
    let mut setting = worked_setting();
    setting.check = true;
    let mut frame = frames_of(&setting, &packet(7)).remove(0);
    let mut end = End::fresh(&setting);
    assert_eq!(end.look(&frame), looks_read(0));
    frame[31] ^= 1;
    assert_eq!(end.look(&frame), looks_refused(4));
    assert_eq!(end.read_lent(&frame, SHORT_AREAS[0]).class, Class::Refused(2));
    // The length first, then the check, then the version.
    assert_eq!(end.look(&frame[..31]), looks_refused(3));
    frame[0] = 0xD0;
    assert_eq!(end.look(&frame), looks_refused(4));
}

#[test]
fn looks_change_no_answer() {
    let frames = frames_of(&worked_setting(), &case_2_batch());
    let areas = |end: &End| [end.held.clone(), end.units.clone(), end.records.clone()];
    let (mut looked, mut alone) = (End::fresh(&worked_setting()), End::fresh(&worked_setting()));
    for frame in [&frames[0], &frames[1], &frames[1], &with_count(&frames[0], 7), &frames[0][..31].to_vec()] {
        let look = looked.look(frame);
        assert_eq!(looked.look(frame), look);
        let answer = looked.read(frame);
        assert_eq!(answer, alone.read(frame));
        // A repeat is a frame of its channel, but is not taken there.
        let channel = if answer.class == Class::Repeat { Some(0) } else { answer.channel };
        assert_eq!(look, looks(answer.class, answer.missing, channel, answer.lane));
        assert_eq!(looked.reader, alone.reader);
        assert!(areas(&looked) == areas(&alone));
    }
}

#[test]
fn a_look_with_a_state_that_is_not_valid() {
    let frames = frames_of(&worked_setting(), &case_2_batch());
    assert_eq!(Reader::default().look(&frames[0]), looks_refused(1));
    assert_eq!(Reader::default().look(&[]), looks_refused(1));
    // As many octets held as the longest unit has; a count of 256, though none is expected.
    let (mut full, mut beyond) = (End::fresh(&worked_setting()), End::fresh(&worked_setting()));
    full.hold(0, &[0; 64], 1);
    beyond.reader.expected[0] = Expected { known: false, count: 256 };
    for (_, frame) in refused_frames() {
        assert_eq!(full.look(&frame), looks_refused(1));
        assert_eq!(beyond.look(&frame), looks_refused(1));
    }
    assert_eq!(full.look(&frames[0]), looks_refused(1));
    assert_eq!(full.read_lent(&frames[0], SHORT_AREAS[0]).class, Class::Refused(1));
    full.hold(0, &[0; 63], 1);
    assert_eq!(full.look(&frames[0]), looks_read(0));
}

#[test]
fn a_look_at_an_idle_frame() {
    let frames = frames_of(&worked_setting(), &case_2_batch());
    let mut end = End::fresh(&worked_setting());
    end.read(&frames[0]);
    // Virtual channel 63 with another count, count length and OCF flag: none of these is looked at.
    let mut frame = octets("C0 02 A7 EA 00 1F 0F 09");
    frame.resize(32, 0xFF);
    assert_eq!(end.look(&frame), looks(Class::Idle, 0, None, None));
    assert_eq!(end.read(&frame).class, Class::Idle);
    // It is a frame all the same: a command with bypass 0.
    frame[6] = 0x41;
    assert_eq!(end.look(&frame), looks_refused(8));
}

#[test]
fn looks_at_counted_frames() {
    let mut setting = worked_setting();
    setting.channels.push(Channel { virtual_channel: 3, service: 1, count_length: 1, ocf: false });
    setting.lanes.push(Lane { channel: 1, map: 5, kind: Kind::Access, longest: 64, upid: 5 });
    let frames = frames_of(&worked_setting(), &case_2_batch());
    let mut end = End::fresh(&setting);
    end.read(&frames[0]);
    // Map 6, of which there is no lane, with a data field that no lane would read.
    let mut other_map = with_count(&frames[1], 4);
    other_map[3] = 0x6C;
    other_map[8] = 0xFF;
    assert_eq!(end.look(&other_map), looks(Class::Counted, 3, Some(0), None));
    // The command bit, with bypass 1: the other service's channel, which expects no count yet.
    let mut command = with_count(&frames[1], 4);
    command[6] = 0xC1;
    assert_eq!(end.look(&command), looks(Class::Counted, 0, Some(1), None));
    end.read(&command);
    assert_eq!(end.look(&command), looks_repeat(1));
    // Without the command bit its rule is not that of the lane of this map; with rule and UPID it would be read there.
    command[6] = 0x81;
    assert_eq!(end.look(&command), looks_refused(12));
    command[8] = 0x25;
    assert_eq!(end.look(&command), looks_repeat(1));
    assert_eq!(end.look(&with_count(&command, 3)), looks(Class::Read, 254, Some(1), Some(1)));
    assert_eq!(end.reader.held, [11, 0]);
    let answer = end.read(&other_map);
    assert_eq!((answer.class, answer.missing, answer.dropped), (Class::Counted, 3, 11));
}

// Frames sent twice (document 02, A3)

/// What a repeat answers: nothing of it is counted, and it is no lane's and no channel's.
fn repeat() -> Answer {
    let class = Class::Repeat;
    Answer { class, units: 0, octets: 0, missing: 0, idle: 0, fill: 0, dropped: 0, channel: None, lane: None }
}

impl End {
    /// A frame that has to be a repeat, of this channel: a look says so too, and nothing changes.
    fn repeats(&mut self, frame: &[u8], channel: usize) {
        let (reader, held) = (self.reader.clone(), self.held.clone());
        assert_eq!(self.look(frame), looks_repeat(channel));
        assert_eq!(self.read(frame), repeat());
        assert_eq!(self.reader, reader);
        assert!(self.held == held);
    }

    /// A frame that has to be read by lane 0, with so many missing; a look says the same.
    fn reads(&mut self, frame: &[u8], missing: u64) -> Answer {
        assert_eq!(self.look(frame), looks_read(missing));
        let answer = self.read(frame);
        assert_eq!((answer.class, answer.missing, answer.lane), (Class::Read, missing, Some(0)));
        answer
    }
}

/// The worked setting with a count of n octets, and its frame of a packet with the highest count.
fn highest_count(n: u64) -> (Setting, Vec<u8>) {
    let mut setting = worked_setting();
    setting.channels[0].count_length = n;
    let mut frame = frames_of(&setting, &packet(7)).remove(0);
    frame[7..7 + n as usize].fill(0xFF);
    (setting, frame)
}

#[test]
fn a_fresh_readers_first_frame_is_no_repeat() {
    for n in 1..=7 {
        // A fresh reader has the number 0 beside a flag that is not set; the highest count is the one before 0.
        let (setting, frame) = highest_count(n);
        let mut end = End::fresh(&setting);
        assert_eq!(end.reads(&frame, 0).units, 1);
        // Now 0 is expected, and the highest count was taken last.
        assert_eq!(end.reader.expected[0], Expected { known: true, count: 0 });
        end.repeats(&frame, 0);
        end.repeats(&frame, 0);
    }
}

#[test]
fn no_number_beside_a_flag_that_is_not_set_makes_a_repeat() {
    let frame = frames_of(&worked_setting(), &packet(7)).remove(0);
    for count in 0..=255 {
        let mut end = End::fresh(&worked_setting());
        let after = (u64::from(count) + 1) % 256;
        end.reader.expected[0] = Expected { known: false, count: after };
        end.reads(&with_count(&frame, count), 0);
        end.reader.expected[0] = Expected { known: true, count: after };
        end.repeats(&with_count(&frame, count), 0);
    }
}

#[test]
fn a_repeat_has_every_octet_of_the_count() {
    for n in 1..=7 {
        let (setting, mut frame) = highest_count(n);
        let mut end = End::fresh(&setting);
        end.reads(&frame, 0);
        for bit in 0..8 * n {
            // The highest count was taken last, and this one is without a bit: as many are missing as it is itself.
            let count: u64 = (1 << (8 * n)) - 1 - (1 << bit);
            frame[7..7 + n as usize].copy_from_slice(&count.to_be_bytes()[8 - n as usize..]);
            assert_eq!(end.look(&frame), looks_read(count));
        }
    }
}

#[test]
fn a_repeat_keeps_what_all_lanes_hold() {
    // Three lanes of one channel, of which one is for access units, and one lane of the other service.
    let mut setting = worked_setting();
    setting.channels.push(Channel { virtual_channel: 3, service: 1, count_length: 1, ocf: false });
    setting.lanes.push(Lane { channel: 0, map: 6, kind: Kind::Access, longest: 64, upid: 5 });
    setting.lanes.push(Lane { channel: 1, map: 5, kind: Kind::Packet, longest: 64, upid: 0 });
    setting.lanes.push(Lane { channel: 0, map: 7, kind: Kind::Packet, longest: 64, upid: 0 });
    let frames = frames_of(&worked_setting(), &case_2_batch());
    let unit: Vec<u8> = (1..=22).collect();
    let mut access = frames_of(&access_setting(64), &unit);
    for (count, frame) in access.iter_mut().enumerate() {
        frame[3] = 0x6C;
        frame[7] = count as u8 + 1;
    }
    let mut expedited = frames[0].clone();
    expedited[6] = 0x81;
    let mut end = End::fresh(&setting);
    end.read(&frames[0]);
    end.repeats(&frames[0], 0);
    end.read(&access[0]);
    end.read(&expedited);
    assert_eq!(end.reader.held, [11, 21, 11, 0]);
    // The access frame again; its count with lane 0's map, lane 3's and one of no lane; the other service's frame again.
    end.repeats(&access[0], 0);
    end.repeats(&with_count(&frames[1], 1), 0);
    for map in [0x6E, 0x70] {
        let mut other_map = with_count(&frames[1], 1);
        other_map[3] = map;
        end.repeats(&other_map, 0);
    }
    end.repeats(&expedited, 1);
    assert_eq!(end.reader.held, [11, 21, 11, 0]);
    // Both units go on where they were.
    let answer = end.read(&access[1]);
    assert_eq!((answer.missing, answer.units, answer.dropped), (0, 1, 0));
    assert_eq!(end.units[..22], unit);
    assert_eq!(end.reads(&with_count(&frames[1], 3), 0).units, 1);
    assert_eq!(end.units[..18], case_2_batch()[10..]);
}

#[test]
fn refusals_come_before_a_repeat() {
    let frames = frames_of(&worked_setting(), &case_2_batch());
    let mut end = End::fresh(&worked_setting());
    end.read(&frames[0]);
    end.read(&frames[1]);
    // All these have count 1, which was taken last.
    for (number, frame) in refused_frames() {
        assert_eq!(end.look(&frame), looks_refused(number));
        assert_eq!(end.read(&frame).class, Class::Refused(number));
    }
    for lengths in SHORT_AREAS {
        assert_eq!(end.read_lent(&frames[1], lengths).class, Class::Refused(2));
    }
    end.repeats(&frames[1], 0);
    end.hold(0, &[0; 64], 1);
    assert_eq!(end.look(&frames[1]), looks_refused(1));
    assert_eq!(end.read(&frames[1]).class, Class::Refused(1));
}

#[test]
fn counted_frames_repeat_and_are_repeated() {
    let mut setting = worked_setting();
    setting.channels[0].service = 1;
    let with = |place: usize, octet: u8, count: u8| {
        let mut frame = with_count(&frames_of(&setting, &packet(7))[0], count);
        frame[place] = octet;
        frame
    };
    let read = |count: u8| with(0, 0xC0, count);
    let command = |count: u8| with(6, 0xC1, count);
    let other_map = |count: u8| with(3, 0x6C, count);
    let mut end = End::fresh(&setting);
    let counted = |answer: Answer| (answer.class, answer.missing, answer.channel, answer.lane);
    assert_eq!(counted(end.read(&command(8))), (Class::Counted, 0, Some(0), None));
    for again in [command(8), other_map(8), read(8)] {
        end.repeats(&again, 0);
    }
    assert_eq!(counted(end.read(&other_map(9))), (Class::Counted, 0, Some(0), None));
    for again in [other_map(9), read(9), command(9)] {
        end.repeats(&again, 0);
    }
    end.reads(&read(10), 0);
    for again in [read(10), command(10), other_map(10)] {
        end.repeats(&again, 0);
    }
}

#[test]
fn each_service_has_its_own_last_count() {
    let mut setting = worked_setting();
    setting.channels.push(Channel { virtual_channel: 3, service: 1, count_length: 1, ocf: false });
    setting.lanes.push(Lane { channel: 1, map: 5, kind: Kind::Packet, longest: 64, upid: 0 });
    let one = frames_of(&worked_setting(), &packet(7)).remove(0);
    let mut other = one.clone();
    other[6] = 0x81;
    let mut end = End::fresh(&setting);
    end.reads(&one, 0);
    assert_eq!(end.look(&other), looks(Class::Read, 0, Some(1), Some(1)));
    end.read(&other);
    // The other channel's frames between two copies change nothing.
    end.repeats(&one, 0);
    end.repeats(&other, 1);
    end.reads(&with_count(&one, 1), 0);
    end.repeats(&other, 1);
}

#[test]
fn an_idle_frame_is_no_repeat() {
    let frame = frames_of(&worked_setting(), &packet(7)).remove(0);
    let mut end = End::fresh(&worked_setting());
    end.read(&frame);
    // Virtual channel 63 with the count that was taken last.
    let mut idle = frame.clone();
    idle[2..4].copy_from_slice(&[0xA7, 0xEA]);
    assert_eq!(end.look(&idle), looks(Class::Idle, 0, None, None));
    assert_eq!(end.read(&idle).class, Class::Idle);
    end.repeats(&frame, 0);
}

#[test]
fn a_block_of_frames_sent_twice_is_no_repeat() {
    let frames = frames_of(&worked_setting(), &case_2_batch());
    let mut end = End::fresh(&worked_setting());
    let answers: Vec<(u64, u64, u64)> = [(0, 0), (1, 0), (0, 254), (1, 0)]
        .into_iter()
        .map(|(frame, missing)| end.reads(&frames[frame], missing))
        .map(|answer| (answer.units, answer.octets, answer.dropped))
        .collect();
    assert_eq!(answers, [(1, 10, 0), (1, 18, 0), (1, 10, 0), (1, 18, 0)]);
}

#[test]
fn the_most_frames_that_can_be_told_to_be_gone() {
    let frame = frames_of(&worked_setting(), &packet(7)).remove(0);
    let mut end = End::fresh(&worked_setting());
    end.reads(&frame, 0);
    // 254 are gone, and the next has 255: one value less than the counter has, and not the one that was taken last.
    end.reads(&with_count(&frame, 255), 254);
    // 255 are gone: the next has 255 once more. It is called a repeat, and nothing is missing before the one after it.
    end.repeats(&with_count(&frame, 255), 0);
    end.reads(&with_count(&frame, 0), 0);
}

// The whole count in the record, and spans (document 02, A2)

/// The record of a unit of lane 0 of the worked setting.
fn record(start: u32, length: u32, count: u64, span: u32) -> Vec<u8> {
    [&[0, 3, 5, 0][..], &start.to_be_bytes(), &length.to_be_bytes(), &count.to_be_bytes(), &span.to_be_bytes()].concat()
}

/// A frame of the worked setting's lane.
fn lane_frame(count: u8, pointer: u16, zone: &[u8]) -> Vec<u8> {
    [&octets("C0 02 A0 6A 00 1F 01")[..], &[count, 0], &pointer.to_be_bytes(), zone].concat()
}

/// The worked setting with counts of seven octets, and F so that Z is 21.
fn seven_octets() -> Setting {
    let mut setting = worked_setting();
    setting.frame_length = 38;
    setting.channels[0].count_length = 7;
    setting
}

#[test]
fn a_span_fits_what_is_held_or_the_state_is_not_valid() {
    let frames = frames_of(&worked_setting(), &case_2_batch());
    let fits = |held: usize, span: u64| {
        let mut end = End::fresh(&worked_setting());
        end.hold(0, &vec![0; held], span);
        let look = end.look(&frames[0]);
        let before = end.reader.clone();
        let answer = end.read(&frames[0]);
        if look == looks_refused(1) {
            assert_eq!(answer.class, Class::Refused(1));
            assert_eq!(end.reader, before);
            // Before the areas and the frame are looked at.
            assert_eq!(end.read_lent(&frames[0][..31], SHORT_AREAS[1]).class, Class::Refused(1));
            return false;
        }
        assert_eq!((look, answer.class), (looks_read(0), Class::Read));
        true
    };
    for (held, span, valid) in [
        (0, 0, true),
        (0, 1, false),
        (0, 2, false),
        (0, 65_535, false),
        (1, 0, false),
        (1, 1, true),
        (1, 2, false),
        (11, 0, false),
        (11, 1, true),
        (11, 10, true),
        (11, 11, true),
        (11, 12, false),
        (11, 256 + 1, false),
        (11, 65_535, false),
        (63, 63, true),
        (63, 64, false),
        (64, 1, false),
        (64, 64, false),
    ] {
        assert_eq!(fits(held, span), valid, "held {held}, span {span}");
    }
}

#[test]
fn every_numbered_lane_has_its_span_judged() {
    let mut setting = worked_setting();
    setting.channels.push(Channel { virtual_channel: 4, service: 0, count_length: 1, ocf: false });
    setting.lanes.push(Lane { channel: 0, map: 6, kind: Kind::Packet, longest: 64, upid: 0 });
    setting.lanes.push(Lane { channel: 1, map: 5, kind: Kind::Access, longest: 64, upid: 5 });
    let frame = frames_of(&worked_setting(), &packet(7)).remove(0);
    for lane in 0..3 {
        for (held, span) in [(0, 1), (2, 0), (2, 3)] {
            let mut end = End::fresh(&setting);
            end.hold(lane, &vec![0; held], span);
            assert_eq!(end.look(&frame), looks_refused(1));
            assert_eq!(end.read(&frame).class, Class::Refused(1));
        }
    }
}

#[test]
fn spans_past_the_numbered_lanes_are_nobodys() {
    // Slot 1 of a setting of one lane: more frames than octets, none while some are held, one while none are.
    let frame = "C002A06A001F01000000000001C0000003A1A2A3A40001C001000BB1B2B3B4B5";
    for (held, span) in [("1", "2"), ("8193", "0"), ("0", "1"), ("0", "65535"), ("65535", "65535")] {
        let text =
            printed(&format!("{}begin\nhold 1 {held} {span}\nread {frame}\n", calls::setting_lines(&worked_setting())));
        let state = format!("held 11 {held} 0 0 0 0 0 0 span 1 {span} 0 0 0 0 0 0 setting ");
        assert!(text.contains("6 read read units 1 ") && text.contains(&state), "{text}");
    }
}

#[test]
fn the_record_area_has_49_152_octets() {
    let frame = frames_of(&worked_setting(), &case_2_batch()).remove(0);
    let mut end = End::fresh(&worked_setting());
    for (records, refused) in [(0, true), (9_600, true), (14_400, true), (49_151, true), (49_152, false)] {
        let answer = end.read_lent(&frame, [UNIT_AREA, records, HELD_AREA]);
        assert_eq!(answer.class == Class::Refused(2), refused, "{records} octets");
    }
    assert_eq!(end.records[..24], record(0, 10, 0, 1));
}

#[test]
fn a_unit_over_frames_with_others_between_them() {
    // Lane 0 has a packet of 64 octets: 21 in each of three frames, and one more. Lane 1 is its neighbor, on the same channel.
    let mut setting = worked_setting();
    setting.lanes.push(Lane { channel: 0, map: 6, kind: Kind::Packet, longest: 64, upid: 0 });
    let long = packet(64);
    let frames = frames_of(&worked_setting(), &long);
    assert_eq!(frames.len(), 4);
    let of_map = |frame: &[u8], octet: u8, count: u8| {
        let mut frame = with_count(frame, count);
        frame[3] = octet;
        frame
    };
    let neighbor = frames_of(&worked_setting(), &case_2_batch());
    let mut end = End::fresh(&setting);
    let spans = |end: &End| [end.reader.span[0], end.reader.span[1]];
    end.reads(&frames[0], 0);
    assert_eq!(spans(&end), [1, 0]);
    // The neighbor's frame: a packet of its own of one frame, and one that it holds.
    end.read(&of_map(&neighbor[0], 0x6C, 1));
    assert_eq!(spans(&end), [1, 1]);
    assert_eq!(end.records[..24], [&[1, 3, 6, 0][..], &record(0, 10, 1, 1)[4..]].concat());
    end.repeats(&of_map(&neighbor[0], 0x6C, 1), 0);
    end.reads(&with_count(&frames[1], 2), 0);
    assert_eq!(spans(&end), [2, 1]);
    // Repeats, of the frame itself and by its count with the neighbor's map; then a frame of a map of no lane.
    end.repeats(&with_count(&frames[1], 2), 0);
    end.repeats(&of_map(&neighbor[1], 0x6C, 2), 0);
    assert_eq!(end.read(&of_map(&frames[2], 0x70, 3)).class, Class::Counted);
    // An idle frame, and one that is refused: the version.
    let mut idle = with_count(&frames[2], 4);
    idle[2..4].copy_from_slice(&[0xA7, 0xEA]);
    assert_eq!(end.read(&idle).class, Class::Idle);
    let mut refused = with_count(&frames[2], 4);
    refused[0] = 0xD0;
    assert_eq!(end.read(&refused).class, Class::Refused(5));
    assert_eq!(spans(&end), [2, 1]);
    end.reads(&with_count(&frames[2], 4), 0);
    assert_eq!(spans(&end), [3, 1]);
    end.read(&of_map(&neighbor[1], 0x6C, 5));
    assert_eq!(spans(&end), [3, 0]);
    assert_eq!(end.records[..24], [&[1, 3, 6, 0][..], &record(0, 18, 5, 2)[4..]].concat());
    assert_eq!(end.reads(&with_count(&frames[3], 6), 0).units, 1);
    assert_eq!(end.units[..64], long);
    assert_eq!(end.records[..24], record(0, 64, 6, 4));
    assert_eq!(spans(&end), [0, 0]);
}

#[test]
fn a_gap_clears_the_spans_of_all_lanes_of_its_channel() {
    let mut setting = worked_setting();
    setting.channels.push(Channel { virtual_channel: 3, service: 1, count_length: 1, ocf: false });
    setting.lanes.push(Lane { channel: 0, map: 6, kind: Kind::Access, longest: 64, upid: 5 });
    setting.lanes.push(Lane { channel: 1, map: 5, kind: Kind::Packet, longest: 64, upid: 0 });
    setting.lanes.push(Lane { channel: 0, map: 7, kind: Kind::Packet, longest: 64, upid: 0 });
    let holding = || {
        let mut end = End::fresh(&setting);
        end.reader.expected[0] = Expected { known: true, count: 8 };
        end.hold(0, &packet(60)[..30], 2);
        end.hold(1, &[0x77; 40], 3);
        end.hold(2, &packet(60)[..50], 5);
        end.hold(3, &packet(60)[..7], 7);
        end
    };
    // Count 9: one is missing. Lane 0's frame holds what begins in it; one of no lane holds nothing.
    let frame = with_count(&frames_of(&worked_setting(), &case_2_batch())[0], 9);
    let mut end = holding();
    let answer = end.reads(&frame, 1);
    assert_eq!((answer.dropped, answer.units), (30 + 40 + 7, 1));
    assert_eq!(end.records[..24], record(0, 10, 9, 1));
    assert_eq!((&end.reader.held[..], &end.reader.span[..]), (&[11, 0, 50, 0][..], &[1, 0, 5, 0][..]));
    let mut end = holding();
    let mut counted = frame.clone();
    counted[3] = 0x70;
    assert_eq!(end.read(&counted).dropped, 30 + 40 + 7);
    assert_eq!((&end.reader.held[..], &end.reader.span[..]), (&[0, 0, 50, 0][..], &[0, 0, 5, 0][..]));
    // Without a gap the others' stay, and lane 0's packet, which pointer 0 fails, is dropped for the one that begins.
    let mut end = holding();
    assert_eq!(end.reads(&with_count(&frame, 8), 0).dropped, 30);
    assert_eq!((&end.reader.held[..], &end.reader.span[..]), (&[11, 40, 50, 7][..], &[1, 3, 5, 7][..]));
}

#[test]
fn one_call_finishes_a_unit_and_holds_the_next() {
    // Two packets of 30 octets and one of 40: 21 + 9, 12 + 18, 3 + 21 + 16.
    let batch = [packet(30), packet(30), packet(40)].concat();
    let frames = frames_of(&worked_setting(), &batch);
    let mut end = End::fresh(&worked_setting());
    let course: Vec<(u64, usize, u64)> =
        frames.iter().map(|frame| (end.read(frame).units, end.reader.held[0], end.reader.span[0])).collect();
    assert_eq!(course, [(0, 21, 1), (1, 12, 1), (1, 3, 1), (0, 24, 2), (1, 0, 0)]);
    assert_eq!(end.records[..24], record(0, 40, 4, 3));
    // The second frame again, at the end of a packet, with two of its own behind it and a third that is held.
    let mut end = End::fresh(&worked_setting());
    end.hold(0, &packet(8)[..6], 6);
    let zone = [&packet(8)[6..], &packet(7), &packet(9), &packet(20)[..3]].concat();
    assert_eq!(end.reads(&lane_frame(4, 2, &zone), 0).units, 3);
    assert_eq!(end.records[..72], [record(0, 8, 4, 7), record(8, 7, 4, 1), record(15, 9, 4, 1)].concat());
    assert_eq!((end.reader.held[0], end.reader.span[0]), (3, 1));
}

#[test]
fn what_becomes_of_a_packets_span() {
    // Held octets, their span, pointer, the zone; then the spans of the units, octets held, and the span kept.
    let fate = |held: &[u8], span: u64, pointer: u16, zone: &[u8]| {
        let mut end = End::fresh(&worked_setting());
        end.hold(0, held, span);
        let mut zone = zone.to_vec();
        zone.resize(21, 0xE0);
        let units = end.reads(&lane_frame(0, pointer, &zone), 0).units as usize;
        let spans: Vec<u8> = end.records[..units * RECORD].chunks(RECORD).map(|record| record[23]).collect();
        (spans, end.reader.held[0], end.reader.span[0])
    };
    let idle = [&[0x07, 0xFF, 0, 0, 0, 23][..], &[0; 24]].concat();
    let whole = packet(10);
    // It ends, goes on, or ends with the zone.
    assert_eq!(fate(&whole[..3], 2, 7, &whole[3..]), (vec![3], 0, 0));
    assert_eq!(fate(&packet(30)[..3], 3, 0xFFFF, &packet(30)[3..24]), (vec![], 24, 4));
    assert_eq!(fate(&packet(24)[..3], 3, 0xFFFF, &packet(24)[3..]), (vec![4], 0, 0));
    // An idle one goes on, and ends; then a packet begins.
    assert_eq!(fate(&idle[..3], 1, 0xFFFF, &idle[3..24]), (vec![], 24, 2));
    assert_eq!(fate(&idle[..24], 2, 6, &idle[24..]), (vec![], 0, 0));
    assert_eq!(fate(&idle[..15], 2, 15, &[&idle[15..], &[0; 6]].concat()), (vec![], 6, 1));
    // It fails: by the pointer, its length, its first octet. What begins after it has a span of its own.
    assert_eq!(fate(&whole[..3], 3, 0, &[]), (vec![], 0, 0));
    assert_eq!(fate(&whole[..3], 3, 0, &packet(30)), (vec![], 21, 1));
    assert_eq!(fate(&whole[..3], 3, 8, &[&whole[3..], &[0], &whole].concat()), (vec![1], 0, 0));
    assert_eq!(fate(&packet(65)[..3], 3, 0xFFFF, &packet(65)[3..24]), (vec![], 0, 0));
    assert_eq!(fate(&[0x20; 4], 4, 18, &[&[0; 18][..], &whole[..3]].concat()), (vec![], 3, 1));
    // Nothing is held, and the lead is dropped.
    assert_eq!(fate(&[], 0, 0xFFFF, &whole), (vec![], 0, 0));
    assert_eq!(fate(&[], 0, 8, &[&[1; 8][..], &whole, &whole[..3]].concat()), (vec![1], 3, 1));
}

#[test]
fn what_becomes_of_an_access_units_span() {
    // Octets held and their span, rule, pointer; then the spans of the units, dropped, octets held, the span kept.
    let fate = |held: usize, span: u64, rule: u8, pointer: u16| {
        let mut end = End::fresh(&access_setting(64));
        end.hold(0, &vec![0x77; held], span);
        let mut frame = lane_frame(0, pointer, &[0x78; 21]);
        frame[8] = rule << 5 | 5;
        let answer = end.reads(&frame, 0);
        let records = &end.records[..answer.units as usize * RECORD];
        let spans: Vec<u8> = records.chunks(RECORD).map(|record| record[23]).collect();
        (spans, answer.dropped, end.reader.held[0], end.reader.span[0])
    };
    // Rule 001 over held octets: they are dropped, and the unit that begins has a span of its own.
    assert_eq!(fate(40, 3, 1, 4), (vec![1], 40, 0, 0));
    assert_eq!(fate(40, 3, 1, 0xFFFF), (vec![], 40, 21, 1));
    // Rule 010 ends it, goes on, or makes it too long, with or without its end.
    assert_eq!(fate(40, 3, 2, 4), (vec![4], 0, 0, 0));
    assert_eq!(fate(40, 3, 2, 0xFFFF), (vec![], 0, 61, 4));
    assert_eq!(fate(43, 3, 2, 20), (vec![4], 0, 0, 0));
    assert_eq!(fate(43, 3, 2, 0xFFFF), (vec![], 64, 0, 0));
    assert_eq!(fate(44, 3, 2, 20), (vec![], 65, 0, 0));
    // And nothing is held.
    assert_eq!(fate(0, 0, 2, 4), (vec![], 5, 0, 0));
    assert_eq!(fate(0, 0, 2, 0xFFFF), (vec![], 21, 0, 0));
    assert_eq!(fate(0, 0, 1, 0xFFFF), (vec![], 0, 21, 1));
}

#[test]
fn counts_of_seven_octets_are_shown_whole() {
    let setting = seven_octets();
    // Below 2^32 and above it, across both ends, and two with the same low 32 bits.
    for count in [5, 0xFFFF_FFFE, 0xFFFF_FFFF, 0x1_0000_0005, 0x0012_3456_789A_BCDE, 0x00FF_FFFF_FFFF_FFFF] {
        let mut writer = Writer::fresh(&setting).unwrap();
        writer.counts[0] = count;
        let mut end = End::fresh(&setting);
        let mut frame = vec![0; 38];
        for (length, count, span) in [(10, count, 1), (18, (count + 1) % (1 << 56), 2)] {
            let lent = Lent { lane: 0, batch: &case_2_batch(), insert: &[], ocf: &[] };
            writer.write(&lent, &mut frame).unwrap();
            assert_eq!(end.read(&frame).units, 1);
            assert_eq!(end.records[..24], record(0, length, count, span));
        }
    }
}

#[test]
fn a_span_of_as_many_frames_as_octets() {
    // Z is 1, and so each frame carries one octet: a unit of 64 has a span of 64.
    let mut setting = access_setting(64);
    setting.insert = 20;
    let mut writer = Writer::fresh(&setting).unwrap();
    let mut end = End::fresh(&setting);
    let mut frame = vec![0; 32];
    for number in 1..=64 {
        let lent = Lent { lane: 0, batch: &[0x77; 64], insert: &[0; 20], ocf: &[] };
        writer.write(&lent, &mut frame).unwrap();
        let units = end.read(&frame).units;
        let so_far = if number < 64 { number } else { 0 };
        assert_eq!((units, end.reader.span[0], end.reader.held[0]), (number / 64, so_far, so_far as usize));
    }
    assert_eq!(end.records[..24], record(0, 64, 63, 64));
}

// Encapsulation packets (document 02, A5)

/// What any octets say, by the bits of the first one. Of the headers all octets but the first are 0, save the last, which
/// is `last`: a Space Packet's length and each total are that number then.
fn first_octet_says(first: u8, at_hand: usize, last: u64) -> Measure {
    let bits = format!("{first:08b}");
    let (family, header) = match (&bits[..3], &bits[3..6], &bits[6..]) {
        ("000", ..) => (Family::Space, 6),
        ("111", "000", "00") => return Measure::Idle { size: 1 },
        ("111", _, "00") => return Measure::Unreadable,
        ("111", _, "01") => (Family::Encapsulation, 2),
        ("111", _, "10") => (Family::Encapsulation, 4),
        ("111", _, "11") => (Family::Encapsulation, 8),
        _ => return Measure::Unreadable,
    };
    match (family, &bits[3..6]) {
        _ if at_hand < header => Measure::Lacks(header - at_hand),
        // Octet 1 is 0, so no Space Packet here is idle.
        (Family::Space, _) => Measure::Packet { family, size: last + 7 },
        _ if last < header as u64 => Measure::Unreadable,
        (Family::Encapsulation, "000") => Measure::Idle { size: last },
        (Family::Encapsulation, _) => Measure::Packet { family, size: last },
    }
}

#[test]
fn every_first_octet() {
    assert_eq!(measure(&[]), Measure::Lacks(1));
    for first in 0..=255 {
        for at_hand in 1..=9 {
            for last in [0, 1, 2, 3, 4, 5, 6, 7, 8, 9, 10, 64, 128, 255] {
                let mut octets = vec![0; at_hand];
                octets[0] = first;
                let end = match first {
                    0x00..=0x1F => 5,
                    _ => [9, 1, 3, 7][usize::from(first % 4)],
                };
                if end < at_hand {
                    octets[end] = last;
                }
                let wanted = first_octet_says(first, at_hand, u64::from(last));
                assert_eq!(measure(&octets), wanted, "{first:02X}, {at_hand} octets, {last} in the header's last one");
            }
        }
    }
}

#[test]
fn every_octet_of_a_total() {
    let said = |hex: &str| measure(&octets(hex));
    let of_family = |size: u64| Measure::Packet { family: Family::Encapsulation, size };
    assert_eq!(said("E5 FF"), of_family(255));
    assert_eq!(said("E6 FF 01 02"), of_family(0x0102));
    assert_eq!(said("E6 FF FF FF"), of_family(65_535));
    assert_eq!(said("E7 FF FF FF 01 02 03 04"), of_family(0x0102_0304));
    assert_eq!(said("E7 00 00 00 80 00 00 00"), of_family(1 << 31));
    assert_eq!(said("E7 FF FF FF FF FF FF FF"), of_family((1 << 32) - 1));
    assert_eq!(said("E3 FF FF FF FF FF FF FF"), Measure::Idle { size: (1 << 32) - 1 });
    assert_eq!(said("E7 FF FF FF FF FF FF"), Measure::Lacks(1));
    assert_eq!(said("07 FF 00 00 FF FF"), Measure::Idle { size: 65_542 });
    assert_eq!(said("1F FF 00 00 00 00"), Measure::Idle { size: 7 });
    assert_eq!(said("17 FE 00 00 00 00"), Measure::Packet { family: Family::Space, size: 7 });
    // Octets past the header say nothing.
    assert_eq!(said("E5 03 FF FF"), of_family(3));
    assert_eq!(said("FF 00 00 00 00 00 00 08 FF"), of_family(8));
}

/// The worked setting with another longest.
fn longest_setting(longest: u64) -> Setting {
    let mut setting = worked_setting();
    setting.lanes[0].longest = longest;
    setting
}

/// An encapsulation packet's header: protocol 1 or the idle one, this length-of-length and total.
fn header(idle: bool, length_of_length: u8, total: u64) -> Vec<u8> {
    let first = if idle { 0xE0 } else { 0xE4 } + length_of_length;
    let total = total.to_be_bytes();
    match length_of_length {
        0 => vec![first],
        1 => vec![first, total[7]],
        2 => [&[first, 0xAB], &total[6..]].concat(),
        _ => [&[first, 0xAB, 0xCD, 0xEF], &total[4..]].concat(),
    }
}

/// An encapsulation packet of so many octets in all, with zeros in its data field.
fn capsule(idle: bool, length_of_length: u8, total: usize) -> Vec<u8> {
    let mut octets = header(idle, length_of_length, total as u64);
    octets.resize(total, 0);
    octets
}

/// A lane of this longest that holds octets is given a frame: units, idle, dropped, held. What is left of the zone is
/// idle octets.
fn given(longest: u64, held: &[u8], pointer: u16, zone: &[u8]) -> (u64, u64, u64, usize) {
    let mut end = End::fresh(&longest_setting(longest));
    end.hold(0, held, held.len().min(1) as u64);
    let mut zone = zone.to_vec();
    assert!(zone.len() <= 21);
    zone.resize(21, 0xE0);
    let answer = end.reads(&lane_frame(0, pointer, &zone), 0);
    let octets = answer.octets + answer.idle + answer.dropped + end.reader.held[0] as u64;
    assert_eq!(octets, (held.len() + 21) as u64);
    assert_eq!(end.reader.span[0] > 0, end.reader.held[0] > 0);
    (answer.units, answer.idle, answer.dropped, end.reader.held[0])
}

/// The last octets of a zone whose others are idle octets, with the pointer to the first of them.
fn at_end(longest: u64, octets: &[u8]) -> (u64, u64, u64, usize) {
    let begin = 21 - octets.len();
    let zone = [&vec![0xE0; begin][..], octets].concat();
    let (units, idle, dropped, held) = given(longest, &[], begin as u16, &zone);
    assert_eq!(dropped, begin as u64 + given(longest, &[], 0, &zone).2);
    (units, idle, dropped - begin as u64, held)
}

#[test]
fn idle_at_all_four_sizes() {
    for length_of_length in 0..4 {
        let header_size = header(true, length_of_length, 0).len();
        for total in header_size..=20 {
            if length_of_length == 0 && total > 1 {
                continue;
            }
            let octets = capsule(true, length_of_length, total);
            assert_eq!(given(20, &[], 0, &octets), (0, 21, 0, 0));
            assert_eq!(at_end(20, &octets), (0, total as u64, 0, 0));
            // Cut anywhere, it is held, and is idle where it ends.
            for cut in 1..total {
                assert_eq!(at_end(20, &octets[..cut]), (0, 0, 0, cut));
                assert_eq!(given(20, &octets[..cut], (total - cut) as u16, &octets[cut..]), (0, 21 + cut as u64, 0, 0));
            }
            // The longest binds it too.
            if total > 2 {
                assert_eq!(at_end(total as u64 - 1, &octets), (0, 0, total as u64, 0));
            }
        }
    }
}

#[test]
fn totals_at_the_edges() {
    for length_of_length in 1..4 {
        let size = header(false, length_of_length, 0).len();
        for idle in [false, true] {
            let of = |total: u64| header(idle, length_of_length, total);
            let whole = if idle { (0, size as u64, 0, 0) } else { (1, 0, 0, 0) };
            assert_eq!(at_end(20, &of(size as u64)), whole);
            for unreadable in [0, 1, size as u64 - 1] {
                assert_eq!(at_end(20, &of(unreadable)), (0, 0, size as u64, 0));
            }
            // Of the longest, whole and cut; one more is too long, cut or not.
            assert_eq!(at_end(20, &of(20)), (0, 0, 0, size));
            assert_eq!(at_end(20, &of(21)), (0, 0, size as u64, 0));
            assert_eq!(at_end(20, &capsule(idle, length_of_length, 21)), (0, 0, 21, 0));
            let held = capsule(idle, length_of_length, 20);
            assert_eq!(given(20, &held[..19], 1, &held[19..]).0, u64::from(!idle));
        }
    }
    for high in [1 << 16, (1 << 16) + 8, (1 << 24) + 8, 1 << 31, (1 << 31) + 8, (1 << 32) - 1] {
        assert_eq!(at_end(8_192, &header(false, 3, high)), (0, 0, 8, 0));
        assert_eq!(at_end(8_192, &header(true, 3, high)), (0, 0, 8, 0));
        // In the lead too, at once.
        let octets = header(false, 3, high);
        assert_eq!(given(8_192, &octets[..7], 0xFFFF, &octets[7..]), (0, 0, 28, 0));
        assert_eq!(given(8_192, &octets[..7], 1, &octets[7..]), (0, 20, 8, 0));
    }
    assert_eq!(at_end(8_192, &header(false, 3, 8_192)), (0, 0, 0, 8));
    assert_eq!(at_end(8_192, &header(false, 3, 8_193)), (0, 0, 8, 0));
    assert_eq!(at_end(8_192, &header(false, 2, 65_535)), (0, 0, 4, 0));
}

#[test]
fn every_header_cut_at_every_octet() {
    for (packet, family) in [
        (packet(20), Family::Space),
        (capsule(false, 1, 20), Family::Encapsulation),
        (capsule(false, 2, 20), Family::Encapsulation),
        (capsule(false, 3, 20), Family::Encapsulation),
    ] {
        for cut in 1..20 {
            let mut end = End::fresh(&worked_setting());
            let zone = [&vec![0xE0; 21 - cut][..], &packet[..cut]].concat();
            end.reads(&lane_frame(0, 0, &zone), 0);
            assert_eq!((end.reader.held[0], end.reader.span[0]), (cut, 1));
            let mut zone = packet[cut..].to_vec();
            zone.resize(21, 0xE0);
            assert_eq!(end.reads(&lane_frame(1, 20 - cut as u16, &zone), 0).units, 1);
            assert_eq!(end.units[..20], packet);
            assert_eq!(end.records[..24], record(0, 20, 1, 2));
            assert_eq!(measure(&end.units[..20]), Measure::Packet { family, size: 20 });
        }
    }
}

#[test]
fn a_header_not_complete_where_the_lead_ends() {
    for octets in [packet(20), capsule(false, 1, 20), capsule(false, 2, 20), capsule(false, 3, 20)] {
        let header = match measure(&octets[..1]) {
            Measure::Lacks(more) => 1 + more,
            other => panic!("{other:?}"),
        };
        // With a pointer it fails there, as one that is cut after its header does.
        for joined in 2..20 {
            for held in 1..joined {
                let lead = &octets[held..joined];
                let fails = (0, 21 - lead.len() as u64, joined as u64, 0);
                assert_eq!(given(64, &octets[..held], lead.len() as u16, lead), fails, "{header} {joined} {held}");
            }
        }
    }
}

#[test]
fn small_longest_in_the_walk() {
    // So many octets of a header that is not complete: held below the longest, dropped from there on.
    for longest in 2..=9 {
        for (first, header) in [(0x00, 6), (0xE5, 2), (0xE6, 4), (0xE7, 8), (0xE1, 2), (0xE2, 4), (0xE3, 8)] {
            for at_hand in 1..header {
                let mut octets = vec![0; at_hand];
                octets[0] = first;
                let wanted = if at_hand < longest { (0, 0, 0, at_hand) } else { (0, 0, at_hand as u64, 0) };
                assert_eq!(at_end(longest as u64, &octets), wanted, "{first:02X}, {at_hand} of {header}, {longest}");
            }
        }
    }
    // Six octets of a Space Packet say its size, and five do not.
    assert_eq!(at_end(64, &packet(65)[..5]), (0, 0, 0, 5));
    assert_eq!(at_end(64, &packet(65)[..6]), (0, 0, 6, 0));
    assert_eq!(at_end(64, &packet(64)[..6]), (0, 0, 0, 6));
    // A whole Space Packet is too long there; two octets are a packet.
    assert_eq!(at_end(6, &packet(7)), (0, 0, 7, 0));
    assert_eq!(at_end(7, &packet(7)), (1, 0, 0, 0));
    assert_eq!(at_end(2, &[0xE5, 2, 0xFD, 2, 0xE1, 2, 0xE5]), (2, 2, 0, 1));
    assert_eq!(at_end(2, &[0xE5, 2, 0xE5, 3, 0, 0xE5, 2]), (1, 0, 5, 0));
}

#[test]
fn small_longest_in_the_lead() {
    // Z = 1: each frame brings one octet, and no packet starts in it.
    let mut setting = worked_setting();
    setting.insert = 20;
    for longest in 2..=9 {
        setting.lanes[0].longest = longest;
        for (first, header) in [(0x00, 6), (0xE5, 2), (0xE6, 4), (0xE7, 8), (0xE3, 8)] {
            let mut end = End::fresh(&setting);
            end.hold(0, &[first], 1);
            for joined in 2..header {
                let mut frame = lane_frame(0, 0xFFFF, &[]);
                frame.splice(8..8, vec![0; 20]);
                frame[7] = joined as u8;
                frame.push(0);
                let dropped = end.reads(&frame, 0).dropped;
                if joined < longest {
                    assert_eq!((dropped, end.reader.held[0], end.reader.span[0]), (0, joined as usize, joined));
                } else {
                    assert_eq!((dropped, end.reader.held[0], end.reader.span[0]), (joined, 0, 0));
                    break;
                }
            }
        }
    }
}

#[test]
fn unreadable_first_octets_in_a_zone() {
    for first in 0..=255_u8 {
        let wanted = match (first >> 5, first & 3) {
            (0, _) => (0, 0, 0, 1),
            (7, 0) if first == 0xE0 => (0, 1, 0, 0),
            (7, 1..=3) => (0, 0, 0, 1),
            _ => (0, 0, 1, 0),
        };
        assert_eq!(at_end(64, &[first]), wanted, "{first:02X}");
        // Held, it begins no packet either, and one octet E0 has ended before the lead does.
        if wanted != (0, 0, 0, 1) {
            assert_eq!(given(64, &[first], 0xFFFF, &[0; 21]), (0, 0, 22, 0), "{first:02X}");
            assert_eq!(given(64, &[first], 5, &[0; 5]), (0, 16, 6, 0), "{first:02X}");
        }
    }
}

#[test]
fn a_mixture_of_both_families_is_written_and_read() {
    // 10 + 4 + 18 + 2 + 8 + 30 = 72 octets: zones of 21.
    let units = [
        case_2_batch()[..10].to_vec(),
        capsule(false, 2, 4),
        case_2_batch()[10..].to_vec(),
        capsule(false, 1, 2),
        capsule(false, 3, 8),
        capsule(false, 3, 30),
    ];
    let frames = frames_of(&worked_setting(), &units.concat());
    let pointers: Vec<u16> = frames.iter().map(|frame| u16::from(frame[9]) << 8 | u16::from(frame[10])).collect();
    // They start at 0, 10, 14, 32, 34 and 42, and the fill at 72.
    assert_eq!(pointers, [0, 11, 0, 9]);
    assert_eq!(frames[3][11 + 9..], [0xE0; 12]);
    let mut end = End::fresh(&worked_setting());
    let mut out = Vec::new();
    for frame in &frames {
        let answer = end.read(frame);
        assert_eq!((answer.class, answer.dropped), (Class::Read, 0));
        let mut rest = &end.units[..answer.octets as usize];
        for record in end.records[..answer.units as usize * RECORD].chunks(RECORD) {
            let (unit, later) = rest.split_at(usize::from(record[11]));
            out.push(unit.to_vec());
            rest = later;
        }
    }
    assert_eq!(out, units);
}

#[test]
fn batches_that_break_the_rule() {
    let refused = |longest: u64, batch: &[u8]| {
        let mut writer = Writer::fresh(&longest_setting(longest)).unwrap();
        let lent = Lent { lane: 0, batch, insert: &[], ocf: &[] };
        let written = writer.write(&lent, &mut [0; 32]);
        assert!(written == Ok(()) || (written == Err(14) && writer == Writer::fresh(&writer.setting).unwrap()));
        written.is_err()
    };
    let good = [packet(7), capsule(false, 1, 2)].concat();
    assert!(!refused(64, &good));
    let idle_space = octets("07 FF 00 00 00 00 00");
    let bad = [
        vec![0xE0],
        capsule(true, 1, 2),
        capsule(true, 2, 4),
        capsule(true, 3, 8),
        idle_space,
        vec![0xE4],
        vec![0xFC],
        vec![0x20],
        header(false, 1, 1),
        header(false, 2, 3),
        header(false, 3, 7),
        header(false, 3, 0),
        header(false, 3, (1 << 32) - 1),
        capsule(false, 1, 65),
        packet(65),
    ];
    for octets in bad {
        assert!(refused(64, &octets), "{octets:?}");
        assert!(refused(64, &[&octets[..], &good].concat()), "{octets:?}");
        assert!(refused(64, &[&good[..], &octets].concat()), "{octets:?}");
    }
    for (length_of_length, total) in [(1, 20), (2, 20), (3, 20), (1, 2), (2, 4), (3, 8)] {
        let whole = capsule(false, length_of_length, total);
        assert!(!refused(total as u64, &whole));
        assert!(total == 2 || refused(total as u64 - 1, &whole));
        for cut in 1..total {
            assert!(refused(64, &whole[..cut]));
            assert!(refused(64, &[&good[..], &whole[..cut]].concat()));
        }
    }
    // A lane of longest 2 to 6 has no Space Packets.
    assert!(!refused(2, &capsule(false, 1, 2)));
    assert!(refused(6, &packet(7)));
    // 32,768 octets and two more.
    let many = capsule(false, 1, 2).repeat(16_384);
    assert!(!refused(2, &many));
    assert!(refused(2, &[many, capsule(false, 1, 2)].concat()));
}

#[test]
fn a_packet_lanes_longest_is_2_to_8_192() {
    for (longest, valid) in [(0, false), (1, false), (2, true), (6, true), (7, true), (8_192, true), (8_193, false)] {
        let setting = longest_setting(longest);
        assert_eq!(setting.valid(), valid);
        assert_eq!(Reader::fresh(&setting).err(), if valid { None } else { Some(1) });
        assert_eq!(Writer::fresh(&setting).err(), if valid { None } else { Some(1) });
    }
    assert!(access_setting(1).valid());
    // A lane of longest 2 may hold one octet, and no more.
    let frame = lane_frame(0, 0, &[0xE0; 21]);
    for (held, class) in [(1, Class::Read), (2, Class::Refused(1))] {
        let mut end = End::fresh(&longest_setting(2));
        end.hold(0, &vec![0xE5; held], 1);
        assert_eq!(end.read(&frame).class, class);
    }
}

#[test]
fn the_most_units_of_one_frame() {
    // Z = 4,085: an octet of the lead ends a packet of two, and 2,042 follow.
    let mut setting = worked_setting();
    setting.frame_length = 4_096;
    setting.lanes[0].longest = 2;
    let mut end = End::fresh(&setting);
    end.hold(0, &[0xE5], 1);
    let zone = [&[2][..], &[0xE5, 2].repeat(2_042)].concat();
    let frame = [&octets("C0 02 A0 6A 0F FF 01 00 00 00 01")[..], &zone].concat();
    assert_eq!(frame.len(), 4_096);
    let answer = end.reads(&frame, 0);
    assert_eq!((answer.units, answer.octets, answer.dropped, answer.idle), (2_043, 4_086, 0, 0));
    assert_eq!(end.records[2_042 * RECORD..][..24], record(4_084, 2, 0, 1));
    assert!(2_043 * RECORD <= 49_152);
}

#[test]
fn the_table_of_units_says_the_family() {
    assert_eq!(UNITS_TITLE, "lane,offset,length,frame,count,apid,sequence,span,family");
    let line = |kind, offset, number, unit: &[u8], count, span| {
        unit_line(kind, offset, number, &record(0, unit.len() as u32, count, span), unit)
    };
    let space = &case_2_batch()[..10];
    assert_eq!(line(Kind::Packet, 0, 0, space, 0, 1), "0,0,10,0,0,1,0,1,space");
    assert_eq!(line(Kind::Packet, 10, 0, &capsule(false, 2, 4), 0, 1), "0,10,4,0,0,,,1,encapsulation");
    assert_eq!(line(Kind::Packet, 14, 9, &capsule(false, 1, 2), 1 << 33, 2), "0,14,2,9,8589934592,,,2,encapsulation");
    assert_eq!(line(Kind::Packet, 16, 9, &octets("1F FE FF FF 00 00 00"), 8, 3), "0,16,7,9,8,2046,16383,3,space");
    // An access unit may look like a packet, and is none.
    for unit in [&[0x77; 21][..], space, &capsule(false, 2, 4)] {
        let length = unit.len();
        assert_eq!(line(Kind::Access, 0, 2, unit, 0, 1), format!("0,0,{length},2,0,,,1,"));
    }
}

#[test]
fn published_frame_checks() {
    assert_eq!(frame_check(b"123456789"), 0x29B1);
    assert_eq!(frame_check(&[0, 0]), 0x1D0F);
    assert_eq!(frame_check(&[0, 0, 0]), 0xCC9C);
    assert_eq!(frame_check(&octets("AB CD EF 01")), 0x04A2);
    assert_eq!(frame_check(&octets("14 56 F8 9A 00 01")), 0x7FD5);
    assert_eq!(frame_check(&[]), 0xFFFF);
}

#[test]
fn states_of_zeros_are_not_valid() {
    assert!(!Writer::default().valid());
    assert!(!Reader::default().valid());
}

#[test]
fn a_held_packet_of_each_fate() {
    // Held octets, pointer, the zone's first octets; then units, idle, dropped, held.
    let whole = packet(10);
    let idle = [&[0x07, 0xFF, 0, 0, 0, 3][..], &[0; 4]].concat();
    let fate = |held: &[u8], pointer: u16, zone_begin: &[u8]| {
        let mut end = End::fresh(&worked_setting());
        end.hold(0, held, 1);
        let mut frame = octets("C0 02 A0 6A 00 1F 01 00 00");
        frame.extend(pointer.to_be_bytes());
        frame.extend(zone_begin);
        frame.resize(32, 0xE0);
        let answer = end.read(&frame);
        (answer.units, answer.idle, answer.dropped, end.reader.held[0])
    };
    assert_eq!(fate(&whole[..3], 7, &whole[3..]), (1, 14, 0, 0));
    assert_eq!(fate(&idle[..3], 7, &idle[3..]), (0, 24, 0, 0));
    assert_eq!(fate(&whole[..3], 8, &whole[3..]), (0, 13, 11, 0));
    assert_eq!(fate(&whole[..3], 6, &whole[3..]), (0, 0, 9 + 15, 0));
    assert_eq!(fate(&whole[..3], 0, &[]), (0, 21, 3, 0));
    assert_eq!(fate(&whole, 0, &[]), (0, 21, 10, 0));
    assert_eq!(fate(&whole[..3], 0xFFFF, &whole[3..]), (0, 0, 24, 0));
    assert_eq!(fate(&packet(30)[..3], 0xFFFF, &packet(30)[3..24]), (0, 0, 0, 24));
    assert_eq!(fate(&packet(24)[..3], 0xFFFF, &packet(24)[3..]), (1, 0, 0, 0));
    assert_eq!(fate(&packet(65)[..3], 0xFFFF, &packet(65)[3..24]), (0, 0, 24, 0));
    assert_eq!(fate(&packet(64)[..3], 0xFFFF, &packet(64)[3..24]), (0, 0, 0, 24));
    assert_eq!(fate(&[0xE0], 1, &[]), (0, 20, 2, 0));
    assert_eq!(fate(&[0x20], 0xFFFF, &[]), (0, 0, 22, 0));
    assert_eq!(fate(&whole[..1], 4, &whole[1..5]), (0, 17, 5, 0));
}

#[test]
fn access_longest() {
    let read = |longest: u64, unit: usize| {
        let setting = access_setting(longest);
        let mut end = End::fresh(&setting);
        let frames = frames_of(&access_setting(8192), &vec![0x77; unit]);
        frames.iter().map(|frame| end.read(frame)).fold((0, 0, 0), |(units, dropped, fill), answer| {
            (units + answer.units, dropped + answer.dropped, fill + answer.fill)
        })
    };
    assert_eq!(read(42, 42), (1, 0, 0));
    assert_eq!(read(41, 42), (0, 42, 0));
    // At the longest and still unfinished after the first frame.
    assert_eq!(read(21, 22), (0, 22, 20));
    assert_eq!(read(22, 22), (1, 0, 20));
    assert_eq!(read(1, 2), (0, 2, 19));
}

#[test]
fn other_lanes_of_the_held_area_stay() {
    let mut setting = worked_setting();
    setting.lanes.push(Lane { channel: 0, map: 6, kind: Kind::Packet, longest: 64, upid: 0 });
    let mut frame = frames_of(&worked_setting(), &case_2_batch()).remove(0);
    frame[3] = 0x6C;
    let mut end = End::fresh(&setting);
    end.read(&frame);
    assert_eq!(end.reader.held, [0, 11]);
    assert!(end.held[..HELD_PART].iter().chain(&end.held[HELD_PART + 11..]).all(|&octet| octet == 0x55));
    // A lost frame of the neighbor's map drops what this one holds.
    let answer = end.read(&with_count(&frames_of(&worked_setting(), &packet(21)).remove(0), 2));
    assert_eq!((answer.missing, answer.dropped, answer.units), (1, 11, 1));
    assert_eq!(end.reader.held, [0, 0]);
}

#[test]
fn settings_as_text() {
    let setting = worked_setting();
    assert_eq!(setting_from_file(setting_to_lines(&setting).as_bytes()), Ok(setting.clone()));
    let text = setting_to_lines(&setting).replace('\n', " \t# said\r\n");
    assert_eq!(setting_from_file(text.as_bytes()), Ok(setting.clone()));
    let twice = setting_to_lines(&setting) + "insert 0\n";
    assert!(setting_from_file(twice.as_bytes()).unwrap_err().contains("line 8"));
    assert!(setting_from_file(b"frame length 32\n").is_err());
    assert_eq!(setting_from_file(setting_to_lines(&access_setting(1)).as_bytes()), Ok(access_setting(1)));
}

fn printed(script: &str) -> String {
    let mut out = Vec::new();
    calls::run(script.as_bytes(), &mut out).unwrap();
    String::from_utf8(out).unwrap()
}

#[test]
fn a_script_of_calls() {
    let script = format!(
        "{}begin\ncheck 313233343536373839\nwrite 0 0001C0000003A1A2A3A4 - - 33\nnext 0 1\nwrite 0 0001C0000003A1A2A3A4 - - 32\n\
         held 0 0001C0\nread C002A06A001F010000000700000BA1A2A3A4{}\nread - 12287\nread -\n",
        calls::setting_lines(&worked_setting()),
        "E0".repeat(14),
    );
    let frame = "C002A06A001F01000000000001C0000003A1A2A3A4".to_string() + &"E0".repeat(11);
    let printed = printed(&script);
    let said: Vec<&str> = printed.lines().filter(|line| line.starts_with(|c: char| c.is_ascii_digit())).collect();
    let zeros = "units 0 octets 0 missing 0 idle 0 fill 0 dropped 0";
    let wanted = [
        "4 begin writer done reader done".to_string(),
        "5 check 29B1".to_string(),
        "6 write done".to_string(),
        "8 write refused 16".to_string(),
        "10 read read units 0 octets 0 missing 0 idle 14 fill 0 dropped 10".to_string(),
        format!("11 read refused 2 {zeros}"),
        format!("12 read refused 3 {zeros}"),
    ];
    assert_eq!(said, wanted);
    assert!(printed.contains(&format!("frame {frame}\n")));
    assert!(printed.contains("writer counts 1 0 0 0 0 0 0 0 next 1 0 0 0 0 0 0 0 setting"));
    let zeros = "0 0 0 0 0 0 0 0";
    let state = format!("reader expects 1:1 0:0 0:0 0:0 0:0 0:0 0:0 0:0 held {zeros} span {zeros} setting");
    assert!(printed.contains(&state));
}

#[test]
fn a_script_says_spans() {
    let state = |lines: &str| {
        let text = printed(&format!("{}begin\n{lines}look -\n", calls::setting_lines(&worked_setting())));
        let (_, state) = text.rsplit_once(" held ").unwrap();
        let (state, _) = state.split_once(" setting").unwrap();
        state.to_string()
    };
    assert_eq!(state(""), "0 0 0 0 0 0 0 0 span 0 0 0 0 0 0 0 0");
    // Where none is said it is 1 while octets are held and 0 while none are.
    assert_eq!(state("held 0 0001C0\nhold 2 9\n"), "3 0 9 0 0 0 0 0 span 1 0 1 0 0 0 0 0");
    assert_eq!(state("held 0 0001C0 2\nhold 2 9 7\n"), "3 0 9 0 0 0 0 0 span 2 0 7 0 0 0 0 0");
    assert_eq!(state("held 0 0001C0 2\nheld 0 -\nhold 7 9 7\nhold 7 0\n"), "0 0 0 0 0 0 0 0 span 0 0 0 0 0 0 0 0");
    assert_eq!(
        state("held 0 - 5\nhold 1 0 65535\nhold 7 3 0\nhold 8 1 1\n"),
        "0 0 0 0 0 0 0 3 span 5 65535 0 0 0 0 0 0"
    );
    // Numbers of octets and spans are taken modulo 65,536.
    for (line, held, span) in [
        ("hold 1 65535 65535", 65_535, 65_535),
        ("hold 1 65536 65536", 0, 0),
        ("hold 1 65536", 0, 0),
        ("hold 1 65538", 2, 1),
        ("hold 1 4294967303 65539", 7, 3),
        ("hold 1 18446744073709551615 4294967296", 65_535, 0),
        ("held 1 4142 65537", 2, 1),
        ("held 1 - 18446744073709551615", 0, 65_535),
    ] {
        let said = format!("0 {held} 0 0 0 0 0 0 span 0 {span} 0 0 0 0 0 0");
        assert_eq!(state(&format!("{line}\n")), said, "{line}");
    }
    for wrong in ["held 0 - 1 1\n", "held 0 - 0A\n", "hold 0 1 1 1\n"] {
        assert!(calls::run(wrong.as_bytes(), &mut Vec::new()).is_err());
    }
}

#[test]
fn a_script_says_next_frame_numbers_whole() {
    let script =
        format!("{}begin\nnext 1 18446744073709551615\nwrite 0 - - - 32\n", calls::setting_lines(&worked_setting()));
    assert!(printed(&script).contains(" next 0 18446744073709551615 0 0 0 0 0 0 setting "));
}

#[test]
fn a_refused_setting_leaves_states_of_zeros() {
    let script = "setting 31 1 0 0 0 0 0\nbegin\nread 00\nwrite 0 - - - 0\n";
    let zeros = "units 0 octets 0 missing 0 idle 0 fill 0 dropped 0";
    let printed = printed(script);
    assert!(printed.starts_with("2 begin writer refused 1 reader refused 1\n"));
    assert!(printed.contains(&format!("3 read refused 1 {zeros}\n")));
    assert!(printed.contains("4 write refused 1\n"));
    assert!(printed.ends_with("next 0 0 0 0 0 0 0 0 setting 0\n"));
}

#[test]
fn a_script_as_requests() {
    let asked = |script: &str| {
        let mut out = Vec::new();
        stream::requests(script.as_bytes(), &mut out).unwrap();
        out
    };
    let row = |numbers: &[u64]| -> Vec<u8> {
        let mut row = numbers.to_vec();
        row.resize(8, 0);
        row.iter().flat_map(|number| number.to_be_bytes()).collect()
    };
    let blank = [row(&[3]), row(&[4, 6_440, 0]), vec![0; 2_240], vec![0x55; 4_200]].concat();
    assert_eq!(asked(""), blank);
    let after = |script: &str| asked(script)[blank.len()..].to_vec();
    assert_eq!(after("setting 32 42 0 0 0 1 1\n# none\n\nlane 9 0 0 0 0 0\n"), blank);
    assert_eq!(after("count 7 258\n"), [row(&[4, 8, 64 * 9 + 40]), vec![0, 0, 0, 0, 0, 0, 1, 2]].concat());
    assert_eq!(after("next 0 1\ncount 8 1\n"), [row(&[4, 8, 64 * 10 + 40]), vec![0, 0, 0, 0, 0, 0, 0, 1]].concat());
    assert_eq!(after("next 0 18446744073709551615\n"), [row(&[4, 8, 64 * 10 + 40]), vec![0xFF; 8]].concat());
    let laid = |held: u64, span: u64| {
        [row(&[4, 16, 64 * 28 + 40]), held.to_be_bytes().to_vec(), span.to_be_bytes().to_vec()].concat()
    };
    assert_eq!(after("hold 1 9\n"), laid(9, 1));
    assert_eq!(after("hold 1 9 258\n"), laid(9, 258));
    assert_eq!(after("hold 1 0\nhold 8 1 1\n"), laid(0, 0));
    assert_eq!(after("hold 1 65535 65535\n"), laid(65_535, 65_535));
    assert_eq!(after("hold 1 65536\n"), laid(0, 0));
    assert_eq!(after("hold 1 65545 18446744073709551615\n"), laid(9, 65_535));
    let octets = [row(&[2, 2, 8_192]), vec![1, 2]].concat();
    assert_eq!(after("held 1 0102\n"), [octets.clone(), laid(2, 1)].concat());
    assert_eq!(after("held 1 0102 2\n"), [octets.clone(), laid(2, 2)].concat());
    assert_eq!(after("held 1 0102 65538\n"), [octets, laid(2, 2)].concat());
    assert_eq!(after("held 1 - 7\n"), [row(&[2, 0, 8_192]), laid(0, 7)].concat());
    assert_eq!(after("read 0A 1\n"), [row(&[1, 1, 1, 49_152, 65_536]), vec![10]].concat());
    assert_eq!(after("look 0A0B\n"), [row(&[9, 2]), vec![10, 11]].concat());
    assert_eq!(after("look -\n"), row(&[9, 0]));
    assert_eq!(after("keep 32\n"), row(&[0, 0, 12_288, 49_152, 65_536, 32]));
    let write = [row(&[7, 274, 3, 1, 0, 40]), vec![0xAA], vec![0; 271], vec![1, 2]].concat();
    assert_eq!(after("write 3 0102 AA - 40\n"), write);
    assert_eq!(after("begin\n").len(), 2 * (64 + 17 * 64 + 56 + 8 * 32 + 8 * 40));
    assert_eq!(after("take\n").len(), 2 * (17 * 64 + 56 + 8 * 32 + 8 * 40));
}

#[test]
fn answers_as_text() {
    let text = |script: &str, answers: &[u8]| {
        let mut out = Vec::new();
        stream::answers(script.as_bytes(), answers, &mut out).map(|()| String::from_utf8(out).unwrap())
    };
    let mut desk = vec![0; 2_240];
    desk.extend(vec![0x55; 4_200]);
    desk[6..8].copy_from_slice(&[0x29, 0xB1]);
    assert_eq!(text("\ncheck 31\n", &desk), Ok("2 check 29B1\n".to_string()));
    assert!(text("check 31\n", &desk[1..]).is_err());
    assert!(text("take\n", &desk).is_err());
    // A state of zeros that is refused prints what the calls themselves print, and one octet more or less shows.
    let script = "begin\nwrite 0 - - - 0\nread -\n";
    desk[..8].copy_from_slice(&1_u64.to_be_bytes());
    let mut taken = desk.clone();
    taken[..16].copy_from_slice(&[0, 0, 0, 0, 0, 0, 0, 3, 0, 0, 0, 0, 0, 0, 0, 1]);
    taken.extend(vec![0x55; 65_552 + 12_304 + 49_184]);
    let answers = [desk.clone(), desk.clone(), desk, taken].concat();
    assert_eq!(text(script, &answers).unwrap(), printed(script));
    for place in
        [0, 64, 64 + 63, 6_440 + 18 * 64 + 7, 2 * 6_440 + 2_240, 3 * 6_440 + 18 * 64, 3 * 6_440 + 15, answers.len() - 1]
    {
        let mut changed = answers.clone();
        changed[place] ^= 1;
        assert_ne!(text(script, &changed).as_ref(), Ok(&printed(script)), "octet {place}");
    }
}

#[test]
fn answers_to_reads_as_text() {
    let text = |row_0: [u64; 8]| {
        let mut answer: Vec<u8> = row_0.iter().flat_map(|number| number.to_be_bytes()).collect();
        answer.resize(2_240, 0);
        answer.extend(vec![0x55; 4_200 + 65_552 + 12_304 + 49_184]);
        let mut out = Vec::new();
        stream::answers("read 00\n".as_bytes(), &answer[..], &mut out)?;
        let text = String::from_utf8(out).unwrap();
        Ok::<String, String>(text.lines().next().unwrap().to_string())
    };
    let said = |line: &str| Ok(format!("1 read {line}"));
    let zeros = "units 0 octets 0 missing 0 idle 0 fill 0 dropped 0";
    assert_eq!(text([0, 0, 0, 0, 0, 0, 0, 0]), said(&format!("idle {zeros}")));
    assert_eq!(
        text([1, 0, 0, 0, 254, 0, 0, 11]),
        said("counted units 0 octets 0 missing 254 idle 0 fill 0 dropped 11")
    );
    assert_eq!(text([2, 0, 1, 10, 2, 3, 4, 5]), said("read units 1 octets 10 missing 2 idle 3 fill 4 dropped 5"));
    assert_eq!(text([3, 12, 0, 0, 0, 0, 0, 0]), said(&format!("refused 12 {zeros}")));
    assert_eq!(text([4, 0, 0, 0, 0, 0, 0, 0]), said(&format!("repeat {zeros}")));
    // A repeat that counts something is told as it is, and differs from what is due.
    assert_eq!(text([4, 0, 0, 0, 255, 0, 0, 0]), said("repeat units 0 octets 0 missing 255 idle 0 fill 0 dropped 0"));
    assert!(text([4, 12, 0, 0, 0, 0, 0, 0]).is_err());
    assert!(text([5, 0, 0, 0, 0, 0, 0, 0]).is_err());
}

#[test]
fn answers_to_looks_as_text() {
    let text = |row_0: [u64; 8], changed: Option<usize>| {
        let mut desk: Vec<u8> = row_0.iter().flat_map(|number| number.to_be_bytes()).collect();
        desk.resize(2_240, 0);
        desk.extend(vec![0x55; 4_200]);
        if let Some(place) = changed {
            desk[place] ^= 1;
        }
        let mut out = Vec::new();
        stream::answers("look 00\n".as_bytes(), &desk[..], &mut out).map(|()| String::from_utf8(out).unwrap())
    };
    let zeros = "0 0 0 0 0 0 0 0";
    let state = format!("reader expects 0:0 0:0 0:0 0:0 0:0 0:0 0:0 0:0 held {zeros} span {zeros} setting 0\n");
    let said = |line: &str| Ok(format!("1 look {line}\n{state}"));
    assert_eq!(text([3, 1, 0, 0, 0, 0, 0, 0], None), said("refused 1 missing 0 channel - lane -"));
    assert_eq!(text([3, 1, 0, 0, 0, 0, 0, 0], None), Ok(printed("look 00\n")));
    assert_eq!(text([0, 0, 0, 0, 0, 0, 0, 0], None), said("idle missing 0 channel - lane -"));
    assert_eq!(text([1, 0, 1, 0, 1, 0, 0, 0], None), said("counted missing 1 channel 0 lane -"));
    assert_eq!(text([2, 0, 2, 8, 254, 0, 0, 0], None), said("read missing 254 channel 1 lane 7"));
    assert_eq!(text([4, 0, 1, 0, 0, 0, 0, 0], None), said("repeat missing 0 channel 0 lane -"));
    // Numbers that should be 0: of the answer, of a class with a refusal's number, of no class.
    for wrong in [[2, 0, 2, 8, 254, 1, 0, 0], [2, 0, 2, 8, 254, 0, 1, 0], [2, 0, 2, 8, 254, 0, 0, 1]] {
        assert!(text(wrong, None).is_err());
    }
    assert!(text([2, 1, 0, 0, 0, 0, 0, 0], None).is_err());
    assert!(text([4, 1, 1, 0, 0, 0, 0, 0], None).is_err());
    assert!(text([5, 0, 0, 0, 0, 0, 0, 0], None).is_err());
    // A setting that changed, of the writer and of the reader; a span of the writer, which has none; numbers behind the span
    // and behind a count.
    for place in [64 + 7, 18 * 64 + 7, 10 * 64 + 55, 17 * 64 + 55, 27 * 64 + 63, 34 * 64 + 63, 19 * 64 + 55] {
        assert!(text([0; 8], Some(place)).is_err());
    }
    // An expected count, octets held, and a span.
    for place in [19 * 64 + 39, 19 * 64 + 47, 27 * 64 + 47, 27 * 64 + 55, 34 * 64 + 48] {
        let changed = text([0; 8], Some(place));
        assert!(changed.is_ok());
        assert_ne!(changed, text([0; 8], None));
    }
}

#[test]
fn random_scripts_are_the_same_each_time_and_can_be_called() {
    let script = random::script(7, 300);
    assert_eq!(script, random::script(7, 300));
    assert_ne!(script, random::script(8, 300));
    assert!(printed(&script).lines().count() > 300);
}

/// What calls print, a string each and without the numbers of the script's lines.
fn printed_by_call(script: &str) -> Vec<String> {
    let mut calls: Vec<String> = Vec::new();
    for line in printed(script).lines() {
        match line.split_once(' ') {
            Some((number, rest)) if number.bytes().all(|octet| octet.is_ascii_digit()) => calls.push(rest.to_string()),
            _ => *calls.last_mut().unwrap() += line,
        }
    }
    calls
}

#[test]
fn other_calls_print_the_same_without_the_looks() {
    let script = random::script(9, 300);
    let without: String = script.split_inclusive('\n').filter(|line| !line.starts_with("look ")).collect();
    let (looks, others): (Vec<String>, Vec<String>) =
        printed_by_call(&script).into_iter().partition(|call| call.starts_with("look "));
    assert!(looks.len() > 30);
    assert_eq!(others, printed_by_call(&without));
}

#[test]
fn demand_3_in_some_runs() {
    let printed = printed(&demand3::script(5, 30));
    assert!(demand3::check(5, 30, &printed).unwrap().ends_with("ok"));
    let repeat = "read repeat units 0 octets 0 missing 0 idle 0 fill 0 dropped 0\nunits -";
    for (right, wrong) in [
        ("read read", "read counted"),
        ("read repeat", "read read"),
        ("read counted", "read repeat"),
        (repeat, &repeat.replace("missing 0", "missing 255")),
        (repeat, &repeat.replace("units -", "units 00")),
    ] {
        assert!(printed.contains(right), "{right}");
        assert!(demand3::check(5, 30, &printed.replacen(right, wrong, 1)).is_err(), "{wrong}");
    }
}

#[test]
fn demand_3_with_another_count_or_span() {
    let printed = printed(&demand3::script(5, 30));
    assert!(demand3::check(5, 30, &printed).is_ok());
    // Digits of a record's count, of its high half and of its low one, and of its span.
    let mut high = 0;
    for (place, line) in printed.match_indices("\nrecords 0") {
        let record = place + line.len() - 1;
        let digits = &printed[record..record + 48];
        if digits[24..32] != *"00000000" {
            high += 1;
        }
        if high > 3 {
            break;
        }
        for digit in [25, 31, 39, 40, 47] {
            let other = if &digits[digit..digit + 1] == "1" { "2" } else { "1" };
            let mut changed = printed.clone();
            changed.replace_range(record + digit..record + digit + 1, other);
            assert!(demand3::check(5, 30, &changed).unwrap_err().contains("handed out"), "{digits}, digit {digit}");
        }
    }
    assert!(high > 3);
}

#[test]
fn demand_3_at_the_edge() {
    // As many are gone before a kept frame as can be: 254, where a count has one octet.
    let printed = printed(&demand3::script(6, 30));
    let gone = |line: &str| line.contains("read read ") && line.contains(" missing 254 ");
    assert!(printed.lines().filter(|line| gone(line)).count() > 1);
    assert!(demand3::check(6, 30, &printed).unwrap().ends_with("ok"));
}

#[test]
fn demand_3_with_another_frame_than_the_late_copy() {
    // The version of each written frame, which nobody reads from the text but for the copies that come late.
    let printed = printed(&demand3::script(5, 30)).replace("\nframe C", "\nframe D");
    assert!(demand3::check(5, 30, &printed).unwrap_err().contains("a copy is not the frame that was written"));
}
