//! `second random`: a random script for `second calls`. The same seed always gives the same script.

use crate::calls::setting_lines;
use crate::frame::{put_big_endian, put_frame_check, Header, NO_POINTER};
use crate::packet::{HEADERS, IDLE_OCTET, LENGTH_FIELDS, SHORTEST_SPACE};
use crate::reader::{HELD_AREA, RECORD, RECORD_AREA, UNIT_AREA};
use crate::setting::{Channel, Kind, Lane, Setting};
use crate::text::hex;
use crate::writer::{Lent, Writer, LONGEST_BATCH};

/// SplitMix64.
pub struct Random(u64);

impl Random {
    pub fn new(seed: u64) -> Random {
        Random(seed)
    }

    pub fn next(&mut self) -> u64 {
        self.0 = self.0.wrapping_add(0x9E37_79B9_7F4A_7C15);
        let mut mixed = self.0;
        mixed = (mixed ^ mixed >> 30).wrapping_mul(0xBF58_476D_1CE4_E5B9);
        mixed = (mixed ^ mixed >> 27).wrapping_mul(0x94D0_49BB_1331_11EB);
        mixed ^ mixed >> 31
    }

    /// A number from 0 to `bound` - 1.
    pub fn below(&mut self, bound: u64) -> u64 {
        self.next() % bound
    }

    /// A number from `low` to `high`, both included.
    pub fn between(&mut self, low: u64, high: u64) -> u64 {
        low + self.below(high - low + 1)
    }

    pub fn one_in(&mut self, bound: u64) -> bool {
        self.below(bound) == 0
    }

    pub fn percent(&mut self, chance: u64) -> bool {
        self.below(100) < chance
    }

    pub fn pick<T: Copy>(&mut self, from: &[T]) -> T {
        from[self.below(from.len() as u64) as usize]
    }

    pub fn octet(&mut self) -> u8 {
        self.next() as u8
    }

    pub fn octets(&mut self, length: usize) -> Vec<u8> {
        (0..length).map(|_| self.octet()).collect()
    }
}

// Settings

/// Counts of one octet are reached all round, so they come more often.
const COUNT_LENGTHS: [u64; 9] = [1, 1, 1, 2, 3, 4, 5, 6, 7];

/// A count for a channel to begin with that goes on high: any, mostly one above 2^32, or a few below that number or below
/// the wrap. None for a channel whose counts have no room for it, and now and then for others.
pub fn high_count(random: &mut Random, channel: &Channel) -> Option<u64> {
    if channel.count_length < 5 || random.one_in(3) {
        return None;
    }
    let any = random.below(channel.modulus());
    let few = random.between(1, 9);
    Some(random.pick(&[any, any, (1 << 32) - few, channel.modulus() - few]))
}

fn random_channels(random: &mut Random, n_choices: &[u64]) -> Vec<Channel> {
    let wanted = random.pick(&[1, 1, 2, 2, 3, 4, 8]);
    let mut channels: Vec<Channel> = Vec::new();
    while channels.len() < wanted {
        let any = random.below(63);
        let repeated = channels.last().map_or(3, |channel| channel.virtual_channel);
        let virtual_channel = random.pick(&[0, 1, 3, 62, any, repeated, repeated]);
        let service = random.below(2);
        if channels.iter().any(|c| c.virtual_channel == virtual_channel && c.service == service) {
            continue;
        }
        let agreed = channels.iter().find(|c| c.virtual_channel == virtual_channel).map(|c| c.ocf);
        let ocf = agreed.unwrap_or(random.one_in(3));
        channels.push(Channel { virtual_channel, service, count_length: random.pick(n_choices), ocf });
    }
    channels
}

/// The lengths F and I with Z at least 1 for every channel: mostly at an edge.
fn random_lengths(random: &mut Random, channels: &[Channel], check: bool) -> (u64, u64) {
    let around = channels.iter().map(|c| 10 + c.count_length + if c.ocf { 4 } else { 0 }).max().unwrap_or(11)
        + if check { 2 } else { 0 };
    let some_insert = random.below(65);
    let insert = random.pick(&[0, 0, 0, 1, 2, 64, some_insert]);
    if random.percent(40) {
        // A tiny zone, at most in the way of the least F.
        let tiny = random.between(2, 30);
        let zone = random.pick(&[1, 1, 2, 3, 6, 7, tiny, tiny]);
        let frame_length = zone + around + insert;
        return if frame_length < 32 { (32, 32 - zone - around) } else { (frame_length, insert) };
    }
    let small = random.between(32, 80);
    let any = random.between(32, 4096);
    let frame_length = random.pick(&[
        32, 32, 32, 33, 33, 34, 40, 48, 64, small, small, small, small, small, 100, 128, 200, 256, 300, 512, 1024, any,
        4095, 4096,
    ]);
    (frame_length, insert.min(frame_length - around - 1))
}

fn random_lanes(random: &mut Random, setting: &Setting) -> Vec<Lane> {
    let wanted = random.pick(&[1, 1, 2, 2, 3, 4, 5, 8]);
    let mut lanes: Vec<Lane> = Vec::new();
    while lanes.len() < wanted {
        let place = random.below(setting.channels.len() as u64) as usize;
        let any_map = random.below(16);
        let map = random.pick(&[0, 1, 5, 15, any_map, any_map]);
        if lanes.iter().any(|lane| lane.channel == place && lane.map == map) {
            continue;
        }
        let zone = setting.zone_length(&setting.channels[place]) as u64;
        let any_longest = random.between(7, 8192);
        let near_zone = zone * random.between(1, 3) + random.below(3);
        let small = random.between(7, 100);
        let lane = if random.percent(60) {
            // Tiny ones cut headers, and some cannot have a Space Packet.
            let tiny = random.between(2, 9);
            let near_field = random.between(254, 257);
            let longest = random.pick(&[
                2,
                3,
                tiny,
                tiny,
                tiny,
                7,
                8,
                13,
                64,
                small,
                small,
                small,
                small,
                near_zone,
                near_zone,
                near_field,
                8191,
                8192,
                any_longest,
            ]);
            Lane { channel: place, map, kind: Kind::Packet, longest: longest.clamp(2, 8192), upid: 0 }
        } else {
            let longest = random.pick(&[1, 2, zone, near_zone, near_zone, small, 8191, 8192, any_longest]);
            let any_upid = random.between(1, 30);
            let upid = random.pick(&[1, 5, 30, any_upid]);
            Lane { channel: place, map, kind: Kind::Access, longest: longest.clamp(1, 8192), upid }
        };
        lanes.push(lane);
    }
    lanes
}

pub fn valid_setting(random: &mut Random, n_choices: &[u64]) -> Setting {
    let channels = random_channels(random, n_choices);
    let check = random.one_in(2);
    let (frame_length, insert) = random_lengths(random, &channels, check);
    let any_spacecraft = random.below(65_536);
    let spacecraft = random.pick(&[0, 42, 65_535, any_spacecraft]);
    let destination = random.one_in(2);
    let mut setting = Setting { frame_length, spacecraft, destination, insert, check, channels, lanes: Vec::new() };
    setting.lanes = random_lanes(random, &setting);
    setting
}

/// Pushes one fact over an edge (or just onto it: the ends judge, not this).
fn spoil(random: &mut Random, setting: &mut Setting) {
    let channel = random.below(setting.channels.len() as u64) as usize;
    let lane = random.below(setting.lanes.len() as u64) as usize;
    let around = 10 + setting.channels[channel].count_length;
    match random.below(18) {
        0 => {
            // Nothing else is to be wrong with it.
            setting.frame_length = random.pick(&[0, 1, 31, 31, 31, 32, 4096, 4097, 4097, 65_535]);
            setting.insert = 0;
            setting.channels[channel].count_length = 1;
        }
        1 => {
            setting.frame_length = 4096;
            setting.insert = random.pick(&[64, 65, 65, 66, 255]);
        }
        2 => setting.insert = (setting.frame_length - around).min(64),
        3 => setting.insert = (setting.frame_length - around - 1).min(64),
        4 => setting.channels[channel].virtual_channel = random.pick(&[62, 63, 64]),
        5 => setting.channels[channel].count_length = random.pick(&[0, 7, 8]),
        6 => setting.lanes[lane].map = random.pick(&[15, 16]),
        7 => setting.lanes[lane].longest = random.pick(&[0, 1, 1, 1, 2, 2, 3, 6, 7]),
        8 => setting.lanes[lane].longest = random.pick(&[8192, 8193]),
        9 => {
            setting.lanes[lane].kind = Kind::Access;
            setting.lanes[lane].upid = random.pick(&[0, 30, 31]);
        }
        10 => {
            let twin = setting.channels[channel].clone();
            setting.channels.push(twin);
        }
        11 => {
            let mut other = setting.channels[channel].clone();
            other.service = 1 - other.service;
            other.ocf = !other.ocf;
            setting.channels.push(other);
        }
        12 => {
            let twin = setting.lanes[lane].clone();
            setting.lanes.push(twin);
        }
        13 => setting.lanes.clear(),
        14 => {
            setting.channels.clear();
            setting.lanes.clear();
        }
        15 => setting.lanes[lane].channel = 99,
        16 => {
            let first = setting.lanes[0].clone();
            let number = random.pick(&[8, 9, 9]);
            setting.lanes = (0..number).map(|map| Lane { map, ..first.clone() }).collect();
        }
        _ => {
            let first = setting.channels[0].clone();
            let number = random.pick(&[8, 9, 9]);
            setting.channels =
                (0..number).map(|more| Channel { virtual_channel: 20 + more, ..first.clone() }).collect();
            setting.lanes.truncate(1);
            setting.lanes[0].channel = 0;
        }
    }
}

// Packets and batches

/// A Space Packet of this length in all; not idle unless asked for.
pub fn space_packet(random: &mut Random, length: usize, idle: bool) -> Vec<u8> {
    let mut octets = random.octets(length);
    let application = if idle { 0x07FF } else { random.below(0x07FF) };
    let upper = random.below(4) << 11;
    put_big_endian(&mut octets[..2], application | upper);
    put_big_endian(&mut octets[4..6], length as u64 - SHORTEST_SPACE);
    octets
}

/// A protocol that is not idle, or the idle one.
fn protocol(random: &mut Random, idle: bool) -> u8 {
    if idle {
        0
    } else {
        random.between(1, 7) as u8
    }
}

/// The header of an encapsulation packet; of a total that its field has no room for the low octets are in it.
fn encapsulation_header(random: &mut Random, protocol: u8, length_of_length: usize, total: u64) -> Vec<u8> {
    let header = HEADERS[length_of_length];
    let mut octets = random.octets(header);
    octets[0] = 0b1110_0000 | protocol << 2 | length_of_length as u8;
    put_big_endian(&mut octets[header - LENGTH_FIELDS[length_of_length]..], total);
    octets
}

/// The lengths of length whose headers can say this total and are not longer.
fn lengths_of_length(total: usize) -> Vec<usize> {
    let can_say = |&size: &usize| total >= HEADERS[size] && total < 1 << (8 * LENGTH_FIELDS[size]);
    (1..4).filter(can_say).collect()
}

/// An encapsulation packet of this length in all, at least 2, with any header that can say it.
fn encapsulation_packet(random: &mut Random, length: usize, idle: bool) -> Vec<u8> {
    let protocol = protocol(random, idle);
    let length_of_length = random.pick(&lengths_of_length(length));
    let mut octets = encapsulation_header(random, protocol, length_of_length, length as u64);
    octets.extend(random.octets(length - HEADERS[length_of_length]));
    octets
}

/// A packet of this length in all, at least 2, of any family that has such a one.
pub fn packet(random: &mut Random, length: usize, idle: bool) -> Vec<u8> {
    if length as u64 >= SHORTEST_SPACE && random.one_in(2) {
        space_packet(random, length, idle)
    } else {
        encapsulation_packet(random, length, idle)
    }
}

/// A first octet that begins no packet: first bits of neither family, or a header of one octet that is not idle.
pub fn unreadable_octet(random: &mut Random) -> u8 {
    let bits = random.between(1, 6) as u8;
    let of_neither = bits << 5 | random.octet() & 0x1F;
    let protocol = protocol(random, false);
    let one_octet = 0b1110_0000 | protocol << 2;
    random.pick(&[of_neither, of_neither, one_octet, 0x20, 0xC0, 0xFC, 0xE4])
}

/// An encapsulation packet's header with a total at an edge, and some octets behind it, which may be fewer or more than it
/// says.
pub fn edge_packet(random: &mut Random, longest: usize) -> Vec<u8> {
    let length_of_length = random.pick(&[1, 1, 2, 2, 3, 3, 3]);
    let header = HEADERS[length_of_length] as u64;
    let longest = longest as u64;
    let below = random.below(header);
    let high = random.below(1 << 32);
    // A total whose low octets alone would fit.
    let low_fits = random.pick(&[header, longest]) + random.pick(&[1 << 8, 1 << 16, 1 << 24, 1 << 31]);
    let total = random.pick(&[
        0,
        below,
        header - 1,
        header - 1,
        header,
        header,
        header + 1,
        longest - 1,
        longest,
        longest,
        longest + 1,
        longest + 1,
        255,
        256,
        65_535,
        65_536,
        low_fits,
        low_fits,
        (1 << 32) - 1,
        (1 << 32) - 1,
        high,
    ]);
    let idle = random.one_in(3);
    let protocol = protocol(random, idle);
    let mut octets = encapsulation_header(random, protocol, length_of_length, total);
    let rest = total.saturating_sub(header);
    let some = random.below(12);
    let more = if rest <= 300 { random.pick(&[rest, rest, rest, some]) } else { some };
    octets.extend(random.octets(more as usize));
    octets
}

/// A length for a good packet of a lane, biased to the ends and to what fits a few zones.
fn packet_length(random: &mut Random, longest: usize, zone: usize) -> usize {
    let tiny = random.between(2, 9);
    let short = random.between(2, 30);
    let near_zone = random.between(1, 3) * zone as u64 + random.below(3);
    let near_field = random.between(254, 257);
    let capped = random.between(2, longest.min(600) as u64);
    let length = random.pick(&[
        tiny,
        tiny,
        short,
        short,
        short,
        short,
        near_zone,
        near_zone,
        near_field,
        capped,
        capped,
        longest as u64,
        longest as u64,
    ]);
    let affordable = if length > 700 && !random.one_in(12) { short } else { length };
    (affordable as usize).clamp(2, longest)
}

/// The units of a batch that keeps its lane's rule.
pub fn good_units(random: &mut Random, lane: &Lane, zone: usize) -> Vec<Vec<u8>> {
    let longest = lane.longest as usize;
    match lane.kind {
        Kind::Packet => {
            let many = random.between(7, 40);
            let few = random.between(1, 9);
            let number = random.pick(&[1, 1, 2, 3, 4, 6, if longest < 30 { many } else { few }]);
            let mut units = Vec::new();
            let mut octets = 0;
            for _ in 0..number {
                let length = packet_length(random, longest, zone);
                if octets + length <= LONGEST_BATCH {
                    units.push(packet(random, length, false));
                    octets += length;
                }
            }
            units
        }
        Kind::Access => {
            let near_zone = random.between(1, 3) * zone as u64 + random.below(3) - 1;
            let capped = random.between(1, longest.min(600) as u64);
            let length = random.pick(&[1, 2, near_zone, near_zone, capped, capped, longest as u64]);
            let affordable = if length > 700 && !random.one_in(12) { capped } else { length };
            vec![random.octets((affordable as usize).clamp(1, longest))]
        }
    }
}

/// A batch that keeps its lane's rule.
pub fn good_batch(random: &mut Random, lane: &Lane, zone: usize) -> Vec<u8> {
    good_units(random, lane, zone).concat()
}

/// A batch that breaks a rule (or, where the lane allows it, only nearly breaks one).
fn bad_batch(random: &mut Random, lane: &Lane, zone: usize) -> Vec<u8> {
    let longest = lane.longest as usize;
    if lane.kind == Kind::Access {
        let length = random.pick(&[0, 0, longest + 1, longest]);
        return random.octets(length);
    }
    let mut batch = if random.one_in(2) { good_batch(random, lane, zone) } else { Vec::new() };
    match random.below(12) {
        0 => batch.clear(),
        1 => batch.extend(packet(random, longest.min(40), true)),
        2 => batch.extend(packet(random, longest + 1, false)),
        3 => {
            let length = random.between(2, longest.min(40) as u64) as usize;
            let cut = random.between(1, length as u64 - 1) as usize;
            batch.extend(&packet(random, length, false)[..cut]);
        }
        4 => batch.push(unreadable_octet(random)),
        5 => {
            let length = random.between(2, longest.min(9) as u64) as usize;
            let packet = packet(random, length, false);
            batch.push(IDLE_OCTET);
            batch.extend(packet);
        }
        6 => batch.push(IDLE_OCTET),
        7 => {
            let mut packet = packet(random, 9, false);
            packet[0] = unreadable_octet(random);
            batch.extend(packet);
        }
        // The total is at an edge, and fits the octets or does not.
        8 | 9 => batch.extend(edge_packet(random, longest)),
        // A Space Packet where the longest may be too short for one.
        10 => {
            let idle = random.one_in(4);
            batch.extend(space_packet(random, 7, idle));
        }
        _ => {
            let extra = random.between(1, 6) as usize;
            batch.extend(vec![0; extra]);
        }
    }
    batch
}

/// A packet of any kind: good, idle, too long, unreadable, with a total at an edge, whole before its end, or a Space Packet
/// whichever the longest is.
fn odd_packet(random: &mut Random, longest: usize, zone: usize) -> Vec<u8> {
    let length = packet_length(random, longest, zone);
    let mut octets = packet(random, length, false);
    match random.below(16) {
        0..=5 => {}
        6..=7 => return packet(random, length, true),
        8 => {
            let idle = random.one_in(3);
            return packet(random, longest + 1, idle);
        }
        9 => octets[0] = unreadable_octet(random),
        10 => octets[0] = IDLE_OCTET,
        11..=13 => return edge_packet(random, longest),
        14 => return space_packet(random, length.max(7), false),
        _ => {
            let more = random.between(1, 9) as usize;
            octets.extend(random.octets(more));
        }
    }
    octets
}

/// What a stream of packets may have at one place.
fn stream_part(random: &mut Random, longest: usize, zone: usize) -> Vec<u8> {
    let length = packet_length(random, longest, zone);
    match random.below(26) {
        0..=12 => packet(random, length, false),
        13..=15 => packet(random, length, true),
        16..=19 => vec![IDLE_OCTET; 1 + length % 5],
        20 => vec![unreadable_octet(random)],
        21 => {
            let idle = random.one_in(3);
            let too_long = longest + random.pick(&[1, 1, 2, 300]);
            packet(random, too_long, idle)
        }
        22..=23 => edge_packet(random, longest),
        24 => space_packet(random, length.max(7), false),
        _ => random.octets(length),
    }
}

/// Octets for a zone from a packet's start on: packets of every kind, cut where the room ends. Often the last one has only
/// a few octets there, so that its header is cut.
fn packet_stream(random: &mut Random, longest: usize, zone: usize, room: usize) -> Vec<u8> {
    let mut octets = Vec::new();
    let mut last = 0;
    while octets.len() < room {
        last = octets.len();
        octets.extend(stream_part(random, longest, zone));
    }
    octets.truncate(room);
    if random.one_in(3) {
        let mut tail = stream_part(random, longest, zone);
        tail.truncate((random.between(1, 9) as usize).min(room));
        octets.truncate(last.min(room - tail.len()));
        octets.resize(room - tail.len(), IDLE_OCTET);
        octets.extend(tail);
    }
    octets
}

// The script

struct Script {
    random: Random,
    out: String,
    calls: u64,
    setting: Setting,
    /// The same writer as the one that `calls` will have, to know the frames.
    writer: Writer,
    /// Each lane's batch that is not yet worked off.
    open: Vec<Option<Vec<u8>>>,
    /// Frames written not long ago.
    frames: Vec<Vec<u8>>,
}

pub fn script(seed: u64, count: u64) -> String {
    let mut script = Script {
        random: Random::new(seed),
        out: format!("# second random {seed} {count}\n"),
        calls: 0,
        setting: Setting::default(),
        writer: Writer::default(),
        open: Vec::new(),
        frames: Vec::new(),
    };
    while script.calls < count {
        script.setting_block(count);
    }
    script.out
}

impl Script {
    fn line(&mut self, line: &str) {
        self.out += line;
        self.out.push('\n');
    }

    fn setting_block(&mut self, count: u64) {
        for _ in 0..3 {
            self.setting_probe();
            self.number_probe();
        }
        let setting = valid_setting(&mut self.random, &COUNT_LENGTHS);
        self.setting_lines(&setting);
        self.frames.clear();
        let Ok(writer) = Writer::fresh(&setting) else { return };
        self.writer = writer;
        self.open = vec![None; setting.lanes.len()];
        self.setting = setting;
        self.unlisted_slots();
        self.high_counts();
        let dear = self.setting.frame_length / 64;
        let enough = self.calls + self.random.between(10, 80) / (1 + dear / 16) + 5;
        while self.calls < enough.min(count) {
            self.step();
        }
    }

    fn setting_lines(&mut self, setting: &Setting) {
        self.out += &setting_lines(setting);
        self.line("begin");
    }

    /// A setting at or over an edge, which is only judged; sometimes the state of zeros is called.
    fn setting_probe(&mut self) {
        let mut setting = valid_setting(&mut self.random, &COUNT_LENGTHS);
        spoil(&mut self.random, &mut setting);
        self.setting_lines(&setting);
        if !setting.valid() && self.random.one_in(8) {
            self.write_line(0, &[1], &[], &[], 64);
            self.read_line(&[0xC0; 32]);
        }
    }

    /// A valid setting's lines with one number at or over an edge, set up or only taken over by both states; then calls.
    fn number_probe(&mut self) {
        let setting = valid_setting(&mut self.random, &COUNT_LENGTHS);
        let text = setting_lines(&setting);
        let lines: Vec<&str> = text.lines().collect();
        let changed = self.random.below(lines.len() as u64) as usize;
        let begun_before = self.random.one_in(2);
        if begun_before {
            self.out += &text;
            self.line("begin");
        }
        for (place, line) in lines.iter().enumerate() {
            let mut words: Vec<String> = line.split(' ').map(str::to_string).collect();
            if place == changed {
                let first = if place == 0 { 1 } else { 2 };
                let word = self.random.between(first, words.len() as u64 - 1) as usize;
                words[word] = self.edge_number().to_string();
            } else if begun_before && place == 0 {
                continue;
            }
            self.line(&words.join(" "));
        }
        let word = self.random.pick(&["begin", "take"]);
        self.line(word);
        self.setting = setting;
        self.frames.clear();
        let lane = self.any_lane();
        let zone = self.zone_of(lane);
        let batch = good_batch(&mut self.random, &self.setting.lanes[lane], zone.min(600));
        let (insert, ocf) = (self.insert_octets(), self.ocf_octets(lane));
        self.write_line(lane as u64, &batch, &insert, &ocf, self.setting.frame_length);
        self.read_some_frame();
    }

    fn edge_number(&mut self) -> u64 {
        let any = self.random.below(70_000);
        self.random.pick(&[
            0,
            1,
            2,
            3,
            6,
            7,
            8,
            9,
            15,
            16,
            30,
            31,
            32,
            33,
            62,
            63,
            64,
            65,
            254,
            255,
            4_095,
            4_096,
            4_097,
            8_191,
            8_192,
            8_193,
            65_535,
            any,
            1 << 32,
            u64::MAX,
        ])
    }

    /// Numbers in slots past the listed channels and the numbered lanes: they are nobody's, and stay.
    fn unlisted_slots(&mut self) {
        let words = [("count", true), ("next", false), ("expect", true), ("hold", false)];
        for (word, of_channels) in words {
            let used = if of_channels { self.setting.channels.len() } else { self.setting.lanes.len() };
            if used < 8 && self.random.one_in(3) {
                let slot = self.random.between(used as u64, 7);
                let number = if word == "hold" { self.great_kept() } else { self.great_number() };
                let flag = if word == "expect" { self.random.pick(&["0 ", "1 "]) } else { "" };
                let great = format!(" {}", self.great_kept());
                let span = if word == "hold" { self.random.pick(&["", " 0", &great]) } else { "" };
                self.line(&format!("{word} {slot} {flag}{number}{span}"));
            }
        }
    }

    /// The writer of some channels begins with a high count.
    fn high_counts(&mut self) {
        for channel in 0..self.setting.channels.len() {
            if let Some(count) = high_count(&mut self.random, &self.setting.channels[channel]) {
                self.set_count(channel, count);
            }
        }
    }

    /// Counts around the wrap of the channel, on both ends; some frames are lost.
    fn wrap(&mut self) {
        let lane = self.any_lane();
        let channel = self.setting.lanes[lane].channel;
        let modulus = self.setting.channels[channel].modulus();
        let count = modulus - self.random.between(1, 3);
        self.set_count(channel, count);
        self.expect_line(channel, Some(count));
        for _ in 0..4 {
            let zone = self.zone_of(lane);
            let batch = match self.open[lane].take() {
                Some(batch) => batch,
                None => good_batch(&mut self.random, &self.setting.lanes[lane], zone),
            };
            let (insert, ocf) = (self.insert_octets(), self.ocf_octets(lane));
            let Some(frame) = self.write(lane as u64, &batch, &insert, &ocf, self.setting.frame_length) else {
                self.set_next(lane, 0);
                return;
            };
            if self.writer.next[lane] != 0 {
                self.open[lane] = Some(batch);
            }
            if !self.random.one_in(5) {
                self.read_line(&frame);
            }
        }
    }

    /// Every lane of a channel made to hold octets, then a frame of the channel with or without a gap before it.
    fn gap_over_lanes(&mut self) {
        let lane = self.any_lane();
        let channel = self.setting.lanes[lane].channel;
        let modulus = self.setting.channels[channel].modulus();
        self.hold_lines();
        let count = self.random.below(modulus);
        // The greatest gap that there is; one more is no gap, but a repeat.
        let gap = self.random.pick(&[0, 1, 1, 2, modulus - 2, modulus - 1]);
        self.expect_line(channel, Some((count + modulus - gap) % modulus));
        let mut frame = self.readable_frame(lane, count);
        if self.random.one_in(4) {
            self.forge_counted(&mut frame);
        }
        self.read_line(&frame);
    }

    /// Most lanes made to hold octets.
    fn hold_lines(&mut self) {
        for lane in 0..self.setting.lanes.len() {
            if self.random.percent(80) {
                let octets = self.held_octets(lane);
                self.held_line(lane, &octets);
            }
        }
    }

    /// A frame that this lane reads: a packet starts with the zone or nowhere in it, a unit ends with the zone's first octet or
    /// nowhere in it.
    fn readable_frame(&mut self, lane: usize, count: u64) -> Vec<u8> {
        let zone = self.zone_of(lane);
        let (rule, pointer) = match self.setting.lanes[lane].kind {
            Kind::Packet => (0, self.random.pick(&[0, NO_POINTER])),
            Kind::Access => (self.random.pick(&[1, 2]), self.random.pick(&[0, NO_POINTER])),
        };
        let longest = (self.setting.lanes[lane].longest as usize).max(2);
        let octets = packet_stream(&mut self.random, longest, zone, zone);
        self.lane_frame(lane, count, rule, pointer, &octets)
    }

    /// Makes a frame a counted one: a command, or a map that may be no lane's.
    fn forge_counted(&mut self, frame: &mut [u8]) {
        let (map, command) = (self.random.below(16) as u8, self.random.one_in(2));
        self.forge_header(frame, |header| {
            header.map = map;
            header.command = header.bypass && command;
        });
    }

    /// Changes a frame's header, and puts the check right most of the time.
    fn forge_header(&mut self, frame: &mut [u8], change: impl FnOnce(&mut Header)) {
        let mut header = Header::from_octets(frame);
        change(&mut header);
        frame[..7].copy_from_slice(&header.to_octets());
        self.seal(frame);
    }

    /// A frame with the count that its channel took last, or nearly so, while lanes hold octets. Mostly the frame follows
    /// that is expected then: what the one before it has changed shows there.
    fn repeated_read(&mut self) {
        let lane = self.any_lane();
        let channel = self.setting.lanes[lane].channel;
        let modulus = self.setting.channels[channel].modulus();
        self.hold_lines();
        let any = self.random.below(modulus);
        let count = self.random.pick(&[0, modulus - 1, modulus - 1, modulus - 1, modulus - 2, any, any]);
        let after = (count + 1) % modulus;
        match self.random.below(12) {
            // None is expected, so it is no repeat, whatever number stands there.
            0..=2 => self.line(&format!("expect {channel} 0 {after}")),
            // Other channels took it last, and this one another or none.
            3 => {
                for other in 0..self.setting.channels.len() {
                    let after = (count + 1) % self.setting.channels[other].modulus();
                    self.expect_line(other, Some(after));
                }
                let not_this = self.random.pick(&[None, Some(count), Some((count + 2) % modulus)]);
                self.expect_line(channel, not_this);
            }
            // The one taken last differs in one bit, of any octet.
            4 => {
                let other = count ^ 1 << self.random.below(8 * self.setting.channels[channel].count_length);
                self.expect_line(channel, Some((other + 1) % modulus));
            }
            _ => self.expect_line(channel, Some(after)),
        }
        for _ in 0..self.random.pick(&[1, 1, 1, 2, 3]) {
            let frame = self.readable_frame(lane, count);
            let frame = self.repeated_frame(channel, frame);
            self.read_line(&frame);
        }
        if self.random.percent(70) {
            let next = self.readable_frame(lane, after);
            self.read_line(&next);
        }
    }

    /// A lane's frame as it is; or with another lane's map of the channel, counted, idle, with a data field that is
    /// mostly refused, or with some other field forged.
    fn repeated_frame(&mut self, channel: usize, mut frame: Vec<u8>) -> Vec<u8> {
        let data_field = 7 + self.setting.channels[channel].count_length as usize + self.setting.insert as usize;
        match self.random.below(12) {
            0..=4 => {}
            5 => {
                let lanes = self.setting.lanes.iter().filter(|lane| lane.channel == channel);
                let maps: Vec<u64> = lanes.map(|lane| lane.map).collect();
                let map = self.random.pick(&maps) as u8;
                self.forge_header(&mut frame, |header| header.map = map);
            }
            6..=8 => self.forge_counted(&mut frame),
            9 => self.forge_header(&mut frame, |header| header.virtual_channel = 63),
            10 => {
                let place = data_field + self.random.below(3) as usize;
                frame[place] ^= 1 << self.random.below(8);
                self.seal(&mut frame);
            }
            _ => frame = self.forge_fields(frame),
        }
        frame
    }

    fn step(&mut self) {
        match self.random.below(100) {
            0..=26 => self.good_write(),
            27..=32 => self.look_alone(),
            33..=36 => self.wrap(),
            37..=41 => self.gap_over_lanes(),
            42..=49 => self.bad_write(),
            50..=57 => self.damaged_read(),
            58..=67 => self.forged_field_read(),
            68..=78 => self.forged_lane_read(),
            79..=80 => self.split_read(),
            81..=84 => self.repeated_read(),
            85..=87 => self.odd_area_read(),
            88..=91 => self.writer_state(),
            92..=95 => self.reader_state(),
            96..=97 => self.other_frame_read(),
            98 => self.check_line(),
            _ => {
                if self.random.one_in(12) {
                    self.great_batch();
                }
            }
        }
    }

    // Lines

    fn look_line(&mut self, frame: &[u8]) {
        self.calls += 1;
        let line = format!("look {}", hex(frame));
        self.line(&line);
    }

    /// One look or two: the second has to answer what the first did.
    fn look_lines(&mut self, frame: &[u8]) {
        for _ in 0..self.random.pick(&[1, 1, 2]) {
            self.look_line(frame);
        }
    }

    /// A read; about one in three is looked at first.
    fn read_line(&mut self, frame: &[u8]) {
        if self.random.one_in(3) {
            self.look_lines(frame);
        }
        self.calls += 1;
        let line = format!("read {}", hex(frame));
        self.line(&line);
    }

    fn write_line(&mut self, lane: u64, batch: &[u8], insert: &[u8], ocf: &[u8], area_length: u64) {
        self.calls += 1;
        let line = format!("write {lane} {} {} {} {area_length}", hex(batch), hex(insert), hex(ocf));
        self.line(&line);
    }

    /// Where none is expected there is a number all the same, mostly a valid one.
    fn expect_line(&mut self, channel: usize, expected: Option<u64>) {
        let modulus = self.setting.channels[channel].modulus();
        let any = self.random.below(modulus);
        let said = match expected {
            Some(count) => format!("1 {count}"),
            None => format!("0 {}", self.random.pick(&[0, 0, 0, any, modulus - 1])),
        };
        self.line(&format!("expect {channel} {said}"));
    }

    /// A number that fits no state, or nearly so.
    fn great_number(&mut self) -> u64 {
        self.random.pick(&[256, 8_192, 32_768, 65_536, 1 << 56, 1 << 63, u64::MAX])
    }

    /// A number of held octets or of frames that fits no state, or nearly so, of those that a state can say: two octets.
    fn great_kept(&mut self) -> u64 {
        self.random.pick(&[256, 8_192, 32_768, 65_535])
    }

    fn check_line(&mut self) {
        let length = self.random.below(40) as usize;
        let octets = self.random.octets(length);
        self.line(&format!("check {}", hex(&octets)));
    }

    // Places

    fn any_lane(&mut self) -> usize {
        self.random.below(self.setting.lanes.len() as u64) as usize
    }

    fn channel_of(&self, lane: usize) -> &Channel {
        &self.setting.channels[self.setting.lanes[lane].channel]
    }

    fn zone_of(&self, lane: usize) -> usize {
        self.setting.zone_length(self.channel_of(lane))
    }

    fn insert_octets(&mut self) -> Vec<u8> {
        self.random.octets(self.setting.insert as usize)
    }

    fn ocf_octets(&mut self, lane: usize) -> Vec<u8> {
        let length = if self.channel_of(lane).ocf { 4 } else { 0 };
        self.random.octets(length)
    }

    // Writing

    /// Writes with the mirrored writer too, and keeps the frame.
    fn write(&mut self, lane: u64, batch: &[u8], insert: &[u8], ocf: &[u8], area_length: u64) -> Option<Vec<u8>> {
        self.write_line(lane, batch, insert, ocf, area_length);
        let mut area = vec![0; area_length as usize];
        self.writer.write(&Lent { lane, batch, insert, ocf }, &mut area).ok()?;
        area.truncate(self.setting.frame_length as usize);
        if self.frames.len() < 16 {
            self.frames.push(area.clone());
        } else {
            let place = self.random.below(16) as usize;
            self.frames[place] = area.clone();
        }
        Some(area)
    }

    /// A frame of a good batch, read as it is, or lost, or sent several times, some copies late.
    fn good_write(&mut self) {
        let lane = self.any_lane();
        let zone = self.zone_of(lane);
        let batch = match self.open[lane].take() {
            Some(batch) if !self.random.one_in(40) => batch,
            _ => good_batch(&mut self.random, &self.setting.lanes[lane], zone),
        };
        let insert = self.insert_octets();
        let ocf = self.ocf_octets(lane);
        let longer = self.random.pick(&[0, 0, 0, 1, 3]);
        let area_length = self.setting.frame_length + longer;
        let frame = self.write(lane as u64, &batch, &insert, &ocf, area_length);
        if self.writer.next[lane] != 0 && self.writer.next[lane] < 32_768 {
            self.open[lane] = Some(batch);
        }
        let Some(frame) = frame else {
            // A refusal that the state caused: put the state right, most of the time.
            if self.random.percent(80) {
                self.set_next(lane, 0);
                self.set_count(self.setting.lanes[lane].channel, 0);
            }
            return;
        };
        match self.random.below(100) {
            0..=75 => self.read_line(&frame),
            76..=84 => self.several_reads(&frame),
            85..=89 => {
                let damaged = self.damage(&frame);
                self.read_line(&damaged);
            }
            _ => {}
        }
    }

    /// Copies of a frame, damaged ones and other frames among them. Where another frame is of another channel the next copy
    /// is a repeat all the same; where it is of this one, as an earlier frame that came again, it is none.
    fn several_reads(&mut self, frame: &[u8]) {
        for _ in 0..self.random.pick(&[1, 1, 2, 3]) {
            self.read_line(frame);
            match self.random.below(8) {
                0 => {
                    let damaged = self.damage(frame);
                    self.read_line(&damaged);
                }
                1..=2 => self.read_some_frame(),
                _ => {}
            }
        }
        self.read_line(frame);
    }

    fn bad_write(&mut self) {
        let lane = self.any_lane();
        let zone = self.zone_of(lane);
        let mut named = lane as u64;
        let mut insert = self.insert_octets();
        let mut ocf = self.ocf_octets(lane);
        let mut area_length = self.setting.frame_length;
        let mut batch = good_batch(&mut self.random, &self.setting.lanes[lane], zone);
        // Up to three faults at once, so that the order of refusals shows.
        for _ in 0..self.random.pick(&[1, 1, 1, 2, 3]) {
            match self.random.below(8) {
                0 => named = self.random.pick(&[self.setting.lanes.len() as u64, 8, 9, 255]),
                1..=3 => batch = bad_batch(&mut self.random, &self.setting.lanes[lane], zone),
                4 => {
                    let length = self.random.pick(&[insert.len() + 1, insert.len().saturating_sub(1), 0]);
                    insert = self.random.octets(length);
                }
                5 => {
                    let length = self.random.pick(&[0, 1, 3, 4, 5]);
                    ocf = self.random.octets(length);
                }
                6 => area_length = self.random.pick(&[self.setting.frame_length - 1, 0, self.setting.frame_length]),
                _ => {
                    let frames = batch.len().div_ceil(zone) as u64;
                    let next = self.random.pick(&[frames, frames + 1, frames.saturating_sub(1), 32_767]);
                    self.set_next(lane, next);
                }
            }
        }
        if let Some(frame) = self.write(named, &batch, &insert, &ocf, area_length) {
            self.read_line(&frame);
        }
        if self.random.percent(60) {
            self.set_next(lane, 0);
        }
        self.open[lane] = None;
    }

    /// The longest batch there is, or one octet more; few frames of it, since each line repeats it.
    fn great_batch(&mut self) {
        let Some(lane) = self.setting.lanes.iter().position(|lane| lane.kind == Kind::Packet) else { return };
        let longest = self.setting.lanes[lane].longest as usize;
        let mut batch = Vec::new();
        let wanted = LONGEST_BATCH + self.random.below(2) as usize;
        while batch.len() < wanted {
            let left = wanted - batch.len();
            // Leave room for a last packet, or none.
            let length = if left <= longest { left } else { longest.min(left - 2) };
            batch.extend(packet(&mut self.random, length.max(2), false));
        }
        let frames = batch.len().div_ceil(self.zone_of(lane)) as u64;
        let (insert, ocf) = (self.insert_octets(), self.ocf_octets(lane));
        for next in [frames - 1, frames, self.random.below(frames)] {
            self.set_next(lane, next);
            if let Some(frame) = self.write(lane as u64, &batch, &insert, &ocf, self.setting.frame_length) {
                self.read_line(&frame);
            }
        }
        self.set_next(lane, 0);
        self.open[lane] = None;
    }

    // States

    fn set_next(&mut self, lane: usize, number: u64) {
        self.writer.next[lane] = number;
        self.line(&format!("next {lane} {number}"));
    }

    fn set_count(&mut self, channel: usize, number: u64) {
        self.writer.counts[channel] = number;
        self.line(&format!("count {channel} {number}"));
    }

    fn writer_state(&mut self) {
        let lane = self.any_lane();
        let channel = self.setting.lanes[lane].channel;
        let modulus = self.setting.channels[channel].modulus();
        if self.random.percent(70) {
            let any = self.random.below(modulus);
            let count = self.random.pick(&[0, 1, modulus - 1, modulus - 1, modulus - 2, any, any, 255 % modulus]);
            let beyond = self.random.pick(&[modulus, modulus + 1, u64::MAX]);
            let count = if self.random.one_in(8) { beyond } else { count };
            self.set_count(channel, count);
        } else {
            let next = self.random.pick(&[0, 1, 1, 2, 3, 32_767, 32_768, 65_535]);
            self.set_next(lane, next);
        }
    }

    fn reader_state(&mut self) {
        let lane = self.any_lane();
        let channel = self.setting.lanes[lane].channel;
        let modulus = self.setting.channels[channel].modulus();
        match self.random.below(13) {
            0 => self.expect_line(channel, None),
            1 => {
                // Not valid: a read is refused 1, and then the state is put right.
                let flag = self.random.below(2);
                let number = self.random.pick(&[modulus, modulus, modulus + 1, u64::MAX]);
                self.line(&format!("expect {channel} {flag} {number}"));
                self.read_some_frame();
                self.expect_line(channel, Some(modulus - 1));
            }
            2 => {
                let longest = self.setting.lanes[lane].longest as usize;
                if longest <= 700 || self.random.one_in(8) {
                    let octets = self.random.octets(longest);
                    self.held_line(lane, &octets);
                    self.read_some_frame();
                    self.held_line(lane, &octets[..longest - 1]);
                } else {
                    let great = self.great_kept();
                    let number = self.random.pick(&[longest as u64, longest as u64 + 1, great.max(8_192)]);
                    self.line(&format!("hold {lane} {number}"));
                    self.read_some_frame();
                    let span = self.span_words(longest as u64 - 1);
                    self.line(&format!("hold {lane} {}{span}", longest - 1));
                    self.read_some_frame();
                    self.held_line(lane, &[]);
                }
            }
            3..=5 => {
                let any = self.random.below(modulus);
                let expected = self.random.pick(&[0, modulus - 1, self.writer.counts[channel] % modulus, any]);
                self.expect_line(channel, Some(expected));
            }
            6..=8 => self.wrong_span(lane),
            _ => {
                let octets = self.held_octets(lane);
                self.held_line(lane, &octets);
            }
        }
    }

    /// A span that does not fit what the lane holds, or nearly so: a read is refused 1, and then the state is put right.
    fn wrong_span(&mut self, lane: usize) {
        let octets = self.held_octets(lane);
        let held = octets.len() as u64;
        let great = self.great_kept();
        // A number of which the low octet alone would fit.
        let low_fits = held + (1 << 8);
        let above = self.random.pick(&[held, held + 1, held + 1, held + 1, held + 2, low_fits, great]);
        let (octets, span) = match self.random.below(3) {
            0 => (&octets[..], above),
            1 => (&octets[..], 0),
            _ => (&octets[..0], self.random.pick(&[1, 1, 2, great])),
        };
        self.line(&format!("held {lane} {} {span}", hex(octets)));
        self.read_some_frame();
        self.held_line(lane, octets);
        self.read_some_frame();
    }

    /// A lane is made to hold octets, with a span that fits them.
    fn held_line(&mut self, lane: usize, octets: &[u8]) {
        let span = self.span_words(octets.len() as u64);
        self.line(&format!("held {lane} {}{span}", hex(octets)));
    }

    /// The end of a line that says a span, or says none: from one frame to one for each octet.
    fn span_words(&mut self, held: u64) -> String {
        let any = self.random.below(held.max(1)) + held.min(1);
        match self.random.pick(&[None, Some(held.min(1)), Some(held.min(2)), Some(held), Some(any), Some(any)]) {
            Some(span) => format!(" {span}"),
            None => String::new(),
        }
    }

    /// Octets of every kind that a lane may be said to hold, fewer than its longest.
    fn held_octets(&mut self, lane: usize) -> Vec<u8> {
        let zone = self.zone_of(lane);
        let longest = self.setting.lanes[lane].longest as usize;
        let limit = longest - 1;
        let mut octets = match self.setting.lanes[lane].kind {
            Kind::Access => {
                let near = limit.saturating_sub(self.random.below(zone as u64 + 2) as usize);
                let length = self.random.pick(&[0, 1, limit, near, limit.min(20)]);
                let affordable = if length > 700 && !self.random.one_in(8) { 20 } else { length };
                self.random.octets(affordable)
            }
            Kind::Packet => {
                let (packet, cut) = self.cut_packet(longest, zone);
                packet[..cut].to_vec()
            }
        };
        octets.truncate(limit);
        octets
    }

    /// A packet of any kind, and where it is cut: anywhere, or after its last octet.
    fn cut_packet(&mut self, longest: usize, zone: usize) -> (Vec<u8>, usize) {
        let random = &mut self.random;
        let mut octets = odd_packet(random, longest, zone);
        if octets.len() > 1500 && !random.one_in(4) {
            // What is there says that it is longer.
            octets.truncate(random.between(7, 60) as usize);
        }
        let last = octets.len() as u64;
        let anywhere = random.between(1, last);
        let before_end = last - random.below(last.min(8));
        let head = random.between(1, 9).min(last);
        let cut = random.pick(&[head, head, head, anywhere, anywhere, before_end, last]);
        (octets, cut as usize)
    }

    // Reading

    fn some_frame(&mut self) -> Vec<u8> {
        if self.frames.is_empty() {
            let lane = self.any_lane();
            let zone = self.zone_of(lane);
            let zone_octets = vec![IDLE_OCTET; zone];
            return self.lane_frame(lane, 0, 0, NO_POINTER, &zone_octets);
        }
        let place = self.random.below(self.frames.len() as u64) as usize;
        self.frames[place].clone()
    }

    fn read_some_frame(&mut self) {
        let frame = self.some_frame();
        self.read_line(&frame);
    }

    /// One octet changed, or some at the end gone or more.
    fn damage(&mut self, frame: &[u8]) -> Vec<u8> {
        let mut damaged = frame.to_vec();
        match self.random.below(10) {
            0 => damaged.truncate(frame.len() - 1),
            1 => damaged.truncate(self.random.below(frame.len() as u64) as usize),
            2 => damaged.push(0),
            3 => {
                let more = self.random.between(1, 40) as usize;
                damaged.extend(self.random.octets(more));
            }
            _ => {
                let near_head = self.random.below(frame.len().min(16) as u64);
                let anywhere = self.random.below(frame.len() as u64);
                let place = self.random.pick(&[near_head, anywhere]) as usize;
                let bit = 1 << self.random.below(8);
                damaged[place] ^= self.random.pick(&[bit, bit, 0xFF]);
            }
        }
        damaged
    }

    fn damaged_read(&mut self) {
        let frame = self.some_frame();
        let damaged = self.damage(&frame);
        self.read_line(&damaged);
    }

    /// A look that no read of the frame follows, so that what it may have changed shows in a call of another frame.
    fn look_alone(&mut self) {
        let frame = self.some_frame();
        let frame = if self.random.percent(70) { self.forge_fields(frame) } else { frame };
        self.look_lines(&frame);
    }

    fn good_or_bad_frame(&mut self) -> Vec<u8> {
        let frame = self.some_frame();
        match self.random.below(4) {
            0 => self.damage(&frame),
            1 => self.forge_fields(frame),
            _ => frame,
        }
    }

    /// Areas of other lengths, mostly after a look, which is lent none and says what the frame is all the same.
    fn odd_area_read(&mut self) {
        let frame = self.good_or_bad_frame();
        let units = self.random.pick(&[UNIT_AREA, UNIT_AREA - 1, UNIT_AREA + 1, 0]);
        // The last two are what was asked for before there were encapsulation packets, and before records had 24 octets.
        let records = self.random.pick(&[
            RECORD_AREA,
            RECORD_AREA,
            RECORD_AREA,
            RECORD_AREA,
            RECORD_AREA - 1,
            RECORD_AREA + RECORD,
            0,
            14_400,
            9_600,
        ]);
        let held = self.random.pick(&[HELD_AREA, HELD_AREA, HELD_AREA - 1, HELD_AREA + 1, 0]);
        if self.random.percent(60) {
            self.look_lines(&frame);
        }
        self.calls += 1;
        let line = format!("read {} {units} {records} {held}", hex(&frame));
        self.line(&line);
    }

    /// Puts the check right where there is one, most of the time.
    fn seal(&mut self, frame: &mut [u8]) {
        if self.setting.check && !self.random.one_in(25) {
            put_frame_check(frame);
        }
    }

    fn forged_field_read(&mut self) {
        let frame = self.some_frame();
        let forged = self.forge_fields(frame);
        self.read_line(&forged);
    }

    /// A written frame with one field, sometimes two, set to other values.
    fn forge_fields(&mut self, mut frame: Vec<u8>) -> Vec<u8> {
        let mut header = Header::from_octets(&frame);
        let count_length = usize::from(header.count_length);
        for _ in 0..self.random.pick(&[1, 1, 1, 2]) {
            self.forge_header_field(&mut header);
        }
        frame[..7].copy_from_slice(&header.to_octets());
        let data_field = 7 + count_length + self.setting.insert as usize;
        match self.random.below(10) {
            0 => frame[data_field] = self.random.octet(),
            1 => frame[data_field] ^= self.random.pick(&[0x20, 0x40, 0x60, 0x80, 0x01, 0x10]),
            2..=3 => {
                let any = self.random.next() as u16;
                let near = self.random.below(64) as u16;
                let pointer = self.random.pick(&[0, near, near, 0xFFFF, 0xFFFE, any]);
                frame[data_field + 1..data_field + 3].copy_from_slice(&pointer.to_be_bytes());
            }
            4 => {
                let octets = self.random.octets(count_length);
                frame[7..7 + count_length].copy_from_slice(&octets);
            }
            _ => {}
        }
        self.seal(&mut frame);
        frame
    }

    fn forge_header_field(&mut self, header: &mut Header) {
        let random = &mut self.random;
        let other = random.below(self.setting.channels.len() as u64) as usize;
        let other_lane = random.below(self.setting.lanes.len() as u64) as usize;
        // Fields that little else forges come more often.
        match random.below(26) {
            0 | 16 | 22 => header.version = random.below(16) as u8,
            1 => header.spacecraft ^= 1 << random.below(16),
            2 => header.destination = !header.destination,
            3 => header.virtual_channel = random.below(64) as u8,
            4 | 18 => header.virtual_channel = 63,
            5 => header.virtual_channel = self.setting.channels[other].virtual_channel as u8,
            6 => header.map = random.below(16) as u8,
            7 => header.map = self.setting.lanes[other_lane].map as u8,
            8 | 17 | 23 => header.end_of_header = true,
            9 | 24 => {
                let any = random.next() as u16;
                header.length = random.pick(&[header.length.wrapping_add(1), header.length.wrapping_sub(1), any]);
            }
            10 => header.bypass = !header.bypass,
            11 => {
                header.command = true;
                header.bypass |= random.percent(70);
            }
            12 => header.spare = random.below(4) as u8,
            13 | 19 | 21 => header.ocf = !header.ocf,
            14 | 20 | 25 => header.count_length = random.below(8) as u8,
            _ => {}
        }
    }

    /// A frame of a lane from its parts, sealed for certain; `rule` in its three bits.
    fn lane_frame(&mut self, lane: usize, count: u64, rule: u8, pointer: u16, zone: &[u8]) -> Vec<u8> {
        let insert = self.insert_octets();
        let ocf = self.ocf_octets(lane);
        let lane = &self.setting.lanes[lane];
        let channel = &self.setting.channels[lane.channel];
        let header = Header {
            version: 0b1100,
            spacecraft: self.setting.spacecraft as u16,
            destination: self.setting.destination,
            virtual_channel: channel.virtual_channel as u8,
            map: lane.map as u8,
            end_of_header: false,
            length: (self.setting.frame_length - 1) as u16,
            bypass: channel.service == 1,
            command: false,
            spare: 0,
            ocf: channel.ocf,
            count_length: channel.count_length as u8,
        };
        let mut frame = header.to_octets().to_vec();
        frame.extend(&count.to_be_bytes()[8 - channel.count_length as usize..]);
        frame.extend(insert);
        frame.push(rule << 5 | lane.upid as u8);
        frame.extend(pointer.to_be_bytes());
        frame.extend(zone);
        frame.extend(ocf);
        if self.setting.check {
            frame.extend([0, 0]);
            put_frame_check(&mut frame);
        }
        frame
    }

    /// A count for a forged frame, and mostly the reader made to expect it.
    fn aligned_count(&mut self, channel: usize) -> u64 {
        let modulus = self.setting.channels[channel].modulus();
        let any = self.random.below(modulus);
        let count = self.random.pick(&[0, modulus - 1, modulus - 2, any, any]);
        match self.random.below(20) {
            0 => {}
            1 => self.expect_line(channel, None),
            // A repeat.
            2..=3 => self.expect_line(channel, Some((count + 1) % modulus)),
            _ => self.expect_line(channel, Some(count)),
        }
        count
    }

    /// A lane made to hold octets, then frames that carry them on (or do not).
    fn forged_lane_read(&mut self) {
        let lane = self.any_lane();
        match self.setting.lanes[lane].kind {
            Kind::Packet => self.forged_packet_read(lane),
            Kind::Access => self.forged_access_read(lane),
        }
    }

    fn forged_packet_read(&mut self, lane: usize) {
        let zone = self.zone_of(lane);
        let longest = self.setting.lanes[lane].longest as usize;
        let channel = self.setting.lanes[lane].channel;
        let modulus = self.setting.channels[channel].modulus();
        let (packet, cut) = self.cut_packet(longest, zone);
        let cut = cut.min(longest - 1);
        let mut rest = &packet[cut..];
        if self.random.percent(85) {
            self.held_line(lane, &packet[..cut]);
        } else {
            self.held_line(lane, &[]);
        }
        let mut count = self.aligned_count(channel);
        for _ in 0..3 {
            let part = rest.len().min(zone);
            let mut octets = rest[..part].to_vec();
            octets.extend(packet_stream(&mut self.random, longest, zone, zone - part));
            let pointer = if part < zone { part as u16 } else { NO_POINTER };
            let pointer = self.moved_pointer(pointer, zone);
            let frame = self.lane_frame(lane, count, 0, pointer, &octets);
            self.read_line(&frame);
            rest = &rest[part..];
            count = (count + 1) % modulus;
            if self.random.one_in(3) || zone > 700 {
                break;
            }
        }
    }

    /// A packet of any kind that begins with a few octets at the end of a zone and goes on in the zones after it, as a writer
    /// would send it. Mostly nothing else is held.
    fn split_read(&mut self) {
        let packet_lanes: Vec<usize> =
            (0..self.setting.lanes.len()).filter(|&lane| self.setting.lanes[lane].kind == Kind::Packet).collect();
        if packet_lanes.is_empty() {
            return;
        }
        let lane = self.random.pick(&packet_lanes);
        let zone = self.zone_of(lane);
        let longest = self.setting.lanes[lane].longest as usize;
        let channel = self.setting.lanes[lane].channel;
        let modulus = self.setting.channels[channel].modulus();
        if self.random.percent(80) {
            self.held_line(lane, &[]);
        }
        let octets = odd_packet(&mut self.random, longest, zone);
        let first = (self.random.between(1, 9) as usize).min(zone).min(octets.len());
        let mut rest = &octets[first..];
        let mut count = self.aligned_count(channel);
        let begin = zone - first;
        let before = self.random.below(begin as u64 + 1) as usize;
        let pointer = self.random.pick(&[begin, begin, before]);
        let mut zone_octets = vec![IDLE_OCTET; begin];
        zone_octets.extend(&octets[..first]);
        let frame = self.lane_frame(lane, count, 0, pointer as u16, &zone_octets);
        self.read_line(&frame);
        for _ in 0..self.random.pick(&[1, 2, 4, 9]) {
            count = (count + 1) % modulus;
            let part = rest.len().min(zone);
            let mut zone_octets = rest[..part].to_vec();
            zone_octets.extend(packet_stream(&mut self.random, longest, zone, zone - part));
            let pointer = if part < zone { part as u16 } else { NO_POINTER };
            let frame = self.lane_frame(lane, count, 0, pointer, &zone_octets);
            self.read_line(&frame);
            rest = &rest[part..];
            if rest.is_empty() || zone > 700 {
                break;
            }
        }
    }

    /// The pointer as it is, mostly; else a near or far one.
    fn moved_pointer(&mut self, pointer: u16, zone: usize) -> u16 {
        if self.random.percent(65) {
            return pointer;
        }
        let any = self.random.below(zone as u64) as u16;
        let last = (zone - 1) as u16;
        self.random.pick(&[
            0,
            0,
            pointer.wrapping_add(1),
            pointer.wrapping_sub(1),
            any,
            any,
            last,
            zone as u16,
            NO_POINTER,
            NO_POINTER,
            NO_POINTER - 1,
        ])
    }

    fn forged_access_read(&mut self, lane: usize) {
        let zone = self.zone_of(lane);
        let channel = self.setting.lanes[lane].channel;
        let modulus = self.setting.channels[channel].modulus();
        let octets = self.held_octets(lane);
        self.held_line(lane, &octets);
        let mut count = self.aligned_count(channel);
        for _ in 0..3 {
            let rule = self.random.pick(&[1, 2, 2, 2, 2, 2]);
            let rule = if self.random.one_in(20) { self.random.below(8) as u8 } else { rule };
            let any = self.random.below(zone as u64) as u16;
            let last = (zone - 1) as u16;
            // Where the unit would reach its lane's longest.
            let left = (self.setting.lanes[lane].longest as usize).saturating_sub(octets.len()).min(zone) as u16;
            let pointer = self.random.pick(&[NO_POINTER, NO_POINTER, any, last, left, left.saturating_sub(1), 0]);
            let zone_octets = self.random.octets(zone);
            let frame = self.lane_frame(lane, count, rule, pointer, &zone_octets);
            self.read_line(&frame);
            count = (count + 1) % modulus;
            if self.random.one_in(3) || zone > 700 {
                break;
            }
        }
    }

    /// Frames that are counted or idle: another map, a command, virtual channel 63; and random octets.
    fn other_frame_read(&mut self) {
        let lane = self.any_lane();
        let zone = self.zone_of(lane);
        let channel = self.setting.lanes[lane].channel;
        let octets = self.held_octets(lane);
        self.held_line(lane, &octets);
        let count = self.aligned_count(channel);
        let zone_octets = self.random.octets(zone);
        let any = self.random.next() as u16;
        let rule = self.random.below(8) as u8;
        let mut frame = self.lane_frame(lane, count, rule, any, &zone_octets);
        let mut header = Header::from_octets(&frame);
        match self.random.below(4) {
            0 => header.map = self.random.below(16) as u8,
            1 => {
                header.command = true;
                header.bypass |= self.random.one_in(2);
            }
            2 => {
                header.virtual_channel = 63;
                header.count_length = self.random.below(8) as u8;
                header.ocf = self.random.one_in(2);
                header.bypass = self.random.one_in(2);
                header.command = self.random.one_in(4);
            }
            _ => {
                // Only the length is right.
                let length = frame.len();
                frame = self.random.octets(length);
                header = Header::from_octets(&frame);
                header.version = 0b1100;
                header.spacecraft = self.setting.spacecraft as u16;
                header.destination = self.setting.destination;
                header.end_of_header = self.random.one_in(4);
                header.length = (length - 1) as u16;
                header.spare = self.random.pick(&[0, 0, 0, 1]);
            }
        }
        frame[..7].copy_from_slice(&header.to_octets());
        self.seal(&mut frame);
        self.read_line(&frame);
    }
}
