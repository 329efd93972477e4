//! `second sample SEED FOLDER`: files for `unpack` and `pack`, good and bad. The same seed always makes the same files.

use std::fs;
use std::path::Path;

use crate::frame::{put_big_endian, put_frame_check};
use crate::packet::{HEADERS, IDLE_OCTET, LENGTH_FIELDS};
use crate::random::{
    edge_packet, good_batch, high_count, packet, space_packet, unreadable_octet, valid_setting, Random,
};
use crate::setting::{Channel, Kind, Setting};
use crate::text::setting_to_lines;
use crate::writer::{Lent, Writer};

/// Count lengths: short ones, so that counts wrap, and one with room for counts above 2^32.
const COUNT_LENGTHS: [u64; 5] = [1, 1, 1, 2, 7];

/// The files: `setting`; `recording`; `insert` and `ocf`; `lane0` and so on for `pack`, and `list0` and so on of those
/// that have a list of lengths. The lines of `words` are its words after the setting; those of `without` are options of
/// `unpack`.
pub fn write_sample(seed: u64, folder: &str) -> Result<(), String> {
    let mut random = Random::new(seed);
    let setting = valid_setting(&mut random, &COUNT_LENGTHS);
    let insert = random.octets(setting.insert as usize);
    let ocf = random.octets(4);
    let recording = recording(&mut random, &setting, &insert, &ocf);
    let mut words = vec!["insert=insert".to_string(), "ocf=ocf".to_string()];
    put(folder, "setting", setting_text(&mut random, &setting).as_bytes())?;
    put(folder, "recording", &recording)?;
    put(folder, "insert", &insert)?;
    put(folder, "ocf", &ocf)?;
    for lane in 0..setting.lanes.len() {
        words.push(format!("{lane}=lane{lane}"));
        if setting.lanes[lane].kind == Kind::Access && random.one_in(2) {
            let (units, list) = listed_file(&mut random, &setting, lane);
            put(folder, &format!("lane{lane}"), &units)?;
            put(folder, &format!("list{lane}"), list.as_bytes())?;
            words.push(format!("lengths=list{lane}"));
        } else {
            put(folder, &format!("lane{lane}"), &lane_file(&mut random, &setting, lane))?;
        }
    }
    if random.one_in(2) {
        let place = random.between(0, words.len() as u64) as usize;
        words.insert(place, "--interleave".to_string());
    }
    spoil_words(&mut random, &mut words);
    put(folder, "words", (words.join("\n") + "\n").as_bytes())?;
    put(folder, "without", without(&mut random, &setting).as_bytes())
}

/// Options that leave virtual channels out: none, one or two, a line each. Mostly listed ones; now and then one that is
/// not, or a word that is no option.
fn without(random: &mut Random, setting: &Setting) -> String {
    let mut lines = String::new();
    for _ in 0..random.below(3) {
        let place = random.below(setting.channels.len() as u64) as usize;
        let listed = setting.channels[place].virtual_channel;
        lines += &match random.below(40) {
            0 => format!("--without={}\n", random.below(63)),
            1 => "--without=63\n".to_string(),
            2 => random.pick(&["--without\n", "--without=\n", "--without=007\n", "--without=+1\n"]).to_string(),
            3..=9 => format!("--without={listed:02}\n"),
            _ => format!("--without={listed}\n"),
        };
    }
    lines
}

fn put(folder: &str, name: &str, octets: &[u8]) -> Result<(), String> {
    let path = Path::new(folder).join(name);
    fs::write(&path, octets).map_err(|error| format!("{}: {error}", path.display()))
}

/// The setting's lines in another order, with comments and blanks that say nothing; one in four with something wrong.
fn setting_text(random: &mut Random, setting: &Setting) -> String {
    let mut lines: Vec<String> = setting_to_lines(setting).lines().map(str::to_string).collect();
    // The five single facts come anywhere; channels stay before lanes.
    for fact in 0..5 {
        let line = lines.remove(0);
        let place = random.between(4 - fact, lines.len() as u64) as usize;
        lines.insert(place, line);
    }
    if random.one_in(4) {
        spoil_lines(random, &mut lines);
    }
    let mut text = String::new();
    for line in lines {
        if random.one_in(6) {
            text += random.pick(&["\n", "# a comment\n", " \t \r\n", "#\n", "  # frame length 9\n"]);
        }
        text += &line.replace(' ', random.pick(&[" ", " ", "  ", "\t", " \t ", "\r"]));
        text += random.pick(&["\n", "\n", "\r\n", " \n", " # said\n", "#\n"]);
    }
    if random.one_in(5) {
        text.pop();
    }
    // Carriage returns in the place of line feeds, and a byte order mark: a text with them is judged like any other.
    if random.one_in(32) {
        text = text.replace('\n', "\r");
    }
    if random.one_in(32) {
        text.insert(0, '\u{feff}');
    }
    text
}

/// Something wrong with one line, or nearly so: the programs judge.
fn spoil_lines(random: &mut Random, lines: &mut Vec<String>) {
    let place = random.below(lines.len() as u64) as usize;
    match random.below(7) {
        0 => {
            lines.remove(place);
        }
        1 => lines.push(lines[place].clone()),
        2 => lines[place] += random.pick(&[" more", " 1", " no"]),
        3 => {
            let words: Vec<&str> = lines[place].split(' ').collect();
            lines[place] = words[..words.len() - 1].join(" ");
        }
        4 => lines[place] = lines[place].replacen(['e', 'a'], "x", 1),
        5 => {
            let number =
                random.pick(&["00000000000000000000007", "99999999999999999999", "4097", "63", "256", "0", "-1"]);
            lines[place] = lines[place]
                .split(' ')
                .map(|word| if word.bytes().all(|octet| octet.is_ascii_digit()) { number } else { word })
                .collect::<Vec<&str>>()
                .join(" ");
        }
        _ => lines.swap(place, 0),
    }
}

/// A lane's file for `pack`, of both families of packets or of one unit: good, and one in eight with something wrong near
/// its end.
fn lane_file(random: &mut Random, setting: &Setting, lane: usize) -> Vec<u8> {
    let zone = setting.zone_length(&setting.channels[setting.lanes[lane].channel]) as usize;
    let described = &setting.lanes[lane];
    let mut octets = good_batch(random, described, zone);
    if described.kind == Kind::Packet {
        for _ in 0..random.below(4) {
            octets.extend(good_batch(random, described, zone));
        }
        if random.one_in(6) {
            // More than one batch has room for.
            while octets.len() < 40_000 {
                octets.extend(packet(random, described.longest as usize, false));
            }
        }
    }
    if random.one_in(8) {
        match described.kind {
            Kind::Packet => spoil_packets(random, described.longest as usize, &mut octets),
            Kind::Access if random.one_in(4) => octets.clear(),
            Kind::Access => octets.resize(described.longest as usize + 1, 7),
        }
    }
    octets
}

/// Something wrong at the end of a file of packets, or nearly so: the programs judge.
fn spoil_packets(random: &mut Random, longest: usize, octets: &mut Vec<u8>) {
    match random.below(7) {
        0 => octets.push(IDLE_OCTET),
        1 => octets.truncate(octets.len() - 1),
        2 => octets.extend(packet(random, longest.min(40), true)),
        3 => octets.extend(packet(random, longest + 1, false)),
        4 => octets.push(unreadable_octet(random)),
        5 => octets.extend(edge_packet(random, longest)),
        // Too long a packet where the longest is below 7.
        _ => octets.extend(space_packet(random, 7, false)),
    }
    if random.one_in(4) {
        octets.extend(packet(random, longest.min(9), false));
    }
}

/// Units of an access lane back to back and the list of their lengths: good, and one in eight with something wrong.
fn listed_file(random: &mut Random, setting: &Setting, lane: usize) -> (Vec<u8>, String) {
    let described = &setting.lanes[lane];
    let zone = setting.zone_length(&setting.channels[described.channel]) as usize;
    let mut units = Vec::new();
    let mut list = String::new();
    for _ in 0..random.between(0, 60) {
        let unit = good_batch(random, described, zone);
        list += random.pick(&["", "0", "00"]);
        list += &unit.len().to_string();
        list += random.pick(&["\n", "\n", " ", "\r\n", "\t \n\n"]);
        units.extend(unit);
    }
    if random.one_in(8) {
        match random.below(5) {
            0 => units.push(1),
            1 => list += "0\n",
            2 => list += &format!("{}\n", described.longest + 1),
            3 => list += random.pick(&["x", "1,1", "-1", "1x"]),
            _ => {
                units.pop();
            }
        }
    }
    (units, list)
}

fn spoil_words(random: &mut Random, words: &mut Vec<String>) {
    if random.one_in(10) {
        let wrong = random.pick(&[
            "insert=insert",
            "8=lane0",
            "x=lane0",
            "lane0",
            "0=no_such_file",
            "ocf=recording",
            "=lane0",
            "lengths=lane0",
            "--none",
        ]);
        words.push(wrong.to_string());
    }
}

/// Frames of several lanes in turn, of which some are gone, there several times, damaged, idle or too short.
fn recording(random: &mut Random, setting: &Setting, insert: &[u8], ocf: &[u8]) -> Vec<u8> {
    let Ok(mut writer) = Writer::fresh(setting) else { return Vec::new() };
    for (count, channel) in writer.counts.iter_mut().zip(&setting.channels) {
        if random.one_in(3) {
            // Near the wrap: the first frame may have the highest count.
            *count = channel.modulus() - random.between(1, 10);
        } else if let Some(high) = high_count(random, channel) {
            *count = high;
        }
    }
    let mut open: Vec<Option<Vec<u8>>> = vec![None; setting.lanes.len()];
    let mut octets = Vec::new();
    let mut frame = vec![0; setting.frame_length as usize];
    for _ in 0..random.between(0, 120) {
        let lane = random.below(setting.lanes.len() as u64) as usize;
        let channel = &setting.channels[setting.lanes[lane].channel];
        let zone = setting.zone_length(channel) as usize;
        let batch = open[lane].take().unwrap_or_else(|| good_batch(random, &setting.lanes[lane], zone));
        let ocf = if channel.ocf { ocf } else { &[] };
        let lent = Lent { lane: lane as u64, batch: &batch, insert, ocf };
        if writer.write(&lent, &mut frame).is_err() {
            continue;
        }
        if writer.next[lane] != 0 {
            open[lane] = Some(batch);
        }
        if setting.lanes[lane].kind == Kind::Packet && random.one_in(4) {
            other_fill(random, setting, channel, &mut frame);
        }
        add_frame(random, setting, &frame, &mut octets);
    }
    if random.one_in(4) {
        octets.truncate(octets.len() - octets.len().min(random.between(1, setting.frame_length - 1) as usize));
    }
    octets
}

/// Idle packets of other sizes in the place of the idle octets that end a zone: the last one ends with it, or goes on.
fn other_fill(random: &mut Random, setting: &Setting, channel: &Channel, frame: &mut [u8]) {
    let begin = setting.zone_place(channel);
    let zone = &mut frame[begin..begin + setting.zone_length(channel)];
    let fill = zone.iter().rev().take_while(|octet| **octet == IDLE_OCTET).count();
    let first = zone.len() - fill;
    let mut rest = &mut zone[first..];
    while !rest.is_empty() {
        let length_of_length = random.below(4) as usize;
        let header = HEADERS[length_of_length];
        if header > rest.len() {
            break;
        }
        let some = header as u64 + random.below(20);
        let all = rest.len() as u64;
        let total = random.pick(&[some, some, all, all, all, all + 1]).min(255);
        rest[0] = IDLE_OCTET | length_of_length as u8;
        put_big_endian(&mut rest[header - LENGTH_FIELDS[length_of_length]..header], total);
        let size = if length_of_length == 0 { 1 } else { total as usize };
        rest = &mut rest[size.min(all as usize)..];
    }
    check_anew(setting, frame);
}

fn add_frame(random: &mut Random, setting: &Setting, frame: &[u8], octets: &mut Vec<u8>) {
    let mut sent = frame.to_vec();
    match random.below(26) {
        0 | 1 => return,
        2 | 3 => octets.extend(frame.repeat(random.between(1, 3) as usize)),
        4 => {
            // A frame from a little before once more; where it is of another channel, it may be the last one there.
            let before = octets.chunks(frame.len()).rev().nth(random.below(3) as usize).map(<[u8]>::to_vec);
            octets.extend(before.unwrap_or_default());
        }
        5 => {
            // Damage that the frame check sees, where there is one.
            let place = random.below(sent.len() as u64) as usize;
            sent[place] ^= 1 << random.below(8);
        }
        6 => {
            // Virtual channel 63: bits 21 to 26.
            sent[2] |= 0b0000_0111;
            sent[3] |= 0b1110_0000;
            check_anew(setting, &mut sent);
        }
        7 => {
            // Another map, in most settings one of no lane; half the time after the frame itself, whose count it has.
            if random.one_in(2) {
                octets.extend(frame);
            }
            sent[3] ^= 0b0001_1110 & random.octet();
            check_anew(setting, &mut sent);
        }
        8 => {
            // Octets of the zone, lengths of packets among them.
            let place = random.below(sent.len() as u64 - 10) as usize + 10;
            sent[place] = random.octet();
            check_anew(setting, &mut sent);
        }
        _ => {}
    }
    octets.extend(sent);
}

fn check_anew(setting: &Setting, frame: &mut [u8]) {
    if setting.check {
        put_frame_check(frame);
    }
}
