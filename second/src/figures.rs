//! `second measure`: the work that docs/FIGURES.md counts, and the input for it. The work is the frame check, reads or
//! writes of frames from standard input, or no work at all, for them to be held against.

use std::hint::black_box;
use std::io::{self, BufWriter, Read, Write};

use crate::frame::frame_check;
use crate::random::Random;
use crate::reader::{Areas, Reader, HELD_AREA, RECORD_AREA, UNIT_AREA};
use crate::setting::{Channel, Kind, Lane, Setting};
use crate::text::decimal;
use crate::writer::{Lent, Writer, LONGEST_BATCH};

pub const USAGE: &str = "usage: second measure pass|batches|check|read|write LENGTH yes|no
       second measure packets BATCHES
       second measure frames LENGTH yes|no COUNT";

/// OCF, no insert zone, a count of 3 octets, one packet lane; with frame check or without. The compiler does not know it.
fn setting(length: u64, check: bool) -> Setting {
    black_box(Setting {
        frame_length: length,
        spacecraft: 42,
        destination: false,
        insert: 0,
        check,
        channels: vec![Channel { virtual_channel: 3, service: 0, count_length: 3, ocf: true }],
        lanes: vec![Lane { channel: 0, map: 5, kind: Kind::Packet, longest: 8_192, upid: 0 }],
    })
}

/// A sum of low halves.
fn plus(a: u64, b: u64) -> u64 {
    (a & 0xFFFF_FFFF) + (b & 0xFFFF_FFFF)
}

/// A full batch: packets of 64 to 1,024 octets, the last as long as is left.
fn batch(random: &mut Random) -> Vec<u8> {
    let mut batch = Vec::with_capacity(LONGEST_BATCH);
    while batch.len() < LONGEST_BATCH {
        let left = LONGEST_BATCH - batch.len();
        let length = if left <= 1_100 { left } else { random.between(64, 1_024) as usize };
        let mut packet = random.octets(length);
        packet[..2].copy_from_slice(&(random.below(2_047) as u16).to_be_bytes());
        packet[4..6].copy_from_slice(&(length as u16 - 7).to_be_bytes());
        batch.extend_from_slice(&packet);
    }
    batch
}

/// The last of the first n octets, or 0.
fn last(area: &[u8], n: usize) -> u64 {
    if n == 0 {
        0
    } else {
        u64::from(area[n - 1])
    }
}

fn next(input: &mut impl Read, area: &mut [u8]) -> bool {
    input.read_exact(area).is_ok()
}

/// Frames of a batch to `each`, one after another.
fn write_batch(writer: &mut Writer, batch: &[u8], area: &mut [u8], mut each: impl FnMut(&[u8])) -> Result<(), String> {
    loop {
        let lent = Lent { lane: 0, batch, insert: &[], ocf: &[0; 4] };
        writer.write(&lent, area).map_err(|number| format!("refused {number}"))?;
        each(area);
        if writer.next[0] == 0 {
            return Ok(());
        }
    }
}

fn fresh_writer(length: u64, check: bool) -> Result<Writer, String> {
    Writer::fresh(&setting(length, check)).map_err(|_| "the setting is not valid".to_string())
}

fn work(word: &str, length: u64, check: bool) -> Result<(u64, u64), String> {
    let mut input = io::stdin().lock();
    let mut area = vec![0; length as usize];
    let (mut frames, mut sum) = (0, 0);
    match word {
        "pass" | "batches" => {
            if word == "batches" {
                area = vec![0; LONGEST_BATCH];
            }
            while next(&mut input, &mut area) {
                sum = plus(sum, last(&area, 1));
                frames += 1;
            }
        }
        "check" => {
            while next(&mut input, &mut area) {
                sum = plus(sum, u64::from(frame_check(&area)));
                frames += 1;
            }
        }
        "read" => {
            let mut reader = Reader::fresh(&setting(length, check)).map_err(|_| "the setting is not valid")?;
            let (mut held, mut units, mut records) = (vec![0; HELD_AREA], vec![0; UNIT_AREA], vec![0; RECORD_AREA]);
            while next(&mut input, &mut area) {
                let mut areas = Areas { held: &mut held, units: &mut units, records: &mut records };
                let a = reader.read(&area, &mut areas);
                let counted = plus(plus(a.units, a.octets), plus(a.idle, a.dropped));
                sum = plus(sum, plus(counted, plus(a.missing, last(&units, a.octets as usize))));
                frames += 1;
            }
        }
        "write" => {
            let mut writer = fresh_writer(length, check)?;
            let mut batch = vec![0; LONGEST_BATCH];
            while next(&mut input, &mut batch) {
                write_batch(&mut writer, &batch, &mut area, |frame| {
                    sum = plus(sum, plus(last(frame, frame.len() / 2), last(frame, frame.len())));
                    frames += 1;
                })?;
            }
        }
        _ => return Err(USAGE.to_string()),
    }
    Ok((frames, sum))
}

fn put_packets(batches: u64, out: &mut impl Write) -> io::Result<()> {
    let mut random = Random::new(1);
    for _ in 0..batches {
        out.write_all(&batch(&mut random))?;
    }
    out.flush()
}

fn put_frames(length: u64, check: bool, count: u64, out: &mut impl Write) -> Result<(), String> {
    let mut random = Random::new(1);
    let mut writer = fresh_writer(length, check)?;
    let mut area = vec![0; length as usize];
    let mut left = count;
    while left > 0 {
        let batch = batch(&mut random);
        let mut written = Vec::new();
        write_batch(&mut writer, &batch, &mut area, |frame| {
            if left > 0 {
                written.extend_from_slice(frame);
                left -= 1;
            }
        })?;
        out.write_all(&written).map_err(|error| error.to_string())?;
    }
    out.flush().map_err(|error| error.to_string())
}

fn yes(word: &str) -> Result<bool, String> {
    match word {
        "yes" => Ok(true),
        "no" => Ok(false),
        _ => Err(USAGE.to_string()),
    }
}

pub fn run(arguments: &[String]) -> Result<(), String> {
    let words: Vec<&str> = arguments.iter().map(String::as_str).collect();
    let mut out = BufWriter::new(io::stdout().lock());
    match words[..] {
        ["packets", batches] => put_packets(decimal(batches)?, &mut out).map_err(|error| error.to_string()),
        ["frames", length, check, count] => put_frames(decimal(length)?, yes(check)?, decimal(count)?, &mut out),
        [word, length, check] => {
            let (frames, sum) = work(word, decimal(length)?, yes(check)?)?;
            writeln!(out, "frames {frames} sum {sum}").map_err(|error| error.to_string())
        }
        _ => Err(USAGE.to_string()),
    }
}
