//! The archive's programs (PROGRAMS.md): `unpack` and `pack`.

use std::collections::VecDeque;
use std::fs::{self, File};
use std::io::{self, BufReader, BufWriter, Read, Write};
use std::os::fd::AsFd;
use std::os::unix::fs::MetadataExt;

use crate::frame::big_endian;
use crate::packet::{measure, whole_packet, Family, Measure};
use crate::reader::{Answer, Areas, Class, Look, Reader, HELD_AREA, RECORD, RECORD_AREA, UNIT_AREA};
use crate::setting::{Kind, Lane, Setting};
use crate::text::{decimal, setting_from_file, LONGEST_SETTING_FILE};
use crate::writer::{Lent, Writer, LONGEST_BATCH};

fn load_setting(path: &str) -> Result<Setting, String> {
    let mut octets = Vec::new();
    File::open(path)
        .and_then(|file| file.take(LONGEST_SETTING_FILE + 1).read_to_end(&mut octets))
        .map_err(|error| format!("{path}: {error}"))?;
    if octets.len() as u64 > LONGEST_SETTING_FILE {
        return Err(format!("{path}: more than {LONGEST_SETTING_FILE} octets"));
    }
    setting_from_file(&octets).map_err(|wrong| format!("{path}: {wrong}"))
}

fn said(error: io::Error) -> String {
    error.to_string()
}

// unpack

/// The words for each refusal number from 1 on.
const REFUSAL_WORDS: [&str; 12] = [
    "setting or state not valid",
    "an area is too short",
    "frame is not F octets",
    "frame check differs",
    "version is not 1100",
    "spacecraft or source-or-destination bit differs",
    "end-of-header flag is 1",
    "length field is not F - 1, spare bits not 00, or control command with bypass 0",
    "virtual channel not 63 and, with this service, not listed",
    "count length not the channel's",
    "OCF flag not the channel's",
    "map in a lane of that channel, command bit 0, and rule or UPID not that lane's, \
     or pointer neither below Z nor FFFF",
];

#[derive(Clone, Default)]
struct LaneTotals {
    frames: u64,
    units: u64,
    octets: u64,
}

#[derive(Clone, Default)]
struct ChannelTotals {
    frames: u64,
    /// One frame can miss almost 2^56; the sum stops at 2^64 - 1.
    missing: u64,
}

#[derive(Default)]
struct Totals {
    frames: u64,
    read: u64,
    counted: u64,
    idle_frames: u64,
    repeat: u64,
    refused: u64,
    left: u64,
    units: u64,
    octets: u64,
    idle: u64,
    fill: u64,
    dropped: u64,
    lanes: Vec<LaneTotals>,
    channels: Vec<ChannelTotals>,
    /// By number, from 1 on.
    refusals: [u64; REFUSAL_WORDS.len()],
}

impl Totals {
    fn add(&mut self, answer: &Answer) {
        self.frames += 1;
        match answer.class {
            Class::Read => self.read += 1,
            Class::Counted => self.counted += 1,
            Class::Idle => self.idle_frames += 1,
            Class::Repeat => self.repeat += 1,
            Class::Refused(number) => {
                self.refused += 1;
                self.refusals[usize::from(number) - 1] += 1;
            }
        }
        self.units += answer.units;
        self.octets += answer.octets;
        self.idle += answer.idle;
        self.fill += answer.fill;
        self.dropped += answer.dropped;
        if let Some(channel) = answer.channel {
            self.channels[channel].frames += 1;
            self.channels[channel].missing = self.channels[channel].missing.saturating_add(answer.missing);
        }
        if let Some(lane) = answer.lane {
            self.lanes[lane].frames += 1;
            self.lanes[lane].units += answer.units;
            self.lanes[lane].octets += answer.octets;
        }
    }

    /// A frame that is left out is no lane's and no channel's: it is not taken.
    fn leave(&mut self) {
        self.frames += 1;
        self.left += 1;
    }

    fn print(&self, reader: &Reader, out: &mut impl Write) -> io::Result<()> {
        for (lane, totals) in self.lanes.iter().enumerate() {
            writeln!(out, "lane {lane} frames {} units {} octets {}", totals.frames, totals.units, totals.octets)?;
        }
        for (channel, totals) in reader.setting.channels.iter().zip(&self.channels) {
            writeln!(
                out,
                "channel {} service {} frames {} missing {}",
                channel.virtual_channel, channel.service, totals.frames, totals.missing
            )?;
        }
        for (before, (frames, words)) in self.refusals.iter().zip(REFUSAL_WORDS).enumerate() {
            if *frames != 0 {
                writeln!(out, "refused {} frames {frames}: {words}", before + 1)?;
            }
        }
        writeln!(
            out,
            "total frames {} read {} counted {} idle {} repeat {} refused {} left {} units {} octets {} idle {} fill {} \
             dropped {} held {}",
            self.frames,
            self.read,
            self.counted,
            self.idle_frames,
            self.repeat,
            self.refused,
            self.left,
            self.units,
            self.octets,
            self.idle,
            self.fill,
            self.dropped,
            reader.held.iter().sum::<usize>(),
        )
    }
}

/// A lane's number, `-` for none.
fn lane_word(lane: Option<usize>) -> String {
    lane.map_or("-".to_string(), |lane| lane.to_string())
}

fn print_answer(number: u64, answer: &Answer, out: &mut impl Write) -> io::Result<()> {
    let (class, where_or_why) = match answer.class {
        Class::Idle => ("idle", lane_word(None)),
        Class::Counted => ("counted", lane_word(None)),
        Class::Read => ("read", lane_word(answer.lane)),
        Class::Repeat => ("repeat", lane_word(None)),
        Class::Refused(refusal) => ("refused", refusal.to_string()),
    };
    writeln!(
        out,
        "{number} {class} {where_or_why} {} {} {} {} {} {}",
        answer.units, answer.octets, answer.missing, answer.idle, answer.fill, answer.dropped
    )
}

/// The line of a frame that is left out: all that is known of it is what the look said.
fn print_left(number: u64, look: &Look, out: &mut impl Write) -> io::Result<()> {
    writeln!(out, "{number} left {} 0 0 {} 0 0 0", lane_word(look.lane), look.missing)
}

/// The recording's next F octets, fewer at its end, none past it.
fn next_frame(recording: &mut impl Read, frame_length: usize) -> io::Result<Option<Vec<u8>>> {
    let mut frame = Vec::with_capacity(frame_length);
    recording.take(frame_length as u64).read_to_end(&mut frame)?;
    Ok(if frame.is_empty() { None } else { Some(frame) })
}

fn create(path: String) -> Result<BufWriter<File>, String> {
    File::create(&path).map(BufWriter::new).map_err(|error| format!("{path}: {error}"))
}

/// The title of the table of units.
pub const UNITS_TITLE: &str = "lane,offset,length,frame,count,apid,sequence,span,family";

/// The line of a unit in the table: of a lane of this kind, from this octet of the lane's file on, finished by frame
/// `number`. Only a Space Packet has an APID and a sequence count, and an access unit is of no family.
pub fn unit_line(kind: Kind, offset: u64, number: u64, record: &[u8], unit: &[u8]) -> String {
    let (lane, length) = (record[0], unit.len());
    let (count, span) = (big_endian(&record[12..20]), big_endian(&record[20..24]));
    let begin = format!("{lane},{offset},{length},{number},{count}");
    match (kind, measure(unit)) {
        (Kind::Packet, Measure::Packet { family: Family::Space, .. }) => {
            let (application, sequence) = (big_endian(&unit[..2]) % 2048, big_endian(&unit[2..4]) % 16384);
            format!("{begin},{application},{sequence},{span},space")
        }
        (Kind::Packet, _) => format!("{begin},,,{span},encapsulation"),
        (Kind::Access, _) => format!("{begin},,,{span},"),
    }
}

/// The table of units that `--units` asks for.
struct UnitTable {
    file: BufWriter<File>,
    /// How many octets each lane's file has.
    written: Vec<u64>,
}

impl UnitTable {
    fn new(path: String, lanes: usize) -> Result<UnitTable, String> {
        let mut file = create(path)?;
        writeln!(file, "{UNITS_TITLE}").map_err(said)?;
        Ok(UnitTable { file, written: vec![0; lanes] })
    }

    /// The units of frame `number`, which lane `lane` of this kind read.
    fn add(&mut self, number: u64, lane: usize, kind: Kind, records: &[u8], units: &[u8]) -> io::Result<()> {
        let mut rest = units;
        for record in records.chunks(RECORD) {
            let (unit, later) = rest.split_at(big_endian(&record[8..12]) as usize);
            rest = later;
            writeln!(self.file, "{}", unit_line(kind, self.written[lane], number, record, unit))?;
            self.written[lane] += unit.len() as u64;
        }
        Ok(())
    }
}

/// What the options of `unpack` ask for.
struct UnpackOptions {
    lines: bool,
    table: bool,
    /// The virtual channels whose frames are left out.
    without: Vec<u64>,
}

impl UnpackOptions {
    fn parse(words: &[&String]) -> Result<UnpackOptions, String> {
        let mut options = UnpackOptions { lines: true, table: false, without: Vec::new() };
        for word in words {
            match (word.as_str(), left_out_by(word)) {
                ("--totals", _) => options.lines = false,
                ("--units", _) => options.table = true,
                (_, Some(virtual_channel)) => options.without.push(virtual_channel),
                _ => return Err(format!("{word}: is no option")),
            }
        }
        Ok(options)
    }

    /// Each virtual channel that is left out has to be a listed one; the lowest that is not is told.
    fn judge(&self, setting: &Setting) -> Result<(), String> {
        let listed = |virtual_channel: u64| setting.channels.iter().any(|c| c.virtual_channel == virtual_channel);
        match self.without.iter().filter(|&&virtual_channel| !listed(virtual_channel)).min() {
            Some(lowest) => Err(format!("--without={lowest}: the setting lists no such virtual channel")),
            None => Ok(()),
        }
    }

    /// Whether a frame is not to be taken. Idle and refused frames have no channel, and stay what they are.
    fn leaves(&self, setting: &Setting, look: &Look) -> bool {
        look.channel.is_some_and(|place| self.without.contains(&setting.channels[place].virtual_channel))
    }
}

/// The virtual channel, 0 to 62 in one digit or two, that `--without=V` names.
fn left_out_by(word: &str) -> Option<u64> {
    let digits = word.strip_prefix("--without=").filter(|digits| digits.len() <= 2)?;
    decimal(digits).ok().filter(|&virtual_channel| virtual_channel <= 62)
}

pub fn unpack(arguments: &[String]) -> Result<(), String> {
    let (words, names): (Vec<&String>, Vec<&String>) = arguments.iter().partition(|word| word.starts_with("--"));
    let options = UnpackOptions::parse(&words)?;
    let [setting_path, recording_path, prefix] = names[..] else {
        return Err("usage: unpack [--totals] [--units] [--without=V] .. SETTING RECORDING PREFIX".to_string());
    };
    let setting = load_setting(setting_path)?;
    options.judge(&setting)?;
    let file = File::open(recording_path).map_err(|error| format!("{recording_path}: {error}"))?;
    let mut recording = BufReader::new(file);
    let mut lane_files = Vec::new();
    for lane in 0..setting.lanes.len() {
        lane_files.push(create(format!("{prefix}.lane{lane}"))?);
    }
    let mut records_file = create(format!("{prefix}.records"))?;
    let mut unit_table = match options.table {
        true => Some(UnitTable::new(format!("{prefix}.units.csv"), setting.lanes.len())?),
        false => None,
    };
    let mut out = BufWriter::new(io::stdout().lock());

    let mut reader = Reader::fresh(&setting).map_err(|_| "the setting is not valid")?;
    let (mut held, mut units, mut records) = (vec![0; HELD_AREA], vec![0; UNIT_AREA], vec![0; RECORD_AREA]);
    let mut totals = Totals {
        lanes: vec![LaneTotals::default(); setting.lanes.len()],
        channels: vec![ChannelTotals::default(); setting.channels.len()],
        ..Totals::default()
    };
    if options.lines {
        writeln!(out, "frame answer lane units octets missing idle fill dropped").map_err(said)?;
    }
    while let Some(frame) = next_frame(&mut recording, setting.frame_length as usize).map_err(said)? {
        let look = reader.look(&frame);
        if options.leaves(&setting, &look) {
            if options.lines {
                print_left(totals.frames, &look, &mut out).map_err(said)?;
            }
            totals.leave();
            continue;
        }
        let mut areas = Areas { held: &mut held, units: &mut units, records: &mut records };
        let answer = reader.read(&frame, &mut areas);
        if options.lines {
            print_answer(totals.frames, &answer, &mut out).map_err(said)?;
        }
        if let Some(lane) = answer.lane {
            let units = &units[..answer.octets as usize];
            let records = &records[..answer.units as usize * RECORD];
            lane_files[lane].write_all(units).map_err(said)?;
            records_file.write_all(records).map_err(said)?;
            if let Some(table) = &mut unit_table {
                table.add(totals.frames, lane, setting.lanes[lane].kind, records, units).map_err(said)?;
            }
        }
        totals.add(&answer);
    }
    totals.print(&reader, &mut out).map_err(said)?;
    for file in &mut lane_files {
        file.flush().map_err(said)?;
    }
    records_file.flush().map_err(said)?;
    if let Some(table) = &mut unit_table {
        table.file.flush().map_err(said)?;
    }
    out.flush().map_err(said)
}

// pack

/// A lane's file, and the list of the lengths of its units where it has one.
struct LaneFile {
    lane: u64,
    path: String,
    lengths: Option<String>,
}

/// What the command line of `pack` names after the setting.
#[derive(Default)]
struct PackPlan {
    lane_files: Vec<LaneFile>,
    insert_file: Option<String>,
    ocf_file: Option<String>,
}

fn lane_of(setting: &Setting, lane: u64) -> Option<&Lane> {
    usize::try_from(lane).ok().and_then(|place| setting.lanes.get(place))
}

fn pack_plan(setting: &Setting, interleave: bool, arguments: &[&String]) -> Result<PackPlan, String> {
    let mut plan = PackPlan::default();
    let mut may_list = false;
    for argument in arguments {
        let (name, path) = argument.split_once('=').ok_or_else(|| format!("{argument}: expected LANE=FILE"))?;
        let path = path.to_string();
        let could_list = may_list;
        may_list = false;
        let twice = match name {
            "insert" => plan.insert_file.replace(path).is_some(),
            "ocf" => plan.ocf_file.replace(path).is_some(),
            "lengths" => {
                let file = plan.lane_files.last_mut().filter(|_| could_list);
                file.ok_or_else(|| format!("{argument}: not after an access lane's file"))?.lengths = Some(path);
                false
            }
            _ => {
                let lane = decimal(name).map_err(|expected| format!("{argument}: expected {expected}"))?;
                let Some(listed) = lane_of(setting, lane) else { return Err(format!("{argument}: no such lane")) };
                may_list = listed.kind == Kind::Access;
                let before = plan.lane_files.iter().any(|file| file.lane == lane);
                plan.lane_files.push(LaneFile { lane, path, lengths: None });
                interleave && before
            }
        };
        if twice {
            return Err(format!("{argument}: said twice"));
        }
    }
    Ok(plan)
}

/// No file that is read may be standard output, and one that is read twice has to be a regular file.
fn may_be_read(path: &str, twice: bool) -> Result<(), String> {
    let file = fs::metadata(path).map_err(|error| format!("{path}: {error}"))?;
    if !file.is_file() {
        return if twice { Err(format!("{path}: not a regular file")) } else { Ok(()) };
    }
    let out = io::stdout().as_fd().try_clone_to_owned().and_then(|out| File::from(out).metadata()).map_err(said)?;
    if (file.dev(), file.ino()) == (out.dev(), out.ino()) {
        return Err(format!("{path}: standard output is this file"));
    }
    Ok(())
}

/// Zeros, or the octets of a file that has exactly as many.
fn fixed_octets(path: &Option<String>, length: usize) -> Result<Vec<u8>, String> {
    let Some(path) = path else { return Ok(vec![0; length]) };
    may_be_read(path, false)?;
    let octets = fs::read(path).map_err(|error| format!("{path}: {error}"))?;
    if octets.len() == length {
        Ok(octets)
    } else {
        Err(format!("{path}: expected {length} octets, found {}", octets.len()))
    }
}

/// How many octets at the start of `rest` are the next batch: as many whole packets as fit. Where there is not
/// even one, all the rest is a batch, and the writer refuses it.
fn gathered(rest: &[u8]) -> usize {
    let mut length = 0;
    while let Some(packet) = whole_packet(&rest[length..]) {
        if length + packet > LONGEST_BATCH {
            break;
        }
        length += packet;
    }
    if length == 0 {
        rest.len()
    } else {
        length
    }
}

/// The units' lengths: decimal numbers with blanks or line feeds between them, a number and what is blank before it
/// below 256 octets.
fn lengths(path: &str) -> Result<Vec<usize>, String> {
    may_be_read(path, true)?;
    let text = fs::read(path).map_err(|error| format!("{path}: {error}"))?;
    let mut lengths = Vec::new();
    let mut place = 0;
    loop {
        let is_blank = |octet: &u8| b" \n\r\t".contains(octet);
        let blanks = text[place..].iter().take_while(|octet| is_blank(octet)).count();
        let word = text[place + blanks..].iter().take_while(|octet| !is_blank(octet)).count();
        let word = &text[place + blanks..place + blanks + word];
        if blanks + word.len() >= 256 || !word.iter().all(u8::is_ascii_digit) {
            return Err(format!("{path}: octet {}: not a length", place + blanks));
        }
        if word.is_empty() {
            return Ok(lengths);
        }
        place += blanks + word.len();
        // No file is as long as a number that does not fit.
        let number =
            word.iter().fold(0usize, |number, digit| number.saturating_mul(10).saturating_add((digit - b'0').into()));
        lengths.push(number);
    }
}

/// The units of an access lane's file, back to back as the list says, and exactly all of it.
fn listed_units(file: &[u8], path: &str, lengths: &[usize], longest: usize) -> Result<Vec<Vec<u8>>, String> {
    let mut units = Vec::new();
    let mut rest = file;
    for &length in lengths {
        if length == 0 || length > longest || length > rest.len() {
            return Err(format!("{path}: a unit of {length} octets"));
        }
        let (unit, later) = rest.split_at(length);
        units.push(unit.to_vec());
        rest = later;
    }
    if rest.is_empty() {
        Ok(units)
    } else {
        Err(format!("{path}: {} octets after the last unit", rest.len()))
    }
}

fn packet_batches(file: &[u8]) -> Vec<Vec<u8>> {
    let mut batches = Vec::new();
    let mut rest = file;
    while !rest.is_empty() {
        let (batch, later) = rest.split_at(gathered(rest));
        batches.push(batch.to_vec());
        rest = later;
    }
    batches
}

/// The batches of a lane's file, in order.
fn batches(setting: &Setting, file: &LaneFile) -> Result<Vec<Vec<u8>>, String> {
    let LaneFile { lane, path, lengths: list } = file;
    may_be_read(path, true)?;
    let octets = fs::read(path).map_err(|error| format!("{path}: {error}"))?;
    let Some(listed) = lane_of(setting, *lane) else { return Err(format!("{path}: refused 13")) };
    match (listed.kind, list) {
        (Kind::Packet, _) => Ok(packet_batches(&octets)),
        (Kind::Access, None) => Ok(vec![octets]),
        (Kind::Access, Some(list)) => listed_units(&octets, path, &lengths(list)?, listed.longest as usize),
    }
}

/// The words that are options, which may stand anywhere, and the others.
fn options(arguments: &[String]) -> (Vec<&String>, Vec<&String>) {
    arguments.iter().partition(|word| word.starts_with("--"))
}

pub fn pack(arguments: &[String]) -> Result<(), String> {
    let (asked, names) = options(arguments);
    if let Some(unknown) = asked.iter().find(|word| word.as_str() != "--interleave") {
        return Err(format!("{unknown}: no such option"));
    }
    let interleave = !asked.is_empty();
    let Some((setting_path, named)) = names.split_first() else {
        return Err("usage: pack SETTING LANE=FILE ..".to_string());
    };
    let setting_path = if setting_path.as_str() == "-" { "/dev/stdin" } else { setting_path.as_str() };
    may_be_read(setting_path, false)?;
    let setting = load_setting(setting_path)?;
    let plan = pack_plan(&setting, interleave, named)?;
    if plan.lane_files.is_empty() {
        return Err("usage: pack SETTING LANE=FILE ..".to_string());
    }
    let insert = fixed_octets(&plan.insert_file, setting.insert as usize)?;
    let ocf = fixed_octets(&plan.ocf_file, 4)?;
    let mut writer = Writer::fresh(&setting).map_err(|_| "the setting is not valid")?;
    let mut waiting = Vec::new();
    for file in &plan.lane_files {
        let batches = batches(&setting, file)?;
        waiting.push((file.lane, VecDeque::from(batches)));
    }
    let mut frames = Vec::new();
    if interleave {
        // A frame of each file in turn.
        while waiting.iter().any(|(_, batches)| !batches.is_empty()) {
            for (lane, batches) in &mut waiting {
                pack_frame(&mut writer, *lane, batches, &insert, &ocf, &mut frames)?;
            }
        }
    } else {
        for (lane, batches) in &mut waiting {
            while !batches.is_empty() {
                pack_frame(&mut writer, *lane, batches, &insert, &ocf, &mut frames)?;
            }
        }
    }
    // Nothing is written where anything is refused.
    let mut out = io::stdout().lock();
    out.write_all(&frames).and_then(|()| out.flush()).map_err(said)
}

/// The next frame of a lane's first batch, if it has one; a batch that is worked off is gone.
fn pack_frame(
    writer: &mut Writer,
    lane: u64,
    batches: &mut VecDeque<Vec<u8>>,
    insert: &[u8],
    ocf: &[u8],
    out: &mut Vec<u8>,
) -> Result<(), String> {
    let Some(batch) = batches.front() else { return Ok(()) };
    let listed = lane_of(&writer.setting, lane).ok_or("refused 13")?;
    let ocf = if writer.setting.channels[listed.channel].ocf { ocf } else { &[] };
    let mut frame = vec![0; writer.setting.frame_length as usize];
    let lent = Lent { lane, batch, insert, ocf };
    writer.write(&lent, &mut frame).map_err(|number| format!("lane {lane}: a batch is refused {number}"))?;
    out.extend(&frame);
    if writer.next[lane as usize] == 0 {
        batches.pop_front();
    }
    Ok(())
}
