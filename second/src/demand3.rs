//! `second demand3`: random runs of demand 3 as a script, and what a program made of it, held directly.
//!
//! Two fresh ends. Batches on several lanes are worked off, interleaved; those of a packet lane mix both families of packets
//! (document 02, A5). A frame is sent once or several times running (A3): between two copies no other frame of its channel
//! is sent, but frames of other channels may be. Some copies are removed or replaced by octets that the reader refuses, and
//! a frame of which no copy is kept is gone. Each lane must then give out exactly the units of which no frame is gone, where
//! "of which" means every frame of the lane's channel from the one where the unit begins to the one where it ends. A unit's
//! record has the count of the frame where it ends, whole, and its span: the number of the lane's frames from the one where
//! it begins to that one (A2).
//!
//! In some runs there are frames that no lane reads: idle ones, and those of another sender on a channel, who takes the
//! writer's count and leaves it with the next (`count`). Fresh ends count from 0, and no run is long enough to count past
//! 2^32: where counts are to be so high another sender was there first, and all of those frames are gone.
//!
//! A kept copy is what the program that obeys the script wrote itself. Where another frame was written since, the script
//! has to say its octets; they are this program's, and that they are what the other one wrote is held too. Neither a reader
//! of this program nor what measures its packets has a part in the verdict: what is due follows from the units of the
//! batches, Z, the frames and which of them are gone.

use crate::calls::setting_lines;
use crate::frame::{big_endian, put_big_endian, put_frame_check, Header};
use crate::random::{good_units, high_count, valid_setting, Random};
use crate::reader::RECORD;
use crate::setting::Setting;
use crate::text::{hex, unhex};
use crate::writer::{Lent, Writer};

/// The script of all runs.
pub fn script(seed: u64, count: u64) -> String {
    let mut random = Random::new(seed);
    let mut text = format!("# second demand3 {seed} {count}\n");
    for number in 0..count {
        text += &Run::new(&mut random, number).script;
    }
    text
}

/// Holds what a program printed for that script against the demand; an error is the first difference.
pub fn check(seed: u64, count: u64, printed: &str) -> Result<String, String> {
    let mut random = Random::new(seed);
    let mut calls = printed.split_inclusive('\n').filter(|line| {
        line.starts_with(|c: char| c.is_ascii_digit()) || {
            let word = line.split(' ').next().unwrap_or("");
            word == "units" || word == "records" || word == "frame"
        }
    });
    let (mut units, mut frames) = (0, 0);
    for number in 0..count {
        let mut run = Run::new(&mut random, number);
        run.hear(&mut calls).and_then(|()| run.compare()).map_err(|difference| {
            format!("run {number} of seed {seed}: {difference}\n{}", setting_lines(&run.writer.setting))
        })?;
        units += run.handed_out.iter().map(Vec::len).sum::<usize>();
        frames += run.heard;
    }
    match calls.next() {
        Some(line) => Err(format!("more was printed than was asked for: {line}")),
        None => Ok(format!("{count} runs, {frames} calls, {units} units, ok")),
    }
}

/// What the script asked for, where demand 3 looks at the answer.
enum Call {
    /// A good write, of this channel.
    Write(usize),
    /// Octets read: what is due, and where the script said the octets of a frame that was written before, which they are.
    Read { due: Due, said: Option<Said> },
}

/// What a read has to be.
#[derive(Clone, Copy)]
enum Due {
    /// The first copy that is kept of a frame of this lane.
    Units(usize),
    /// The first copy that is kept of a frame that no lane reads.
    Counted,
    /// Any other copy.
    Repeat,
    Idle,
    Refused,
}

/// Octets that have to be those of the frame that was written last on this channel.
struct Said {
    channel: usize,
    octets: Vec<u8>,
}

/// A batch being worked off: its units, packets of both families mixed or one access unit, and where its frames stand among
/// its channel's.
struct Batch {
    units: Vec<Vec<u8>>,
    octets: Vec<u8>,
    places: Vec<usize>,
}

impl Batch {
    fn new(units: Vec<Vec<u8>>) -> Batch {
        Batch { octets: units.concat(), units, places: Vec::new() }
    }
}

/// A unit whose last frame is written; `first` and `last` are places among the channel's frames, and `span` is how many of
/// its lane's frames carry it.
struct Sent {
    octets: Vec<u8>,
    first: usize,
    last: usize,
    span: u64,
}

/// A unit as handed out, with the count and the span in its record.
#[derive(PartialEq, Debug)]
struct Given {
    octets: Vec<u8>,
    count: u64,
    span: u64,
}

/// The frame that was sent last on a channel.
struct OnLink {
    octets: Vec<u8>,
    /// The lane that reads it.
    lane: Option<usize>,
    /// No copy of it is ever kept.
    gone: bool,
    /// A copy was kept.
    kept: bool,
}

/// How frames of a run are lost.
#[derive(Clone, Copy)]
enum Loss {
    None,
    Percent(u64),
    /// Long rows of frames of one channel, up to the most that is allowed.
    Rows,
    /// Rows of the most that is allowed, and no others.
    Edge,
}

impl Loss {
    /// How many frames are gone before the first one that is kept. There may be any number, and at the edge it is often so
    /// many that the first one has the highest count.
    fn first_row(self, random: &mut Random) -> u64 {
        match self {
            Loss::Edge => random.pick(&[0, 255, 255, 300]),
            _ => 0,
        }
    }

    /// One in so many copies that are lost is replaced by octets that the reader refuses; in long rows fewer are.
    fn replaced(self) -> u64 {
        match self {
            Loss::Edge => 8,
            _ => 2,
        }
    }
}

/// How often frames of a run are sent.
#[derive(Clone, Copy)]
struct Copies {
    /// As many copies as one of these says come right after each other.
    at_once: &'static [u64],
    /// So many of a hundred copies are lost, of frames that are not gone.
    lost: u64,
    /// So many of a hundred steps send a copy of a frame that was sent before.
    late: u64,
}

/// Once; each frame twice on a link that loses none; three times on one that does; now and then, some copies late; late
/// alone.
const COPIES: [Copies; 5] = [
    Copies { at_once: &[1], lost: 0, late: 0 },
    Copies { at_once: &[2], lost: 0, late: 0 },
    Copies { at_once: &[3], lost: 30, late: 0 },
    Copies { at_once: &[0, 1, 1, 2, 3], lost: 25, late: 30 },
    Copies { at_once: &[0], lost: 10, late: 50 },
];

struct Run {
    script: String,
    calls: Vec<Call>,
    writer: Writer,
    loss: Loss,
    copies: Copies,
    /// Whether there are frames among them that no lane reads.
    others: bool,
    steps: u64,
    open: Vec<Option<Batch>>,
    sent: Vec<Vec<Sent>>,
    handed_out: Vec<Vec<Given>>,
    /// For each channel, how many frames another sender sent there before the first of these.
    before: Vec<u64>,
    /// For each channel, whether its frames, in order, are gone.
    gone: Vec<Vec<bool>>,
    /// For each channel, how many are gone since the last kept one (none kept yet: no limit).
    gone_since_kept: Vec<Option<u64>>,
    /// For each channel, how many more are to go.
    row: Vec<u64>,
    /// For each channel, the frame that was sent last.
    link: Vec<Option<OnLink>>,
    /// The channel whose frame on the link is the one that was written last, and so the one that `keep` reads.
    in_area: Option<usize>,
    /// Calls whose answers were heard.
    heard: usize,
}

/// A setting of one channel whose counts have one octet, so that the edge is soon reached, and short frames.
fn edge_setting(random: &mut Random) -> Setting {
    loop {
        let setting = valid_setting(random, &[1]);
        if setting.channels.len() == 1 && setting.frame_length < 100 {
            return setting;
        }
    }
}

impl Run {
    /// Every tenth run is at the edge.
    fn new(random: &mut Random, number: u64) -> Run {
        if number % 10 == 9 {
            let setting = edge_setting(random);
            return Run::of(random, setting, Loss::Edge, 900);
        }
        let setting = valid_setting(random, &[1, 1, 1, 1, 2, 3, 5, 7]);
        let light = random.between(1, 5);
        let heavy = random.between(10, 60);
        let loss =
            random.pick(&[Loss::None, Loss::Percent(light), Loss::Percent(light), Loss::Percent(heavy), Loss::Rows]);
        let short = random.between(5, 60);
        let long = random.between(300, 900);
        let cheap = setting.frame_length < 200;
        let steps = if cheap { random.pick(&[short, short, short, long]) } else { short };
        Run::of(random, setting, loss, steps)
    }

    fn of(random: &mut Random, setting: Setting, loss: Loss, steps: u64) -> Run {
        let channels = setting.channels.len();
        let lanes = setting.lanes.len();
        let mut run = Run {
            script: setting_lines(&setting) + "begin\n",
            calls: Vec::new(),
            writer: Writer::fresh(&setting).expect("a generated setting is valid"),
            loss,
            copies: random.pick(&COPIES),
            others: random.one_in(3),
            steps,
            open: (0..lanes).map(|_| None).collect(),
            sent: (0..lanes).map(|_| Vec::new()).collect(),
            handed_out: (0..lanes).map(|_| Vec::new()).collect(),
            before: vec![0; channels],
            gone: vec![Vec::new(); channels],
            gone_since_kept: vec![None; channels],
            row: vec![loss.first_row(random); channels],
            link: (0..channels).map(|_| None).collect(),
            in_area: None,
            heard: 0,
        };
        run.count_high(random);
        run.go(random);
        run
    }

    /// Another sender went before, on some of the channels whose counts have room for it.
    fn count_high(&mut self, random: &mut Random) {
        for channel in 0..self.before.len() {
            if let Some(count) = high_count(random, &self.writer.setting.channels[channel]) {
                self.before[channel] = count;
                self.writer.counts[channel] = count;
                self.script += &format!("count {channel} {count}\n");
            }
        }
    }

    fn setting(&self) -> &Setting {
        &self.writer.setting
    }

    fn go(&mut self, random: &mut Random) {
        for _ in 0..self.steps {
            let lane = random.below(self.setting().lanes.len() as u64) as usize;
            let channel = self.setting().lanes[lane].channel;
            if random.percent(self.copies.late) {
                self.send_copy(random, channel);
            } else if self.others && random.one_in(8) {
                self.send_other(random);
            } else {
                self.deliver(channel);
                let frame = self.write(random, lane);
                self.in_area = Some(channel);
                self.send(random, channel, Some(lane), frame);
            }
        }
        self.end(random);
    }

    /// A new frame of the channel, with the copies that come right after each other.
    fn send(&mut self, random: &mut Random, channel: usize, lane: Option<usize>, octets: Vec<u8>) {
        let gone = self.is_to_go(random, channel);
        self.gone[channel].push(gone);
        self.link[channel] = Some(OnLink { octets, lane, gone, kept: false });
        for _ in 0..random.pick(self.copies.at_once) {
            self.send_copy(random, channel);
        }
    }

    /// A copy of the channel's last frame: kept, or lost, or replaced.
    fn send_copy(&mut self, random: &mut Random, channel: usize) {
        let Some(sent) = &self.link[channel] else { return };
        if !sent.gone && !random.percent(self.copies.lost) {
            self.keep(channel);
        } else if random.one_in(self.loss.replaced()) {
            let octets = sent.octets.clone();
            self.refuse(random, &octets);
        }
    }

    /// A copy of the channel's last frame is kept. Only what was written last can be read from the frame area.
    fn keep(&mut self, channel: usize) {
        let Some(sent) = &mut self.link[channel] else { return };
        let due = match (sent.kept, sent.lane) {
            (true, _) => Due::Repeat,
            (false, Some(lane)) => Due::Units(lane),
            (false, None) => Due::Counted,
        };
        sent.kept = true;
        if self.in_area == Some(channel) {
            self.script += &format!("keep {}\n", sent.octets.len());
            self.calls.push(Call::Read { due, said: None });
        } else {
            let octets = sent.octets.clone();
            let said = sent.lane.map(|_| Said { channel, octets: octets.clone() });
            self.read(&octets, due, said);
        }
    }

    fn read(&mut self, octets: &[u8], due: Due, said: Option<Said>) {
        self.script += &format!("read {}\n", hex(octets));
        self.calls.push(Call::Read { due, said });
    }

    /// The last copy of the channel's last frame before another frame is sent there: one that is not gone has to be kept.
    fn deliver(&mut self, channel: usize) {
        if self.link[channel].as_ref().is_some_and(|sent| !sent.gone && !sent.kept) {
            self.keep(channel);
        }
    }

    /// The run ends before some frames were kept: they are gone.
    fn end(&mut self, random: &mut Random) {
        for channel in 0..self.link.len() {
            if random.one_in(2) {
                self.deliver(channel);
            }
            if let (Some(sent), Some(gone)) = (&self.link[channel], self.gone[channel].last_mut()) {
                *gone = !sent.kept;
            }
        }
    }

    /// A frame that no lane reads: another sender's, of any listed channel, or an idle one.
    fn send_other(&mut self, random: &mut Random) {
        let channel = random.below(self.setting().channels.len() as u64) as usize;
        let mut header = self.other_header(random, channel);
        if random.one_in(3) {
            header.virtual_channel = 63;
            header.command = false;
            let frame = self.other_frame(random, channel, &header);
            self.read(&frame, Due::Idle, None);
            return;
        }
        self.deliver(channel);
        let frame = self.other_frame(random, channel, &header);
        if self.in_area == Some(channel) {
            self.in_area = None;
        }
        let next = (self.writer.counts[channel] + 1) % self.setting().channels[channel].modulus();
        self.writer.counts[channel] = next;
        self.script += &format!("count {channel} {next}\n");
        self.send(random, channel, None, frame);
    }

    /// A command, where the service has any, or a map that is in no lane of the channel; there are more maps than lanes.
    fn other_header(&self, random: &mut Random, channel: usize) -> Header {
        let setting = self.setting();
        let listed = &setting.channels[channel];
        let maps: Vec<u64> = (0..16).filter(|&map| setting.find_lane(channel, map).is_none()).collect();
        let command = listed.service == 1 && random.one_in(2);
        let map = if command { random.below(16) } else { random.pick(&maps) };
        Header {
            version: 0b1100,
            spacecraft: setting.spacecraft as u16,
            destination: setting.destination,
            virtual_channel: listed.virtual_channel as u8,
            map: map as u8,
            end_of_header: false,
            length: (setting.frame_length - 1) as u16,
            bypass: listed.service == 1,
            command,
            spare: 0,
            ocf: listed.ocf,
            count_length: listed.count_length as u8,
        }
    }

    /// The channel's next count behind a header, and then any octets.
    fn other_frame(&self, random: &mut Random, channel: usize, header: &Header) -> Vec<u8> {
        let mut frame = random.octets(self.setting().frame_length as usize);
        frame[..7].copy_from_slice(&header.to_octets());
        put_big_endian(&mut frame[7..7 + usize::from(header.count_length)], self.writer.counts[channel]);
        if self.setting().check {
            put_frame_check(&mut frame);
        }
        frame
    }

    /// Writes the lane's next frame, of a new batch where none is open.
    fn write(&mut self, random: &mut Random, lane: usize) -> Vec<u8> {
        let listed = self.setting().lanes[lane].clone();
        let channel = self.setting().channels[listed.channel].clone();
        let zone = self.setting().zone_length(&channel);
        let mut batch = self.open[lane].take().unwrap_or_else(|| Batch::new(good_units(random, &listed, zone)));
        let insert = random.octets(self.setting().insert as usize);
        let ocf = random.octets(if channel.ocf { 4 } else { 0 });
        let mut frame = vec![0; self.setting().frame_length as usize];
        self.script += &format!("write {lane} {} {} {} {}\n", hex(&batch.octets), hex(&insert), hex(&ocf), frame.len());
        self.calls.push(Call::Write(listed.channel));
        let lent = Lent { lane: lane as u64, batch: &batch.octets, insert: &insert, ocf: &ocf };
        self.writer.write(&lent, &mut frame).expect("a good write");
        batch.places.push(self.gone[listed.channel].len());
        self.note_sent(lane, zone, &batch);
        if batch.places.len() < batch.octets.len().div_ceil(zone) {
            self.open[lane] = Some(batch);
        }
        frame
    }

    /// The units that end in the batch's newest frame are sent now.
    fn note_sent(&mut self, lane: usize, zone: usize, batch: &Batch) {
        let newest = batch.places.len() - 1;
        let mut end = 0;
        for unit in &batch.units {
            let begin = end;
            end += unit.len();
            if (end - 1) / zone == newest {
                self.sent[lane].push(Sent {
                    octets: unit.clone(),
                    first: batch.places[begin / zone],
                    last: batch.places[newest],
                    span: (newest - begin / zone + 1) as u64,
                });
            }
        }
    }

    /// Whether the channel's next frame goes. Between two kept ones fewer go than 256^n - 1: the one after so many would
    /// have the count of the last one that was kept.
    fn is_to_go(&mut self, random: &mut Random, channel: usize) -> bool {
        let most = self.setting().channels[channel].modulus() - 2;
        let goes = match self.loss {
            Loss::None => false,
            Loss::Percent(chance) => random.percent(chance),
            Loss::Rows => {
                let some = random.between(1, 300);
                let length = random.pick(&[1, 2, 253, 254, 254, some]);
                self.is_in_row(random, channel, 20, length)
            }
            Loss::Edge => self.is_in_row(random, channel, 8, most),
        };
        match self.gone_since_kept[channel] {
            Some(already) if goes && already < most => {
                self.gone_since_kept[channel] = Some(already + 1);
                true
            }
            None if goes => true,
            _ => {
                self.gone_since_kept[channel] = Some(0);
                false
            }
        }
    }

    /// Whether the channel's next frame is in a row that goes. Where it is in none, it is kept, and one in so many times a
    /// row begins with the frame after it.
    fn is_in_row(&mut self, random: &mut Random, channel: usize, chance: u64, length: u64) -> bool {
        if self.row[channel] > 0 {
            self.row[channel] -= 1;
            return true;
        }
        if random.one_in(chance) {
            self.row[channel] = length;
        }
        false
    }

    /// Octets that a reader must refuse, in the frame's place.
    fn refuse(&mut self, random: &mut Random, frame: &[u8]) {
        let mut octets = frame.to_vec();
        match random.below(4) {
            0 => octets.truncate(random.below(frame.len() as u64) as usize),
            1 => octets.push(0),
            2 => {
                let mut header = Header::from_octets(&octets);
                header.version ^= 1 << random.below(4);
                octets[..7].copy_from_slice(&header.to_octets());
            }
            _ => octets[random.pick(&[4, 5])] ^= 1 << random.below(8),
        }
        self.read(&octets, Due::Refused, None);
    }

    /// Hears what the program printed for this run: a line for each call, the frame after each write, units and records
    /// after each read.
    fn hear<'a>(&mut self, lines: &mut impl Iterator<Item = &'a str>) -> Result<(), String> {
        let mut next = || lines.next().map(str::trim_end).ok_or("too little was printed".to_string());
        let mut written = vec![Vec::new(); self.link.len()];
        expect(next()?, "begin writer done reader done")?;
        for call in std::mem::take(&mut self.calls) {
            let line = next()?;
            match call {
                Call::Write(channel) => {
                    expect(line, "write done")?;
                    written[channel] = octets_after(next()?, "frame ")?;
                }
                Call::Read { due, said } => {
                    if said.is_some_and(|said| said.octets != written[said.channel]) {
                        return Err(format!("a copy is not the frame that was written: {line}"));
                    }
                    expect(line, due.words())?;
                    let (units, records) = (octets_after(next()?, "units ")?, octets_after(next()?, "records ")?);
                    self.receive(due, units, records)?;
                }
            }
            self.heard += 1;
        }
        Ok(())
    }

    /// Units and records of a read, which only a lane's frame has.
    fn receive(&mut self, due: Due, units: Vec<u8>, records: Vec<u8>) -> Result<(), String> {
        let Due::Units(lane) = due else {
            let none = units.is_empty() && records.is_empty();
            return if none { Ok(()) } else { Err(format!("units of a frame that is {}", due.words())) };
        };
        let listed = &self.setting().lanes[lane];
        let channel = &self.setting().channels[listed.channel];
        let head = [lane as u8, channel.virtual_channel as u8, listed.map as u8, channel.service as u8];
        let mut end = 0;
        let records = records.chunks_exact(RECORD);
        if !records.remainder().is_empty() {
            return Err(format!("a record is cut: {}", hex(records.remainder())));
        }
        for record in records {
            let (start, length) = (big_endian(&record[4..8]) as usize, big_endian(&record[8..12]) as usize);
            if record[..4] != head || start != end || units.len() < start + length {
                return Err(format!("a record is not this lane's or not back to back: {}", hex(record)));
            }
            end = start + length;
            let (count, span) = (big_endian(&record[12..20]), big_endian(&record[20..24]));
            self.handed_out[lane].push(Given { octets: units[start..end].to_vec(), count, span });
        }
        if end != units.len() {
            return Err("the unit octets are not the records' sum".to_string());
        }
        Ok(())
    }

    /// Exactly the units no frame of which is gone, in order, each with its last frame's count and its span.
    fn compare(&self) -> Result<(), String> {
        for (lane, sent) in self.sent.iter().enumerate() {
            let channel = self.setting().lanes[lane].channel;
            let modulus = self.setting().channels[channel].modulus();
            let whole = sent.iter().filter(|unit| !self.gone[channel][unit.first..=unit.last].contains(&true));
            let count = |unit: &Sent| (self.before[channel] + unit.last as u64) % modulus;
            let wanted: Vec<Given> =
                whole.map(|unit| Given { octets: unit.octets.clone(), count: count(unit), span: unit.span }).collect();
            if wanted != self.handed_out[lane] {
                return Err(first_difference(lane, &wanted, &self.handed_out[lane]));
            }
        }
        Ok(())
    }
}

impl Due {
    /// How the line of such a read begins.
    fn words(self) -> &'static str {
        match self {
            Due::Units(_) => "read read ",
            Due::Counted => "read counted ",
            Due::Repeat => "read repeat units 0 octets 0 missing 0 idle 0 fill 0 dropped 0",
            Due::Idle => "read idle ",
            Due::Refused => "read refused ",
        }
    }
}

fn first_difference(lane: usize, wanted: &[Given], got: &[Given]) -> String {
    let place = wanted.iter().zip(got).take_while(|(one, other)| one == other).count();
    format!(
        "lane {lane}, unit {place}: wanted {:?}, handed out {:?} ({} and {} units in all)",
        wanted.get(place),
        got.get(place),
        wanted.len(),
        got.len()
    )
}

/// A call's first line says this, after the script's line.
fn expect(line: &str, wanted: &str) -> Result<(), String> {
    match line.split_once(' ') {
        Some((_, said)) if said.starts_with(wanted) => Ok(()),
        _ => Err(format!("wanted {wanted}, printed {line}")),
    }
}

fn octets_after(line: &str, word: &str) -> Result<Vec<u8>, String> {
    let said = line.strip_prefix(word).ok_or_else(|| format!("wanted {word}, printed {line}"))?;
    unhex(said)
}
