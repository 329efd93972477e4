//! The writer (document 01, "Writing"; refusals 1, 2, 13 to 16), batches of two families of packets (document 02, A5).

use crate::frame::{
    put_big_endian, put_frame_check, Header, NO_POINTER, RULE_ACCESS_CONTINUES, RULE_ACCESS_START, RULE_PACKETS,
};
use crate::packet::{whole_packet, IDLE_OCTET};
use crate::setting::{Kind, Lane, Setting};

/// The most octets of a packet batch, and so the most frames of any batch.
pub const LONGEST_BATCH: usize = 32_768;

/// The writer's state. The default is the state of zeros, which is not valid.
#[derive(Clone, PartialEq, Eq, Debug, Default)]
pub struct Writer {
    pub setting: Setting,
    /// Each channel's next count.
    pub counts: Vec<u64>,
    /// Each lane's next frame number.
    pub next: Vec<u64>,
}

/// What a call lends besides the frame area.
pub struct Lent<'a> {
    pub lane: u64,
    pub batch: &'a [u8],
    pub insert: &'a [u8],
    pub ocf: &'a [u8],
}

impl Writer {
    /// Set-up: a fresh writer, or refusal 1.
    pub fn fresh(setting: &Setting) -> Result<Writer, u8> {
        if !setting.valid() {
            return Err(1);
        }
        Ok(Writer {
            counts: vec![0; setting.channels.len()],
            next: vec![0; setting.lanes.len()],
            setting: setting.clone(),
        })
    }

    pub fn valid(&self) -> bool {
        self.setting.valid()
            && self.setting.channels.iter().zip(&self.counts).all(|(channel, &count)| count < channel.modulus())
            && self.next.iter().all(|&number| number <= 32_767)
    }

    /// Writes the lane's next frame into the first F octets of `area`; a refusal changes nothing.
    pub fn write(&mut self, lent: &Lent, area: &mut [u8]) -> Result<(), u8> {
        let frames = self.judge(lent, area.len())?;
        let place = lent.lane as usize;
        let lane = self.setting.lanes[place].clone();
        let number = self.next[place] as usize;
        let frame_length = self.setting.frame_length as usize;
        self.compose(&lane, number, lent, &mut area[..frame_length]);
        let modulus = self.setting.channels[lane.channel].modulus();
        self.counts[lane.channel] = (self.counts[lane.channel] + 1) % modulus;
        self.next[place] = if number + 1 == frames { 0 } else { number as u64 + 1 };
        Ok(())
    }

    /// The first refusal that applies, or the number of the batch's frames.
    fn judge(&self, lent: &Lent, area_length: usize) -> Result<usize, u8> {
        if !self.valid() {
            return Err(1);
        }
        if (area_length as u64) < self.setting.frame_length {
            return Err(2);
        }
        if lent.lane >= self.setting.lanes.len() as u64 {
            return Err(13);
        }
        let lane = &self.setting.lanes[lent.lane as usize];
        if !batch_keeps_its_rule(lane, lent.batch) {
            return Err(14);
        }
        let channel = &self.setting.channels[lane.channel];
        let ocf_octets = if channel.ocf { 4 } else { 0 };
        if lent.insert.len() as u64 != self.setting.insert || lent.ocf.len() != ocf_octets {
            return Err(15);
        }
        let frames = lent.batch.len().div_ceil(self.setting.zone_length(channel));
        if self.next[lent.lane as usize] >= frames as u64 {
            return Err(16);
        }
        Ok(frames)
    }

    /// Every octet of the frame.
    fn compose(&self, lane: &Lane, number: usize, lent: &Lent, frame: &mut [u8]) {
        let setting = &self.setting;
        let channel = &setting.channels[lane.channel];
        let header = Header {
            version: 0b1100,
            spacecraft: setting.spacecraft as u16,
            destination: setting.destination,
            virtual_channel: channel.virtual_channel as u8,
            map: lane.map as u8,
            end_of_header: false,
            length: (setting.frame_length - 1) as u16,
            bypass: channel.service == 1,
            command: false,
            spare: 0,
            ocf: channel.ocf,
            count_length: channel.count_length as u8,
        };
        let insert_place = 7 + channel.count_length as usize;
        let data_field = setting.data_field_place(channel);
        let zone_place = setting.zone_place(channel);
        let zone_length = setting.zone_length(channel);
        let zone_end = zone_place + zone_length;
        let (rule, pointer) = rule_and_pointer(lane.kind, lent.batch, number, zone_length);

        frame[..7].copy_from_slice(&header.to_octets());
        put_big_endian(&mut frame[7..insert_place], self.counts[lane.channel]);
        frame[insert_place..data_field].copy_from_slice(lent.insert);
        frame[data_field] = rule << 5 | lane.upid as u8;
        frame[data_field + 1..zone_place].copy_from_slice(&pointer.to_be_bytes());
        fill_zone(lane.kind, lent.batch, number, &mut frame[zone_place..zone_end]);
        frame[zone_end..zone_end + lent.ocf.len()].copy_from_slice(lent.ocf);
        if setting.check {
            put_frame_check(frame);
        }
    }
}

fn batch_keeps_its_rule(lane: &Lane, batch: &[u8]) -> bool {
    match lane.kind {
        Kind::Packet => (1..=LONGEST_BATCH).contains(&batch.len()) && all_packets_good(batch, lane.longest),
        Kind::Access => (1..=lane.longest).contains(&(batch.len() as u64)),
    }
}

/// Whole packets of either family back to back, none idle, none above the longest.
fn all_packets_good(batch: &[u8], longest: u64) -> bool {
    let mut place = 0;
    while place < batch.len() {
        match whole_packet(&batch[place..]) {
            Some(length) if length as u64 <= longest => place += length,
            _ => return false,
        }
    }
    true
}

/// Where packets of a good batch start.
fn packet_starts(batch: &[u8]) -> Vec<usize> {
    let mut starts = Vec::new();
    let mut place = 0;
    while let Some(length) = whole_packet(&batch[place..]) {
        starts.push(place);
        place += length;
    }
    starts
}

fn rule_and_pointer(kind: Kind, batch: &[u8], number: usize, zone_length: usize) -> (u8, u16) {
    let begin = number * zone_length;
    match kind {
        Kind::Packet => {
            // The fill after the batch's end is idle packets, so one starts at the batch's end too.
            let first = packet_starts(batch).into_iter().find(|&start| start >= begin).unwrap_or(batch.len());
            (RULE_PACKETS, pointer_to(first, begin, zone_length))
        }
        Kind::Access => {
            let rule = if number == 0 { RULE_ACCESS_START } else { RULE_ACCESS_CONTINUES };
            (rule, pointer_to(batch.len() - 1, begin, zone_length))
        }
    }
}

/// The offset of `place` in the zone that begins at `begin`, or FFFF where it lies past that zone.
fn pointer_to(place: usize, begin: usize, zone_length: usize) -> u16 {
    if place - begin < zone_length {
        (place - begin) as u16
    } else {
        NO_POINTER
    }
}

fn fill_zone(kind: Kind, batch: &[u8], number: usize, zone: &mut [u8]) {
    let begin = number * zone.len();
    let end = batch.len().min(begin + zone.len());
    let (part, fill) = zone.split_at_mut(end - begin);
    part.copy_from_slice(&batch[begin..end]);
    fill.fill(match kind {
        Kind::Packet => IDLE_OCTET,
        Kind::Access => 0,
    });
}
