//! The setting (document 01, "The setting"): what both ends agree on.
//!
//! Numbers are kept wide on purpose, so that a setting outside every range can be said and then judged not valid.

/// What a lane carries.
#[derive(Clone, Copy, PartialEq, Eq, Debug)]
pub enum Kind {
    Packet,
    Access,
}

/// A virtual channel with a service.
#[derive(Clone, PartialEq, Eq, Debug)]
pub struct Channel {
    pub virtual_channel: u64,
    pub service: u64,
    /// n, the octets of the count.
    pub count_length: u64,
    pub ocf: bool,
}

/// A map of a listed channel; `channel` is the channel's place in the list.
#[derive(Clone, PartialEq, Eq, Debug)]
pub struct Lane {
    pub channel: usize,
    pub map: u64,
    pub kind: Kind,
    pub longest: u64,
    pub upid: u64,
}

/// The default is the setting of a state of zeros; it is not valid.
#[derive(Clone, PartialEq, Eq, Debug, Default)]
pub struct Setting {
    /// F, the octets of a frame.
    pub frame_length: u64,
    pub spacecraft: u64,
    /// The source-or-destination bit.
    pub destination: bool,
    /// I, the octets of the insert zone.
    pub insert: u64,
    pub check: bool,
    pub channels: Vec<Channel>,
    pub lanes: Vec<Lane>,
}

impl Channel {
    /// 256^n; only asked of a valid channel (n at most 7).
    pub fn modulus(&self) -> u64 {
        1u64 << (8 * self.count_length)
    }
}

impl Setting {
    pub fn valid(&self) -> bool {
        self.broken_rule().is_none()
    }

    /// The first rule of document 01 that this setting breaks. Ranges are judged before sums are made of the numbers.
    pub fn broken_rule(&self) -> Option<&'static str> {
        if !(32..=4096).contains(&self.frame_length) {
            return Some("the frame length is 32 to 4096");
        }
        if self.spacecraft > 65_535 {
            return Some("the spacecraft number is 0 to 65535");
        }
        if self.insert > 64 {
            return Some("the insert zone is 0 to 64 octets");
        }
        self.broken_channel_rule().or_else(|| self.broken_lane_rule())
    }

    fn broken_channel_rule(&self) -> Option<&'static str> {
        if !(1..=8).contains(&self.channels.len()) {
            return Some("there are 1 to 8 channels");
        }
        for channel in &self.channels {
            if channel.virtual_channel > 62 {
                return Some("a virtual channel is 0 to 62");
            }
            if channel.service > 1 {
                return Some("a service is 0 or 1");
            }
            if !(1..=7).contains(&channel.count_length) {
                return Some("a count is 1 to 7 octets long");
            }
            if self.octets_left_for_zone(channel) < 1 {
                return Some("the zone of every channel is at least 1 octet");
            }
        }
        for (place, one) in self.channels.iter().enumerate() {
            for other in &self.channels[..place] {
                if one.virtual_channel == other.virtual_channel {
                    if one.service == other.service {
                        return Some("no channel is listed twice");
                    }
                    if one.ocf != other.ocf {
                        return Some("two channels of one virtual channel agree about the OCF");
                    }
                }
            }
        }
        None
    }

    fn broken_lane_rule(&self) -> Option<&'static str> {
        if !(1..=8).contains(&self.lanes.len()) {
            return Some("there are 1 to 8 lanes");
        }
        for lane in &self.lanes {
            if lane.channel >= self.channels.len() {
                return Some("a lane's channel is listed");
            }
            if lane.map > 15 {
                return Some("a map is 0 to 15");
            }
            let (shortest_longest, upids) = match lane.kind {
                Kind::Packet => (2, 0..=0),
                Kind::Access => (1, 1..=30),
            };
            if !(shortest_longest..=8192).contains(&lane.longest) {
                return Some("a longest unit is 2 (access 1) to 8192 octets");
            }
            if !upids.contains(&lane.upid) {
                return Some("a UPID is 0 for packets and 1 to 30 for access units");
            }
        }
        for (place, one) in self.lanes.iter().enumerate() {
            for other in &self.lanes[..place] {
                if one.channel == other.channel && one.map == other.map {
                    return Some("no two lanes share channel and map");
                }
            }
        }
        None
    }

    /// F - 7 - n - I - 3, less 4 with OCF, less 2 with frame check; may be negative before it is judged.
    fn octets_left_for_zone(&self, channel: &Channel) -> i64 {
        let ocf = if channel.ocf { 4 } else { 0 };
        let check = if self.check { 2 } else { 0 };
        self.frame_length as i64 - 7 - channel.count_length as i64 - self.insert as i64 - 3 - ocf - check
    }

    /// Z of a channel of a valid setting.
    pub fn zone_length(&self, channel: &Channel) -> usize {
        self.octets_left_for_zone(channel) as usize
    }

    /// Where the construction rule stands in a frame of this channel.
    pub fn data_field_place(&self, channel: &Channel) -> usize {
        7 + channel.count_length as usize + self.insert as usize
    }

    /// Where the zone begins in a frame of this channel.
    pub fn zone_place(&self, channel: &Channel) -> usize {
        self.data_field_place(channel) + 3
    }

    pub fn find_channel(&self, virtual_channel: u64, service: u64) -> Option<usize> {
        self.channels.iter().position(|c| c.virtual_channel == virtual_channel && c.service == service)
    }

    /// The lane of this map of this channel.
    pub fn find_lane(&self, channel: usize, map: u64) -> Option<usize> {
        self.lanes.iter().position(|l| l.channel == channel && l.map == map)
    }
}
