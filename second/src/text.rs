//! Text: the setting as lines (PROGRAMS.md) and octets as hex.

use crate::setting::{Channel, Kind, Lane, Setting};

/// At most so many octets of a setting file are read.
pub const LONGEST_SETTING_FILE: u64 = 65_536;

/// A setting of which some lines have been read.
#[derive(Clone, Default)]
pub struct SettingLines {
    frame_length: Option<u64>,
    spacecraft: Option<u64>,
    destination: Option<bool>,
    insert: Option<u64>,
    check: Option<bool>,
    channels: Vec<Channel>,
    lanes: Vec<Lane>,
}

/// The words of a line: without its comment, apart by spaces, tabs or carriage returns.
pub fn words(line: &str) -> Vec<&str> {
    let said = line.split('#').next().unwrap_or("");
    said.split([' ', '\t', '\r']).filter(|word| !word.is_empty()).collect()
}

/// A whole setting file. The setting that comes back is valid.
pub fn setting_from_file(octets: &[u8]) -> Result<Setting, String> {
    let text = String::from_utf8_lossy(octets);
    let mut lines = SettingLines::default();
    for (place, line) in text.split('\n').enumerate() {
        lines.take(&words(line)).map_err(|expected| format!("line {}: expected {expected}", place + 1))?;
    }
    lines.finish()
}

impl SettingLines {
    /// One line's words; an error says what was expected.
    pub fn take(&mut self, words: &[&str]) -> Result<(), String> {
        match words {
            [] => Ok(()),
            ["frame", "length", number] => say_once(&mut self.frame_length, decimal(number)?),
            ["spacecraft", number] => say_once(&mut self.spacecraft, decimal(number)?),
            ["source"] => say_once(&mut self.destination, false),
            ["destination"] => say_once(&mut self.destination, true),
            ["insert", number] => say_once(&mut self.insert, decimal(number)?),
            ["check", answer] => say_once(&mut self.check, yes_or_no(answer)?),
            ["channel", virtual_channel, "service", service, "count", count_length, "ocf", ocf] => {
                self.channels.push(Channel {
                    virtual_channel: decimal(virtual_channel)?,
                    service: decimal(service)?,
                    count_length: decimal(count_length)?,
                    ocf: yes_or_no(ocf)?,
                });
                Ok(())
            }
            ["lane", "channel", virtual_channel, "service", service, "map", map, kind @ .., "longest", longest] => {
                let channel = self.listed(decimal(virtual_channel)?, decimal(service)?)?;
                let (kind, upid) = kind_and_upid(kind)?;
                let (map, longest) = (decimal(map)?, decimal(longest)?);
                self.lanes.push(Lane { channel, map, kind, longest, upid });
                Ok(())
            }
            _ => Err("a line of a setting".to_string()),
        }
    }

    fn listed(&self, virtual_channel: u64, service: u64) -> Result<usize, String> {
        self.channels
            .iter()
            .position(|c| c.virtual_channel == virtual_channel && c.service == service)
            .ok_or_else(|| "a channel listed before its lane".to_string())
    }

    /// The setting, once every fact is said and it is valid.
    pub fn finish(self) -> Result<Setting, String> {
        let setting = Setting {
            frame_length: self.frame_length.ok_or("the frame length is missing")?,
            spacecraft: self.spacecraft.ok_or("the spacecraft number is missing")?,
            destination: self.destination.ok_or("source or destination is missing")?,
            insert: self.insert.ok_or("the insert zone is missing")?,
            check: self.check.ok_or("the frame check is missing")?,
            channels: self.channels,
            lanes: self.lanes,
        };
        match setting.broken_rule() {
            Some(rule) => Err(format!("the setting breaks a rule: {rule}")),
            None => Ok(setting),
        }
    }
}

fn say_once<T>(fact: &mut Option<T>, value: T) -> Result<(), String> {
    match fact.replace(value) {
        None => Ok(()),
        Some(_) => Err("a fact that was not said before".to_string()),
    }
}

fn kind_and_upid(words: &[&str]) -> Result<(Kind, u64), String> {
    match words {
        ["packets"] => Ok((Kind::Packet, 0)),
        ["access", upid] => Ok((Kind::Access, decimal(upid)?)),
        _ => Err("packets, or access and a UPID".to_string()),
    }
}

/// Decimal digits and nothing else.
pub fn decimal(word: &str) -> Result<u64, String> {
    let digits_only = !word.is_empty() && word.bytes().all(|octet| octet.is_ascii_digit());
    let number = if digits_only { word.parse().ok() } else { None };
    number.ok_or_else(|| "a decimal number".to_string())
}

fn yes_or_no(word: &str) -> Result<bool, String> {
    match word {
        "yes" => Ok(true),
        "no" => Ok(false),
        _ => Err("yes or no".to_string()),
    }
}

/// The lines of a setting, as a file says them.
pub fn setting_to_lines(setting: &Setting) -> String {
    let yes_no = |flag: bool| if flag { "yes" } else { "no" };
    let mut text = format!(
        "frame length {}\nspacecraft {}\n{}\ninsert {}\ncheck {}\n",
        setting.frame_length,
        setting.spacecraft,
        if setting.destination { "destination" } else { "source" },
        setting.insert,
        yes_no(setting.check),
    );
    for channel in &setting.channels {
        text += &format!(
            "channel {} service {} count {} ocf {}\n",
            channel.virtual_channel,
            channel.service,
            channel.count_length,
            yes_no(channel.ocf),
        );
    }
    for lane in &setting.lanes {
        let (virtual_channel, service) = match setting.channels.get(lane.channel) {
            Some(channel) => (channel.virtual_channel, channel.service),
            None => (61, 1),
        };
        let kind = match lane.kind {
            Kind::Packet => "packets".to_string(),
            Kind::Access => format!("access {}", lane.upid),
        };
        text += &format!(
            "lane channel {virtual_channel} service {service} map {} {kind} longest {}\n",
            lane.map, lane.longest,
        );
    }
    text
}

/// Octets as upper-case hex without spaces; `-` for none.
pub fn hex(octets: &[u8]) -> String {
    const DIGITS: &[u8; 16] = b"0123456789ABCDEF";
    if octets.is_empty() {
        return "-".to_string();
    }
    let mut text = String::with_capacity(octets.len() * 2);
    for octet in octets {
        text.push(char::from(DIGITS[usize::from(octet >> 4)]));
        text.push(char::from(DIGITS[usize::from(octet & 15)]));
    }
    text
}

/// The octets that a hex word says.
pub fn unhex(word: &str) -> Result<Vec<u8>, String> {
    if word == "-" {
        return Ok(Vec::new());
    }
    let digits: Option<Vec<u8>> = word.chars().map(|c| c.to_digit(16).map(|digit| digit as u8)).collect();
    match digits {
        Some(digits) if digits.len() % 2 == 0 => Ok(digits.chunks(2).map(|pair| pair[0] << 4 | pair[1]).collect()),
        _ => Err("hex octets".to_string()),
    }
}
