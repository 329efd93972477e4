//! The frame, octet by octet: the primary header, numbers, the frame check.

/// The pointer that says "none starts here" or "the unit goes on".
pub const NO_POINTER: u16 = 0xFFFF;

/// Construction rules used here.
pub const RULE_PACKETS: u8 = 0b000;
pub const RULE_ACCESS_START: u8 = 0b001;
pub const RULE_ACCESS_CONTINUES: u8 = 0b010;

/// The first seven octets of a frame, field by field. Each number fits its field's bits.
#[derive(Clone, PartialEq, Eq, Debug)]
pub struct Header {
    pub version: u8,
    pub spacecraft: u16,
    pub destination: bool,
    pub virtual_channel: u8,
    pub map: u8,
    pub end_of_header: bool,
    /// The total less one.
    pub length: u16,
    pub bypass: bool,
    pub command: bool,
    pub spare: u8,
    pub ocf: bool,
    pub count_length: u8,
}

impl Header {
    pub fn from_octets(octets: &[u8]) -> Header {
        let word = big_endian(&octets[..4]);
        Header {
            version: (word >> 28) as u8,
            spacecraft: (word >> 12) as u16,
            destination: word >> 11 & 1 == 1,
            virtual_channel: (word >> 5 & 0x3F) as u8,
            map: (word >> 1 & 0x0F) as u8,
            end_of_header: word & 1 == 1,
            length: big_endian(&octets[4..6]) as u16,
            bypass: octets[6] & 0x80 != 0,
            command: octets[6] & 0x40 != 0,
            spare: octets[6] >> 4 & 0b11,
            ocf: octets[6] & 0x08 != 0,
            count_length: octets[6] & 0b111,
        }
    }

    pub fn to_octets(&self) -> [u8; 7] {
        let word = u32::from(self.version) << 28
            | u32::from(self.spacecraft) << 12
            | u32::from(self.destination) << 11
            | u32::from(self.virtual_channel) << 5
            | u32::from(self.map) << 1
            | u32::from(self.end_of_header);
        let flags = u8::from(self.bypass) << 7
            | u8::from(self.command) << 6
            | self.spare << 4
            | u8::from(self.ocf) << 3
            | self.count_length;
        let mut octets = [0; 7];
        octets[..4].copy_from_slice(&word.to_be_bytes());
        octets[4..6].copy_from_slice(&self.length.to_be_bytes());
        octets[6] = flags;
        octets
    }
}

/// A number from up to 8 octets, the highest first.
pub fn big_endian(octets: &[u8]) -> u64 {
    octets.iter().fold(0, |number, &octet| number << 8 | u64::from(octet))
}

/// Puts a number into all of `octets`, the highest first.
pub fn put_big_endian(octets: &mut [u8], number: u64) {
    let mut rest = number;
    for octet in octets.iter_mut().rev() {
        *octet = rest as u8;
        rest >>= 8;
    }
}

/// The frame check (000, annex B1), one bit at a time as the encoder's shift register does it: generator
/// x^16 + x^12 + x^5 + 1, every cell preset to 1.
pub fn frame_check(octets: &[u8]) -> u16 {
    let mut register = 0xFFFF_u16;
    for octet in octets {
        for bit in (0..8).rev() {
            let message_bit = octet >> bit & 1 == 1;
            let fed_back = message_bit != (register & 0x8000 != 0);
            register <<= 1;
            if fed_back {
                register ^= 1 << 12 | 1 << 5 | 1;
            }
        }
    }
    register
}

/// Makes the last two octets the check of all before them.
pub fn put_frame_check(frame: &mut [u8]) {
    let place = frame.len() - 2;
    let check = frame_check(&frame[..place]);
    frame[place..].copy_from_slice(&check.to_be_bytes());
}

/// Whether the last two octets are the check of all before them.
pub fn frame_check_holds(frame: &[u8]) -> bool {
    let place = frame.len() - 2;
    frame[place..] == frame_check(&frame[..place]).to_be_bytes()
}
