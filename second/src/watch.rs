//! What happens to the names of a folder, in order, as the system tells it: for runs that hold an order.

use std::ffi::CString;
use std::fs::File;
use std::io::{self, Read, Write};
use std::os::fd::FromRawFd;
use std::os::raw::{c_char, c_int};

extern "C" {
    fn inotify_init1(flags: c_int) -> c_int;
    fn inotify_add_watch(fd: c_int, path: *const c_char, mask: u32) -> c_int;
}

/// The system's bits, and the word that is printed for each.
const EVENTS: [(u32, &str); 5] =
    [(0x8, "closed"), (0x40, "left"), (0x80, "taken"), (0x100, "made"), (0x200, "removed")];

/// An event's octets before its name: watch, bits, cookie, and how long the name is with its zeros.
const HEAD: usize = 16;

fn open(folder: &str) -> io::Result<File> {
    let path = CString::new(folder)?;
    let mask = EVENTS.iter().fold(0, |bits, (bit, _)| bits | bit);
    // SAFETY: the descriptor is new and no one else's; the path ends with a 0 and is read during the call alone.
    unsafe {
        let fd = inotify_init1(0);
        if fd < 0 {
            return Err(io::Error::last_os_error());
        }
        let file = File::from_raw_fd(fd);
        if inotify_add_watch(fd, path.as_ptr(), mask) < 0 {
            return Err(io::Error::last_os_error());
        }
        Ok(file)
    }
}

/// Prints a line `watching` once all that follows is seen, then one for each event (`closed` after writing), until a file of the name `last` is made.
pub fn run(folder: &str, last: &str, out: &mut impl Write) -> Result<(), String> {
    let wrong = |error: io::Error| format!("{folder}: {error}");
    let mut events = open(folder).map_err(wrong)?;
    writeln!(out, "watching").and_then(|()| out.flush()).map_err(wrong)?;
    let mut area = [0; 65_536];
    loop {
        let size = events.read(&mut area).map_err(wrong)?;
        let mut rest = &area[..size];
        while rest.len() >= HEAD {
            let number = |at: usize| u32::from_ne_bytes([rest[at], rest[at + 1], rest[at + 2], rest[at + 3]]);
            let bits = number(4);
            let end = HEAD + number(12) as usize;
            let name: Vec<u8> = rest[HEAD..end].iter().copied().take_while(|octet| *octet != 0).collect();
            let name = String::from_utf8_lossy(&name);
            for (bit, word) in EVENTS {
                if bits & bit != 0 {
                    writeln!(out, "{word} {name}").map_err(wrong)?;
                    if word == "made" && name == last {
                        return out.flush().map_err(wrong);
                    }
                }
            }
            rest = &rest[end..];
        }
    }
}
