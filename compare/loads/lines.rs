// The lines of the programs frames and queries: their limits, hexadecimal, and answers as text.
use crate::scope::Room;

// The most bytes of a blob, and of a path or a name.
pub const FRAME: usize = 8192;
pub const NAME: usize = 1024;

// How many rows each table has room for.
pub const ROOM: Room = Room { reservations: 64, nodes: 512, props: 512 };

pub fn hex(b: &[u8]) -> Vec<u8> {
    const DIGITS: &[u8; 16] = b"0123456789abcdef";
    b.iter().flat_map(|x| [DIGITS[(x >> 4) as usize], DIGITS[(x & 15) as usize]]).collect()
}

pub fn digit(b: u8, base: u32) -> Option<u8> {
    (b as char).to_digit(base).map(|d| d as u8)
}

// The bytes that an even count of digits of either case spells, at most so many.
pub fn spelled(text: &[u8], most: usize) -> Option<Vec<u8>> {
    if text.len() % 2 == 1 || 2 * most < text.len() {
        return None;
    }
    text.chunks(2).map(|two| Some(digit(two[0], 16)? * 16 + digit(two[1], 16)?)).collect()
}

// The numbers of each part by single spaces, `-` where there are none, and ` ; ` between the parts.
pub fn text(parts: &[Vec<u64>]) -> String {
    let listed = |numbers: &Vec<u64>| match numbers[..] {
        [] => "-".to_string(),
        _ => numbers.iter().map(u64::to_string).collect::<Vec<_>>().join(" "),
    };
    parts.iter().map(listed).collect::<Vec<_>>().join(" ; ")
}
