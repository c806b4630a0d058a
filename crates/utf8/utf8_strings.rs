// The UTF-8 check beside `core::str::from_utf8`, on 43 million byte strings. By hand, from the repository's folder:
//
//     (cd crates/capi && rt lib)
//     mkdir -p target
//     rustc -O -L native=crates/capi/out -l static=capi -o target/utf8_strings crates/utf8/utf8_strings.rs && target/utf8_strings
//
// It stops at the first string that is answered otherwise.

extern "C" {
    fn dangrisuk_from_utf8(buf: *const u8, buf_len: usize, answer: *mut u64, answer_len: usize);
}

fn check(s: &[u8]) -> u64 {
    let mut answer = [7];
    unsafe { dangrisuk_from_utf8(s.as_ptr(), s.len(), answer.as_mut_ptr(), answer.len()) };
    answer[0]
}

// How many strings were compared, and how many of them are UTF-8.
#[derive(Default)]
struct Count {
    all: u64,
    good: u64,
}

impl Count {
    fn compare(&mut self, s: &[u8]) {
        let good = std::str::from_utf8(s).is_ok();
        assert_eq!(check(s), if good { 0 } else { 5 }, "{s:02x?}");
        self.all += 1;
        self.good += good as u64;
    }

    fn print(&mut self, what: &str) {
        println!("{what}: {} strings, {} of them UTF-8: 0 differ", self.all, self.good);
    }
}

// Every string of `from`, and `more` bytes of `bytes` behind it.
fn grow(count: &mut Count, from: &mut Vec<u8>, more: usize, bytes: &[u8]) {
    if more == 0 {
        return count.compare(from);
    }
    for x in bytes {
        from.push(*x);
        grow(count, from, more - 1, bytes);
        from.pop();
    }
}

// The bytes at which a rule begins or ends (RFC 3629, section 4).
const EDGES: [u8; 26] = [
    0x00, 0x41, 0x7f, 0x80, 0x8f, 0x90, 0x9f, 0xa0, 0xbf, 0xc0, 0xc1, 0xc2, 0xdf, 0xe0, 0xe1, 0xec, 0xed, 0xee, 0xef,
    0xf0, 0xf1, 0xf3, 0xf4, 0xf5, 0xf8, 0xff,
];

fn random(seed: &mut u64) -> u64 {
    *seed ^= *seed << 13;
    *seed ^= *seed >> 7;
    *seed ^= *seed << 17;
    *seed
}

// Characters of each length, now and then with a byte changed, put in or left out, and at times a long run of plain ones.
fn text(seed: &mut u64) -> Vec<u8> {
    let mut s = Vec::new();
    for _ in 0..random(seed) % 12 {
        let r = random(seed);
        let top = [0x80, 0x800, 0x1_0000, 0x11_0000][(r >> 40) as usize % 4];
        let run = if r % 16 == 0 { r as usize / 16 % 40 } else { 1 };
        let c = char::from_u32((r >> 8) as u32 % top).unwrap_or('-');
        s.extend(c.to_string().repeat(run).bytes());
    }
    for _ in 0..random(seed) % 3 {
        let (at, x) = (random(seed) as usize % (s.len() + 1), EDGES[random(seed) as usize % EDGES.len()]);
        match random(seed) % 3 {
            0 => s.insert(at, x),
            1 if at < s.len() => s[at] = x,
            _ => s.truncate(at),
        }
    }
    s
}

fn main() {
    let every: Vec<u8> = (0..=255).collect();
    let mut count = Count::default();
    for more in 0..=3 {
        grow(&mut count, &mut vec![], more, &every);
    }
    count.print("every string of up to 3 bytes");

    count = Count::default();
    for more in 4..=5 {
        grow(&mut count, &mut vec![], more, &EDGES);
    }
    for first in 0xe0..=0xf8 {
        grow(&mut count, &mut vec![first, 0x80], 2, &every);
        grow(&mut count, &mut vec![first, 0xbf], 2, &every);
    }
    count.print("edges, and every end of four bytes");

    count = Count::default();
    for c in (0..=0x10_ffff).filter_map(char::from_u32) {
        count.compare(c.to_string().as_bytes());
    }
    count.print("every character");

    count = Count::default();
    let mut seed = 1;
    for _ in 0..10_000_000 {
        count.compare(&text(&mut seed));
    }
    count.print("random texts, seed 1");
}
