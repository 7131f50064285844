// The proved line beside a plain Rust version of the same. Run by bench/line.
use std::hint::black_box;
use std::time::Instant;

mod proved {
    unsafe extern "C" {
        fn packets_taken(bytes: *const u8, len: usize) -> usize;
        fn word_of(bytes: *const u8, len: usize) -> u16;
    }

    pub fn packets(line: &[u8]) -> usize {
        unsafe { packets_taken(line.as_ptr(), line.len()) }
    }

    pub fn word(bytes: &[u8]) -> u16 {
        unsafe { word_of(bytes.as_ptr(), bytes.len()) }
    }
}

mod plain {
    const SHIFTED: [u16; 256] = {
        let mut table = [0u16; 256];
        let mut i = 0;
        while i < 256 {
            let mut register = (i as u16) << 8;
            let mut k = 0;
            while k < 8 {
                register = if register & 0x8000 != 0 { (register << 1) ^ 0x1021 } else { register << 1 };
                k += 1;
            }
            table[i] = register;
            i += 1;
        }
        table
    };

    #[inline(never)]
    pub fn word(bytes: &[u8]) -> u16 {
        let mut register = 0u16;
        for byte in bytes {
            register = (register << 8) ^ SHIFTED[((register >> 8) as u8 ^ byte) as usize];
        }
        register
    }

    fn value(digit: u8) -> Option<u8> {
        match digit {
            b'0'..=b'9' => Some(digit - b'0'),
            b'A'..=b'F' => Some(digit - b'A' + 10),
            _ => None,
        }
    }

    fn byte(high: u8, low: u8) -> Option<u8> {
        Some(value(high)? * 16 + value(low)?)
    }

    #[allow(dead_code)]
    pub struct Packet {
        pub number: u8,
        pub address: u8,
        pub message: [u8; 768],
        pub len: usize,
    }

    pub fn read(bytes: &[u8]) -> Option<Packet> {
        let n = bytes.len();
        if n < 13 || n > 1547 || n % 2 == 0 || bytes[0] != 1 || bytes[5] != 2 || bytes[n - 1] != 3 {
            return None;
        }
        let sent = (byte(bytes[n - 5], bytes[n - 4])? as u16) << 8 | byte(bytes[n - 3], bytes[n - 2])? as u16;
        if word(&bytes[..n - 5]) != sent {
            return None;
        }
        let mut packet = Packet { number: byte(bytes[1], bytes[2])?, address: byte(bytes[3], bytes[4])?, message: [0; 768], len: (n - 11) / 2 };
        for (i, pair) in bytes[6..n - 5].chunks_exact(2).enumerate() {
            packet.message[i] = byte(pair[0], pair[1])?;
        }
        Some(packet)
    }

    enum Stage {
        Rest,
        Gathering(usize),
    }

    pub struct Reader {
        gathered: [u8; 1547],
        stage: Stage,
    }

    impl Reader {
        pub fn new() -> Reader {
            Reader { gathered: [0; 1547], stage: Stage::Rest }
        }

        pub fn feed(&mut self, byte: u8) -> Option<Packet> {
            if byte == 1 {
                self.gathered[0] = byte;
                self.stage = Stage::Gathering(1);
                return None;
            }
            match self.stage {
                Stage::Rest => None,
                Stage::Gathering(len) if len >= 1547 => {
                    self.stage = Stage::Rest;
                    None
                }
                Stage::Gathering(len) => {
                    self.gathered[len] = byte;
                    if byte != 3 {
                        self.stage = Stage::Gathering(len + 1);
                        return None;
                    }
                    self.stage = Stage::Rest;
                    read(&self.gathered[..len + 1])
                }
            }
        }
    }

    #[inline(never)]
    pub fn packets(line: &[u8]) -> usize {
        let mut reader = Reader::new();
        let mut count = 0;
        for byte in line {
            if reader.feed(*byte).is_some() {
                count += 1;
            }
        }
        count
    }
}

// A small generator of test bytes (xorshift), so that every run has the same input.
struct Bytes(u64);

impl Bytes {
    fn word(&mut self) -> u64 {
        self.0 ^= self.0 << 13;
        self.0 ^= self.0 >> 7;
        self.0 ^= self.0 << 17;
        self.0
    }

    fn byte(&mut self) -> u8 {
        (self.word() >> 24) as u8
    }
}

const DIGITS: &[u8; 16] = b"0123456789ABCDEF";

fn packet(number: u8, address: u8, message: &[u8]) -> Vec<u8> {
    let mut out = vec![1];
    for byte in [number, address] {
        out.extend([DIGITS[byte as usize / 16], DIGITS[byte as usize % 16]]);
    }
    out.push(2);
    for byte in message {
        out.extend([DIGITS[*byte as usize / 16], DIGITS[*byte as usize % 16]]);
    }
    for byte in plain::word(&out).to_be_bytes() {
        out.extend([DIGITS[byte as usize / 16], DIGITS[byte as usize % 16]]);
    }
    out.push(3);
    out
}

// Lines of whole, damaged and broken-off packets and noise: both sides must take the same number.
fn agree(random: &mut Bytes) {
    for round in 0..2000 {
        let mut line = Vec::new();
        for _ in 0..8 {
            let len = 1 + random.word() as usize % if round % 8 == 0 { 768 } else { 24 };
            let message: Vec<u8> = (0..len).map(|_| random.byte()).collect();
            let mut bytes = packet(random.byte(), random.byte(), &message);
            match random.word() % 6 {
                0 => {
                    let place = random.word() as usize % bytes.len();
                    bytes[place] ^= 1 << (random.word() % 8);
                }
                1 => bytes.truncate(random.word() as usize % bytes.len()),
                2 => bytes = (0..random.word() % 1700).map(|_| random.byte()).collect(),
                _ => {}
            }
            line.extend(bytes);
        }
        assert_eq!(proved::packets(&line), plain::packets(&line), "packets of {line:?}");
        assert_eq!(proved::word(&line), plain::word(&line), "check word of {line:?}");
    }
}

// Nanoseconds per byte of one run.
fn time<T>(bytes: &[u8], work: fn(&[u8]) -> T) -> f64 {
    let start = Instant::now();
    for _ in 0..4 {
        black_box(work(black_box(bytes)));
    }
    start.elapsed().as_nanos() as f64 / (4 * bytes.len()) as f64
}

// The best of many runs of each, turn by turn, so that other work on the machine disturbs both alike.
fn show<T>(what: &str, bytes: &[u8], proved: fn(&[u8]) -> T, plain: fn(&[u8]) -> T) {
    let (mut a, mut b) = (f64::MAX, f64::MAX);
    for _ in 0..40 {
        a = a.min(time(bytes, proved));
        b = b.min(time(bytes, plain));
    }
    println!("{what}: proved {a:.2} ns, plain Rust {b:.2} ns, ratio {:.2}", a / b);
}

fn main() {
    let mut random = Bytes(0x9E37_79B9_7F4A_7C15);
    agree(&mut random);
    let mut gathering = Vec::new();
    for _ in 0..400 {
        gathering.push(1);
        gathering.extend((0..1500).map(|_| DIGITS[random.word() as usize % 16]));
    }
    let words: Vec<u8> = (0..600_000).map(|_| random.byte()).collect();
    let mut whole = Vec::new();
    for number in 0..400u32 {
        let message: Vec<u8> = (0..700).map(|_| random.byte()).collect();
        whole.extend(packet(number as u8, 1, &message));
    }
    show("line byte that ends no packet", &gathering, proved::packets, plain::packets);
    show("check-word byte", &words, proved::word, plain::word);
    show("byte of whole packets, read to the end", &whole, proved::packets, plain::packets);
}
