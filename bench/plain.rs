// A codec of the same seven messages as one writes it in plain Rust: a bit reader and a bit writer over bytes, a struct
// a packet. It shares no code with the proved one, and is only measured against it.
mod frames;

use std::hint::black_box;
use std::time::Instant;

struct Reader<'a> {
    bytes: &'a [u8],
    used: usize,
    end: usize,
}

impl Reader<'_> {
    /// The next field of n bits, at most 32.
    #[inline(always)]
    fn take(&mut self, n: usize) -> Option<u64> {
        if self.end - self.used < n || n == 0 {
            return (n == 0).then_some(0);
        }
        let word = self.eight(self.used / 8) << (self.used % 8);
        self.used += n;
        Some(word >> (64 - n))
    }

    /// Eight bytes from this one on; zeros follow the last byte.
    #[inline(always)]
    fn eight(&self, first: usize) -> u64 {
        let last = self.bytes.len();
        match (self.bytes.get(first..first + 8), self.bytes.last_chunk::<8>()) {
            (Some(eight), _) => u64::from_be_bytes(eight.try_into().unwrap()),
            (None, Some(eight)) => u64::from_be_bytes(*eight) << (8 * (first + 8 - last)),
            (None, None) => self.bytes[first..].iter().fold(0, |word, byte| word << 8 | u64::from(*byte)) << (8 * (first + 8 - last)),
        }
    }

    #[inline(always)]
    fn fixed(&mut self, n: usize, value: u64) -> Option<()> {
        (self.take(n)? == value).then_some(())
    }
}

struct Writer {
    bytes: Vec<u8>,
    held: u64,
    count: usize,
}

impl Writer {
    fn with_capacity(bytes: usize) -> Self {
        Writer { bytes: Vec::with_capacity(bytes), held: 0, count: 0 }
    }

    /// A field of n bits, at most 32.
    #[inline(always)]
    fn put(&mut self, value: u64, n: usize) {
        let count = self.count + n;
        if count < 64 {
            self.held = self.held << n | value;
            self.count = count;
        } else {
            let after = count - 64;
            self.bytes.extend_from_slice(&((self.held << (n - after)) | value >> after).to_be_bytes());
            self.held = value & ((1 << after) - 1);
            self.count = after;
        }
    }

    #[inline(always)]
    fn finish(mut self) -> Vec<u8> {
        if self.count > 0 {
            let last = (self.held << (64 - self.count)).to_be_bytes();
            self.bytes.extend_from_slice(&last[..self.count.div_ceil(8)]);
        }
        self.bytes
    }
}

#[derive(Clone)]
struct Position {
    scale: u64,
    group: u64,
    distance: u64,
    side: [u64; 2],
    doubts: [u64; 2],
    length: u64,
    train: Option<u64>,
    speed: u64,
    direction: u64,
    mode: u64,
    level: u64,
    system: Option<u64>,
}

#[derive(Clone)]
enum Body {
    Data(Position, Vec<u8>, usize),
    Request(u64, Position),
    Report(Position),
    Start(u64, Position),
    Authority(u64),
    Transition(u64, u64, u64),
    Accepted,
}

struct Message {
    number: u64,
    time: u64,
    name: u64,
    body: Body,
}

fn position(r: &mut Reader) -> Option<Position> {
    r.fixed(8, 0)?;
    let l_packet = r.take(13)? as usize;
    if l_packet < 21 || r.end - r.used < l_packet - 21 {
        return None;
    }
    let end = r.used + l_packet - 21;
    let scale = r.take(2).filter(|s| *s < 3)?;
    let (group, distance) = (r.take(24)?, r.take(15)?);
    let side = [r.take(2)?, r.take(2)?];
    let doubts = [r.take(15)?, r.take(15)?];
    let length = r.take(2)?;
    let train = if length == 1 || length == 2 { Some(r.take(15)?) } else { None };
    let (speed, direction, mode, level) = (r.take(7)?, r.take(2)?, r.take(4)?, r.take(3)?);
    let system = if level == 1 { Some(r.take(8)?) } else { None };
    (r.used == end).then_some(Position {
        scale, group, distance, side, doubts, length, train, speed, direction, mode, level, system,
    })
}

fn put_position(w: &mut Writer, p: &Position) {
    let l_packet = 114 + if p.train.is_some() { 15 } else { 0 } + if p.system.is_some() { 8 } else { 0 };
    w.put(0, 8);
    w.put(l_packet, 13);
    w.put(p.scale, 2);
    w.put(p.group, 24);
    w.put(p.distance, 15);
    w.put(p.side[0], 2);
    w.put(p.side[1], 2);
    w.put(p.doubts[0], 15);
    w.put(p.doubts[1], 15);
    w.put(p.length, 2);
    if let Some(train) = p.train {
        w.put(train, 15);
    }
    w.put(p.speed, 7);
    w.put(p.direction, 2);
    w.put(p.mode, 4);
    w.put(p.level, 3);
    if let Some(system) = p.system {
        w.put(system, 8);
    }
}

fn track_header(r: &mut Reader, l_packet: u64) -> Option<()> {
    r.fixed(2, 1)?;
    r.fixed(13, l_packet)
}

fn decode(bytes: &[u8]) -> Option<Message> {
    let mut r = Reader { bytes, used: 0, end: 8 * bytes.len() };
    let number = r.take(8)?;
    if r.take(10)? as usize != bytes.len() {
        return None;
    }
    let time = r.take(32).filter(|t| *t != 0xFFFF_FFFF)?;
    let from_train = number > 100;
    if !from_train {
        r.fixed(1, 0)?;
    }
    let name = r.take(24)?;
    let body = match number {
        129 => {
            let p = position(&mut r)?;
            r.fixed(8, 11)?;
            let n = (r.take(13)? as usize).checked_sub(21)?;
            let mut w = Writer::with_capacity(n.div_ceil(8));
            for first in (0..n).step_by(32) {
                let k = (n - first).min(32);
                w.put(r.take(k)?, k);
            }
            Body::Data(p, w.finish(), n)
        }
        132 => Body::Request(r.take(5)?, position(&mut r)?),
        136 => Body::Report(position(&mut r)?),
        157 => Body::Start(r.take(2).filter(|s| *s < 3)?, position(&mut r)?),
        3 => {
            r.fixed(8, 15)?;
            track_header(&mut r, 66)?;
            for (n, value) in [(2, 1), (7, 0), (10, 1023), (5, 0)] {
                r.fixed(n, value)?;
            }
            let end = r.take(15)?;
            for _ in 0..4 {
                r.fixed(1, 0)?;
            }
            Body::Authority(end)
        }
        24 => {
            r.fixed(8, 131)?;
            track_header(&mut r, 129)?;
            r.fixed(2, 1)?;
            let body = Body::Transition(r.take(15)?, r.take(10)?, r.take(14)?);
            r.fixed(32, 0xFFFF_FFFF)?;
            r.fixed(32, 0xFFFF_FFFF)?;
            r.fixed(1, 0)?;
            body
        }
        41 => Body::Accepted,
        _ => return None,
    };
    let left = r.end - r.used;
    if left >= 8 {
        return None;
    }
    r.fixed(left, 0)?;
    Some(Message { number, time, name, body })
}

fn encode(m: &Message) -> Vec<u8> {
    let mut w = Writer::with_capacity(32);
    w.put(m.number, 8);
    w.put(0, 10);
    w.put(m.time, 32);
    if m.number < 100 {
        w.put(0, 1);
    }
    w.put(m.name, 24);
    match &m.body {
        Body::Data(p, bytes, n) => {
            put_position(&mut w, p);
            w.put(11, 8);
            w.put(21 + *n as u64, 13);
            for (i, byte) in bytes.iter().enumerate() {
                let k = (n - 8 * i).min(8);
                w.put(u64::from(byte >> (8 - k)), k);
            }
        }
        Body::Request(reason, p) => {
            w.put(*reason, 5);
            put_position(&mut w, p);
        }
        Body::Report(p) => put_position(&mut w, p),
        Body::Start(status, p) => {
            w.put(*status, 2);
            put_position(&mut w, p);
        }
        Body::Authority(end) => {
            for (value, n) in [(15, 8), (1, 2), (66, 13), (1, 2), (0, 7), (1023, 10), (0, 5), (*end, 15), (0, 4)] {
                w.put(value, n);
            }
        }
        Body::Transition(border, region, centre) => {
            for (value, n) in [(131, 8), (1, 2), (129, 13), (1, 2), (*border, 15), (*region, 10), (*centre, 14)] {
                w.put(value, n);
            }
            w.put(0xFFFF_FFFF, 32);
            w.put(0xFFFF_FFFF, 32);
            w.put(0, 1);
        }
        Body::Accepted => {}
    }
    let mut bytes = w.finish();
    let length = bytes.len() as u8;
    bytes[1] = length >> 2;
    bytes[2] |= length << 6;
    bytes
}

fn rate(turns: u32, start: Instant) -> u128 {
    u128::from(turns) * 1_000_000_000 / (start.elapsed().as_nanos() + 1)
}

fn main() {
    let turns = std::env::args().nth(1).and_then(|w| w.parse().ok()).unwrap_or(1);
    let messages = [
        ("129", "81070000000100000040010280A03282585001400510190010616015"),
        ("132", "8406800000014000004200081405019412C2800A002880C80083"),
        ("136", "88068000000180000040010280A03300D2500140051019001060"),
        ("157", "9D0680000000C00000500040A0280CA096140050014406400418"),
        ("3", "03048000000100280CA1E810901FF805DC00"),
        ("24", "18068000000180280CB0682051770028005FFFFFFFFFFFFFFFE0"),
        ("41", "2902800000009FFFFFE0"),
    ];
    for (name, text) in messages {
        let mut bytes: Vec<u8> =
            (0..text.len() / 2).map(|i| u8::from_str_radix(&text[2 * i..2 * i + 2], 16).unwrap()).collect();
        let start = Instant::now();
        for turn in 0..turns {
            bytes[4] = turn as u8;
            black_box(decode(black_box(&bytes)).is_some());
        }
        println!("decode {name} {}", rate(turns, start));
        let message = decode(&bytes).expect("it is a message");
        assert_eq!(encode(&message), bytes);
        let start = Instant::now();
        for _ in 0..turns {
            black_box(encode(black_box(&message)));
        }
        println!("encode {name} {}", rate(turns, start));
    }
    frames::measure_frames(turns);
}
