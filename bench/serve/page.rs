// Browsers of the page of running centres, and who makes trouble there: requests that are refused, that come slowly or never whole, that are
// huge, that nobody reads the answer of, random bytes, and a thousand connections at once.

use crate::draw::Draw;
use crate::train::other;
use std::io::{self, Read, Write};
use std::net::TcpStream;
use std::sync::atomic::{AtomicU64, Ordering};
use std::thread;
use std::time::{Duration, Instant};

/// How many connections are opened at once.
const CROWD: usize = 1000;

/// What a request is answered, by its status.
const DUE: [(&str, u16); 18] = [
    ("GET / HTTP/1.1\r\nHost: localhost\r\n\r\n", 200),
    ("GET /line.json HTTP/1.0\r\nHost: 127.0.0.1:1\r\n\r\n", 200),
    ("GET /now HTTP/1.1\r\nHost: localhost:1\r\n\r\nGET / HTTP/1.1\r\n\r\n", 200),
    ("POST / HTTP/1.1\r\nHost: localhost\r\nContent-Length: 3\r\n\r\nabc", 405),
    ("HEAD / HTTP/1.1\r\nHost: localhost\r\n\r\n", 200),
    ("CONNECT localhost:1 HTTP/1.1\r\nHost: localhost\r\n\r\n", 405),
    ("GET /stop HTTP/1.1\r\nHost: localhost\r\n\r\n", 404),
    ("GET http://localhost/ HTTP/1.1\r\nHost: localhost\r\n\r\n", 200),
    ("GET http://localhost/stop HTTP/1.1\r\nHost: localhost\r\n\r\n", 404),
    ("GET http://example.com/ HTTP/1.1\r\nHost: localhost\r\n\r\n", 421),
    ("GET / HTTP/1.1\r\nHost: example.com\r\n\r\n", 421),
    ("GET / HTTP/1.1\r\nHost: localhost.example.com\r\n\r\n", 421),
    ("GET / HTTP/1.1\r\n\r\n", 400),
    ("GET / HTTP/1.1\r\nHost: localhost\r\nHost: localhost\r\n\r\n", 400),
    ("GET / HTTP/2.0\r\nHost: localhost\r\n\r\n", 400),
    ("GET /\r\n\r\n", 400),
    ("\0\0\0\0", 400),
    ("set A 1\n", 400),
];

/// What came of it.
#[derive(Default)]
pub struct Browsed {
    /// How many requests had the answer that is due.
    pub answered: AtomicU64,
    /// How many connections were told that there are too many, or were closed at once.
    pub crowded: AtomicU64,
}

/// Makes trouble at the page until then. Whoever is answered is answered what is due; and after it all the page answers
/// again.
pub fn trouble(port: u16, until: Instant) -> io::Result<Browsed> {
    let browsed = Browsed::default();
    let done: io::Result<()> = thread::scope(|scope| {
        let browsed = &browsed;
        let askers: Vec<_> = (0..2).map(|_| scope.spawn(move || again(until, || ask_all(port, browsed)))).collect();
        let others: [fn(u16, &Browsed) -> io::Result<()>; 6] = [crowd, half, drop_by_drop, huge, reads_nothing, random_bytes];
        for other in others {
            scope.spawn(move || again(until, || other(port, browsed)));
        }
        askers.into_iter().try_for_each(|asker| asker.join().unwrap())
    });
    done?;
    let began = Instant::now();
    while status(port, DUE[0].0.as_bytes()).ok() != Some(200) {
        if began.elapsed() > Duration::from_secs(20) {
            return Err(other("the page does not answer any more"));
        }
        thread::sleep(Duration::from_millis(100));
    }
    Ok(browsed)
}

fn again(until: Instant, mut act: impl FnMut() -> io::Result<()>) -> io::Result<()> {
    while Instant::now() < until {
        act()?;
    }
    Ok(())
}

fn open(port: u16) -> io::Result<TcpStream> {
    let stream = TcpStream::connect(("127.0.0.1", port))?;
    stream.set_read_timeout(Some(Duration::from_secs(20)))?;
    stream.set_write_timeout(Some(Duration::from_secs(5)))?;
    Ok(stream)
}

// The status of what these bytes are answered.
fn status(port: u16, bytes: &[u8]) -> io::Result<u16> {
    let mut stream = open(port)?;
    stream.write_all(bytes)?;
    let mut text = Vec::new();
    stream.read_to_end(&mut text)?;
    let text = String::from_utf8_lossy(&text);
    text.get(9..12).and_then(|digits| digits.parse().ok()).ok_or_else(|| other("no status"))
}

// Asks one request after another, and looks at each answer. A page that is crowded may close a connection.
fn ask_all(port: u16, browsed: &Browsed) -> io::Result<()> {
    for (request, due) in DUE {
        match status(port, request.as_bytes()) {
            Ok(is) if is == due => browsed.answered.fetch_add(1, Ordering::Relaxed),
            Ok(503) | Err(_) => browsed.crowded.fetch_add(1, Ordering::Relaxed),
            Ok(is) => return Err(other(&format!("{request:?} is answered {is}, and {due} is due"))),
        };
        thread::sleep(Duration::from_millis(10));
    }
    Ok(())
}

fn crowd(port: u16, browsed: &Browsed) -> io::Result<()> {
    let mut crowd: Vec<_> = (0..CROWD).filter_map(|_| open(port).ok()).collect();
    for stream in &mut crowd {
        let _ = stream.write_all(DUE[2].0.as_bytes());
        let _ = stream.read_to_end(&mut Vec::new());
    }
    browsed.crowded.fetch_add(crowd.len() as u64, Ordering::Relaxed);
    thread::sleep(Duration::from_secs(2));
    Ok(())
}

// Half a request each, for as long as the page waits.
fn half(port: u16, _browsed: &Browsed) -> io::Result<()> {
    let mut waiting: Vec<_> = (0..20).filter_map(|_| open(port).ok()).collect();
    for stream in &mut waiting {
        let _ = stream.write_all(b"GET / HTTP/1.1\r\nHost: loc");
    }
    for stream in &mut waiting {
        let _ = stream.read_to_end(&mut Vec::new());
    }
    thread::sleep(Duration::from_secs(1));
    Ok(())
}

fn drop_by_drop(port: u16, _browsed: &Browsed) -> io::Result<()> {
    if let Ok(mut stream) = open(port) {
        for byte in DUE[0].0.bytes() {
            if stream.write_all(&[byte]).is_err() {
                break;
            }
            thread::sleep(Duration::from_millis(200));
        }
    }
    Ok(())
}

// Fields and an address that do not end.
fn huge(port: u16, _browsed: &Browsed) -> io::Result<()> {
    for start in ["GET / HTTP/1.1\r\nHost: localhost\r\nA: ", "GET /", "G"] {
        if let Ok(mut stream) = open(port) {
            let _ = stream.write_all(start.as_bytes());
            let piece = [b'a'; 65_536];
            for _ in 0..160 {
                if stream.write_all(&piece).is_err() {
                    break;
                }
            }
        }
    }
    thread::sleep(Duration::from_millis(100));
    Ok(())
}

fn reads_nothing(port: u16, _browsed: &Browsed) -> io::Result<()> {
    let mut deaf: Vec<_> = (0..4).filter_map(|_| open(port).ok()).collect();
    for stream in &mut deaf {
        let _ = stream.write_all(DUE[1].0.as_bytes());
    }
    thread::sleep(Duration::from_secs(3));
    Ok(())
}

fn random_bytes(port: u16, browsed: &Browsed) -> io::Result<()> {
    let mut draw = Draw::new(browsed.answered.load(Ordering::Relaxed));
    if let Ok(mut stream) = open(port) {
        let bytes: Vec<u8> = (0..2_000).map(|_| draw.below(256) as u8).collect();
        let _ = stream.write_all(&bytes);
        let _ = stream.read_to_end(&mut Vec::new());
    }
    thread::sleep(Duration::from_millis(50));
    Ok(())
}
