// Clients that make trouble: connections that are cut, that stall, that send random bytes, that read nothing, that say too much,
// and too many at once.

use crate::draw::Draw;
use crate::heard::Heard;
use crate::line::{CENTRES, RELEASED, TRAINS, centre_of, name_of, spare_of};
use crate::load::control;
use crate::said::{Said, encode};
use crate::train::{Train, begin, connect, end, other, request};
use std::io::{self, ErrorKind, Read, Write};
use std::net::{Shutdown, TcpStream};
use std::os::fd::AsRawFd;
use std::thread;
use std::time::{Duration, Instant};

/// How long it goes on, and the port of the first centre.
#[derive(Clone, Copy)]
pub struct Soak {
    pub first_port: u16,
    pub until: Instant,
}

/// How many idle connections a crowd has: more than a centre has seats.
const CROWD: usize = 80;

/// How many connections the control door serves at once.
const CONTROLS: usize = 4;

/// How often a train comes again that finds no seat.
const TRIES: u32 = 20;

/// An engine that is not of the line.
const FOREIGN: u32 = 99;

impl Soak {
    fn goes_on(self) -> bool {
        Instant::now() < self.until
    }
}

/// What came of a soak.
pub struct Outcome {
    pub heard: Vec<Heard>,
    /// How often the connection of the train was cut that reads nothing.
    pub cuts: u32,
}

/// Trains that run, while others make trouble. Each train but those that make trouble has to be answered each time.
pub fn soak(soak: Soak) -> io::Result<Outcome> {
    let slow = TRAINS - 1;
    thread::scope(|scope| {
        let trains: Vec<_> = (0..slow).map(|number| scope.spawn(move || told(number, ride(soak, number)))).collect();
        let slow = scope.spawn(move || told(slow, reads_nothing(soak, slow)));
        for centre in 0..CENTRES {
            let port = soak.first_port + centre as u16;
            scope.spawn(move || random_bytes(soak, port, centre as u64));
            scope.spawn(move || crowd(soak, port));
            scope.spawn(move || stall(soak, port));
            scope.spawn(move || flood(soak, port));
        }
        scope.spawn(move || interlocking(soak));
        scope.spawn(move || silent_controls(soak));
        let heard: io::Result<_> = trains.into_iter().map(|train| train.join().unwrap()).collect();
        Ok(Outcome { heard: heard?, cuts: slow.join().unwrap()? })
    })
}

// The first train of each centre is cut again and again.
fn ride(soak: Soak, number: usize) -> io::Result<Heard> {
    if number % (TRAINS / CENTRES) == 0 { cut_train(soak, number) } else { train(soak, number) }
}

fn told<T>(number: usize, done: io::Result<T>) -> io::Result<T> {
    done.map_err(|error| other(&format!("train {number}: {error}")))
}

// Missions one after another, a request each few milliseconds.
fn train(soak: Soak, number: usize) -> io::Result<Heard> {
    let mut train = Train::new(number);
    let mut heard = Heard::default();
    let mut stream = connect(train.port(soak.first_port))?;
    while soak.goes_on() {
        begin(&mut stream, &mut train, &mut heard)?;
        for k in [0, RELEASED / 2] {
            for _ in 0..20 {
                request(&mut stream, &mut train, &mut heard, k)?;
                thread::sleep(Duration::from_millis(20));
            }
        }
        end(&mut stream, &mut train, &mut heard)?;
    }
    Ok(heard)
}

// A train whose connection is cut in the middle of a message, again and again. Its mission goes on over the next connection.
fn cut_train(soak: Soak, number: usize) -> io::Result<Heard> {
    let mut draw = Draw::new(number as u64);
    let mut train = Train::new(number);
    let mut heard = Heard::default();
    while soak.goes_on() {
        let mut stream = opened(soak, &mut train, &mut heard)?;
        for _ in 0..draw.below(20) {
            request(&mut stream, &mut train, &mut heard, 0)?;
            thread::sleep(Duration::from_millis(10));
        }
        let bytes = train.say(Said::Request(train.report(0)));
        stream.write_all(&bytes[..draw.below(bytes.len() as u32) as usize])?;
        if draw.one_in(2) {
            stream.shutdown(Shutdown::Both)?;
        }
    }
    Ok(heard)
}

// A connection over which the train's session is open. Among many that come at once it may have to make room before that: then it comes again.
fn opened(soak: Soak, train: &mut Train, heard: &mut Heard) -> io::Result<TcpStream> {
    for _ in 0..TRIES {
        let mut stream = connect(train.port(soak.first_port))?;
        match begin(&mut stream, train, heard) {
            Ok(()) => return Ok(stream),
            Err(error) if [ErrorKind::UnexpectedEof, ErrorKind::ConnectionReset].contains(&error.kind()) => {}
            Err(error) => return Err(error),
        }
        thread::sleep(Duration::from_millis(100));
    }
    Err(other("no connection is taken"))
}

// Bytes that mean nothing, half of them after the head of a message. The connection ends at their fault, or is cut.
fn random_bytes(soak: Soak, port: u16, seed: u64) {
    let mut draw = Draw::new(1000 + seed);
    while soak.goes_on() {
        let mut bytes: Vec<u8> = (0..draw.below(1101)).map(|_| draw.below(256) as u8).collect();
        if draw.one_in(2) && bytes.len() > 9 {
            bytes[..3].copy_from_slice(&encode(0, 0, Said::Initiation)[..3]);
        }
        if let Ok(mut stream) = connect(port) {
            let _ = stream.write_all(&bytes);
            let _ = stream.set_read_timeout(Some(Duration::from_millis(50)));
            let _ = stream.read(&mut [0; 64]);
        }
        thread::sleep(Duration::from_millis(50));
    }
}

// A few connections over which nothing comes, for a while.
fn crowd(soak: Soak, port: u16) {
    while soak.goes_on() {
        let idle: Vec<_> = (0..CROWD).map(|_| connect(port)).collect();
        thread::sleep(Duration::from_secs(1));
        drop(idle);
    }
}

// A connection over which half a message comes, and then nothing.
fn stall(soak: Soak, port: u16) {
    while soak.goes_on() {
        if let Ok(mut stream) = connect(port) {
            let _ = stream.write_all(&encode(1, 1, Said::Initiation)[..7]);
            thread::sleep(Duration::from_secs(3));
        }
    }
}

// An engine that is not of the line opens its session as fast as the centre takes it. Each is an entry of the centre's log.
fn flood(soak: Soak, port: u16) {
    let bytes = encode(1, FOREIGN, Said::Initiation).repeat(100);
    while soak.goes_on() {
        if let Ok(mut stream) = connect(port) {
            while soak.goes_on() && stream.write_all(&bytes).is_ok() {}
            // It rests before it comes again. All connections of such engines share one allowance.
            thread::sleep(Duration::from_secs(60).min(soak.until.saturating_duration_since(Instant::now())));
        }
    }
}

// As many silent connections as the control door has seats.
fn silent_controls(soak: Soak) {
    while soak.goes_on() {
        let silent: Vec<_> = (0..CONTROLS).map(|_| control(soak.first_port)).collect();
        thread::sleep(Duration::from_secs(2));
        drop(silent);
    }
}

// A train that opens its session again and again, and reads no answer, until its connection is cut. It gives each cut.
fn reads_nothing(soak: Soak, number: usize) -> io::Result<u32> {
    let mut train = Train::new(number);
    let mut cuts = 0;
    while soak.goes_on() {
        let mut stream = connect(train.port(soak.first_port))?;
        narrow(&stream);
        while soak.goes_on() {
            if stream.write_all(&train.say(Said::Initiation)).is_err() {
                cuts += 1;
                break;
            }
            thread::sleep(Duration::from_micros(300));
        }
        thread::sleep(Duration::from_secs(20).min(soak.until.saturating_duration_since(Instant::now())));
    }
    Ok(cuts)
}

// The system keeps few bytes for the connection that were not read.
fn narrow(stream: &TcpStream) {
    unsafe extern "C" {
        fn setsockopt(socket: i32, level: i32, name: i32, value: *const i32, length: u32) -> i32;
    }
    const SOL_SOCKET: i32 = 1;
    const SO_RCVBUF: i32 = 8;
    unsafe {
        setsockopt(stream.as_raw_fd(), SOL_SOCKET, SO_RCVBUF, &1, 4);
    }
}

// The interlocking looks at the line, releases and takes back a section that no train uses, and sends lines of no form.
fn interlocking(soak: Soak) {
    while soak.goes_on() {
        let Ok(mut stream) = control(soak.first_port) else { continue };
        for train in 0..TRAINS {
            let (centre, section) = (name_of(centre_of(train)), spare_of(train));
            let _ = writeln!(stream, "set {centre} {section}\nunset {centre} {section}\nsit {centre}\nset {centre} 70000");
            thread::sleep(Duration::from_millis(50));
        }
        let _ = writeln!(stream, "show");
        let _ = stream.shutdown(Shutdown::Write);
        let _ = stream.read_to_end(&mut Vec::new());
    }
}
