// 64 trains at once, each of which asks for its movement authority again and again: how many messages a second are answered.

use crate::line::{CENTRES, RELEASED, TRAINS, centre_of, engine_of, name_of, releases};
use crate::said::{Said, encode};
use crate::train::{AUTHORITY, Deaf, Train, begin, connect, end, other, read_message};
use std::io::{self, BufRead, BufReader, Read, Write};
use std::net::TcpStream;
use std::sync::Barrier;
use std::sync::atomic::{AtomicU64, Ordering};
use std::thread;
use std::time::{Duration, Instant};

/// What the other side of the connections is.
#[derive(Clone, Copy, PartialEq, Eq)]
pub enum Other {
    Centres,
    Echo,
}

/// How many requests a train makes in one mission.
const REQUESTS: u32 = 500;

/// How long it goes on, and how many requests of a train are under way at once.
#[derive(Clone, Copy)]
pub struct Plan {
    pub first_port: u16,
    pub seconds: u64,
    pub window: u32,
    /// The stamp after which the trains' messages begin.
    pub time: u32,
}

/// The messages that were answered, and the time that they took.
pub fn run(other: Other, plan: Plan) -> io::Result<(u64, Duration)> {
    let answered = AtomicU64::new(0);
    let start = Barrier::new(TRAINS + 1);
    let done: io::Result<Duration> = thread::scope(|scope| {
        let trains: Vec<_> = (0..TRAINS)
            .map(|number| scope.spawn({
                let (answered, start) = (&answered, &start);
                move || drive(other, plan, number, answered, start)
            }))
            .collect();
        start.wait();
        let began = Instant::now();
        for train in trains {
            train.join().unwrap()?;
        }
        Ok(began.elapsed())
    });
    Ok((answered.into_inner(), done?))
}

fn drive(other: Other, plan: Plan, number: usize, answered: &AtomicU64, start: &Barrier) -> io::Result<()> {
    let mut train = Train { number, time: plan.time };
    let stream = connect(train.port(plan.first_port));
    start.wait();
    let mut stream = stream?;
    // Nothing is left in it after the last answer of a mission's requests.
    let mut input = BufReader::with_capacity(4096, stream.try_clone()?);
    let until = Instant::now() + Duration::from_secs(plan.seconds);
    while Instant::now() < until {
        if other == Other::Centres {
            begin(&mut stream, &mut train, &mut Deaf)?;
        }
        for k in [0, RELEASED / 2] {
            requests(other, plan, (&mut stream, &mut input), &mut train, k, answered)?;
        }
        if other == Other::Centres {
            end(&mut stream, &mut train, &mut Deaf)?;
        }
    }
    Ok(())
}

// Half of a mission's requests, from the k-th section. So many at a time are sent together.
fn requests(
    kind: Other,
    plan: Plan,
    (stream, input): (&mut TcpStream, &mut BufReader<TcpStream>),
    train: &mut Train,
    k: usize,
    answered: &AtomicU64,
) -> io::Result<()> {
    let place = train.report(k);
    let mut bytes = Vec::new();
    let mut back = Vec::new();
    for _ in 0..REQUESTS / 2 / plan.window {
        bytes.clear();
        for _ in 0..plan.window {
            train.time += 1;
            bytes.extend(encode(train.time, engine_of(train.number), Said::Request(place)));
        }
        stream.write_all(&bytes)?;
        match kind {
            Other::Centres => authorities(input, plan.window)?,
            Other::Echo => {
                back.resize(bytes.len(), 0);
                input.read_exact(&mut back)?;
            }
        }
        answered.fetch_add(u64::from(plan.window), Ordering::Relaxed);
    }
    Ok(())
}

// So many answers, each a movement authority.
fn authorities(input: &mut BufReader<TcpStream>, count: u32) -> io::Result<()> {
    for _ in 0..count {
        let answer = read_message(input)?;
        if answer[0] != AUTHORITY {
            return Err(other(&format!("answer {} in place of an authority", answer[0])));
        }
    }
    Ok(())
}

/// The interlocking's connection.
pub fn control(first_port: u16) -> io::Result<TcpStream> {
    connect(first_port + CENTRES as u16)
}

/// Releases the sections of all trains.
pub fn release(first_port: u16) -> io::Result<()> {
    let mut stream = control(first_port)?;
    let mut input = BufReader::new(stream.try_clone()?);
    let mut line = String::new();
    for row in releases() {
        writeln!(stream, "{row}")?;
        for _ in 0..2 {
            line.clear();
            input.read_line(&mut line)?;
        }
        if !line.ends_with("Done\n") {
            return Err(other(&format!("{row} is answered {line}")));
        }
    }
    Ok(())
}

/// No connection is taken any more.
pub fn stop(first_port: u16) -> io::Result<()> {
    let mut stream = control(first_port)?;
    stream.write_all(b"stop\n")?;
    let mut rest = Vec::new();
    stream.read_to_end(&mut rest)?;
    Ok(())
}

/// Where the trains of a number run.
pub fn place_of(number: usize) -> char {
    name_of(centre_of(number))
}
