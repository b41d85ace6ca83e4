// A train over a connection: missions whose answers are looked at.

use crate::line::{LENGTH, RELEASED, centre_of, engine_of, first_of, group_of};
use crate::said::{DOUBT, Report, Said, encode};
use std::io::{self, Read, Write};
use std::net::TcpStream;
use std::time::Duration;

/// How long a train waits for an answer.
const PATIENCE: Duration = Duration::from_secs(20);

/// The train's length, in metres.
const TRAIN_LENGTH: u32 = 200;

/// NID_MESSAGE of what a centre says.
pub const AUTHORITY: u8 = 3;
pub const DATA_ACKNOWLEDGED: u8 = 8;
pub const VERSION: u8 = 32;
pub const TERMINATION_ACKNOWLEDGED: u8 = 39;
pub const ACCEPTED: u8 = 41;

/// A train, and the stamp of its last message.
pub struct Train {
    pub number: usize,
    pub time: u32,
}

impl Train {
    pub fn new(number: usize) -> Train {
        Train { number, time: 0 }
    }

    pub fn port(&self, first: u16) -> u16 {
        first + centre_of(self.number) as u16
    }

    /// The bytes of its next message.
    pub fn say(&mut self, said: Said) -> Vec<u8> {
        self.time += 1;
        encode(self.time, engine_of(self.number), said)
    }

    /// The front is in the k-th of its sections.
    pub fn report(&self, k: usize) -> Report {
        self.report_at(k, LENGTH / 2)
    }

    /// The whole train is past its last section.
    pub fn leaving(&self) -> Report {
        self.report_at(RELEASED - 1, LENGTH + TRAIN_LENGTH + DOUBT)
    }

    fn report_at(&self, k: usize, metres: u32) -> Report {
        let group = group_of(first_of(self.number) + k);
        Report { group, metres, length: Some(TRAIN_LENGTH), direction: 1, level: 3 }
    }
}

/// What a train tells of a connection.
pub trait Ear {
    /// A message was answered by this.
    fn answered(&mut self, train: &Train, said: &[u8], answer: &[u8]);
}

/// Who does not listen.
pub struct Deaf;

impl Ear for Deaf {
    fn answered(&mut self, _train: &Train, _said: &[u8], _answer: &[u8]) {}
}

pub fn connect(port: u16) -> io::Result<TcpStream> {
    let stream = TcpStream::connect(("127.0.0.1", port))?;
    stream.set_nodelay(true)?;
    stream.set_read_timeout(Some(PATIENCE))?;
    stream.set_write_timeout(Some(PATIENCE))?;
    Ok(stream)
}

/// Reads one whole message; L_MESSAGE, the ten bits after NID_MESSAGE, is its length.
pub fn read_message(stream: &mut impl Read) -> io::Result<Vec<u8>> {
    let mut head = [0; 3];
    stream.read_exact(&mut head)?;
    let length = usize::from(head[1]) * 4 + usize::from(head[2] >> 6);
    if length < head.len() {
        return Err(other("a message that is too short"));
    }
    let mut message = vec![0; length];
    message[..head.len()].copy_from_slice(&head);
    stream.read_exact(&mut message[head.len()..])?;
    Ok(message)
}

pub fn other(why: &str) -> io::Error {
    io::Error::other(why)
}

/// Says this, and looks whether the next answer has this NID_MESSAGE.
pub fn ask(stream: &mut TcpStream, train: &mut Train, ear: &mut impl Ear, said: Said, wanted: u8) -> io::Result<()> {
    let bytes = train.say(said);
    stream.write_all(&bytes)?;
    let answer = read_message(stream)?;
    ear.answered(train, &bytes, &answer);
    if answer[0] == wanted { Ok(()) } else { Err(other(&format!("answer {} in place of {wanted}", answer[0]))) }
}

/// Says this, which has no answer.
pub fn tell(stream: &mut TcpStream, train: &mut Train, said: Said) -> io::Result<()> {
    stream.write_all(&train.say(said))
}

/// The session is opened, and the mission begins in the first section.
pub fn begin(stream: &mut TcpStream, train: &mut Train, ear: &mut impl Ear) -> io::Result<()> {
    ask(stream, train, ear, Said::Initiation, VERSION)?;
    tell(stream, train, Said::Established)?;
    let place = train.report(0);
    ask(stream, train, ear, Said::Start(1, place), ACCEPTED)?;
    ask(stream, train, ear, Said::TrainData(place), DATA_ACKNOWLEDGED)
}

/// A request for a movement authority from the k-th section.
pub fn request(stream: &mut TcpStream, train: &mut Train, ear: &mut impl Ear, k: usize) -> io::Result<()> {
    let place = train.report(k);
    ask(stream, train, ear, Said::Request(place), AUTHORITY)
}

/// The mission and the session end.
pub fn end(stream: &mut TcpStream, train: &mut Train, ear: &mut impl Ear) -> io::Result<()> {
    let place = train.report(RELEASED - 1);
    tell(stream, train, Said::Report(place))?;
    tell(stream, train, Said::EndOfMission(place))?;
    let place = train.leaving();
    tell(stream, train, Said::Report(place))?;
    ask(stream, train, ear, Said::Termination, TERMINATION_ACKNOWLEDGED)
}
