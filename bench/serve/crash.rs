// Trains that run until their centres are killed, and go on where they are.

use crate::draw::Draw;
use crate::heard::Heard;
use crate::line::{RELEASED, TRAINS};
use crate::said::Said;
use crate::train::{ACCEPTED, DATA_ACKNOWLEDGED, Ear, Train, VERSION, ask, connect, end, other, read_message, request, tell};
use std::io::{self, Write};
use std::net::TcpStream;
use std::thread;
use std::time::Duration;

/// Lets all trains run missions until their connections are lost: what each of them heard. The messages of a train
/// begin after this stamp.
pub fn run(first_port: u16, time: u32) -> Vec<Heard> {
    thread::scope(|scope| {
        let trains: Vec<_> = (0..TRAINS).map(|number| scope.spawn(move || ride(first_port, number, time))).collect();
        trains.into_iter().map(|train| train.join().unwrap()).collect()
    })
}

// Runs missions until the connection is lost. An answer that is not the one that is due ends the program.
fn ride(first_port: u16, number: usize, time: u32) -> Heard {
    let mut train = Train { number, time };
    let mut heard = Heard::default();
    let mut draw = Draw::new(u64::from(time) + number as u64);
    let Err(error) = missions(first_port, &mut train, &mut heard, &mut draw) else { unreachable!() };
    if error.kind() == io::ErrorKind::Other {
        eprintln!("train {number}: {error}");
        std::process::exit(1);
    }
    heard
}

fn missions(first_port: u16, train: &mut Train, heard: &mut Heard, draw: &mut Draw) -> io::Result<()> {
    loop {
        let mut stream = connect(train.port(first_port))?;
        let at = begin_anywhere(&mut stream, train, heard)?;
        for k in [0, RELEASED / 2] {
            for _ in 0..draw.below(30) {
                request(&mut stream, train, heard, k.max(at))?;
                thread::sleep(Duration::from_millis(2));
            }
        }
        end(&mut stream, train, heard)?;
    }
}

// The session is opened, and a mission begins in the first section where one may. Where the centre has a mission of the
// train from before it was killed, that is where the train was.
fn begin_anywhere(stream: &mut TcpStream, train: &mut Train, heard: &mut Heard) -> io::Result<usize> {
    ask(stream, train, heard, Said::Initiation, VERSION)?;
    tell(stream, train, Said::Established)?;
    for k in 0..RELEASED {
        let place = train.report(k);
        let bytes = train.say(Said::Start(1, place));
        stream.write_all(&bytes)?;
        let answer = read_message(stream)?;
        heard.answered(train, &bytes, &answer);
        if answer[0] == ACCEPTED {
            ask(stream, train, heard, Said::TrainData(place), DATA_ACKNOWLEDGED)?;
            return Ok(k);
        }
    }
    Err(other("no start is accepted"))
}
