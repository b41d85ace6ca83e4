// Trains at centres that get too few threads for all of them: a connection is ended at once, or it is served as any other.

use crate::heard::Heard;
use crate::line::{RELEASED, TRAINS};
use crate::train::{Train, begin, connect, end, other, request};
use std::io::{self, ErrorKind};
use std::thread;
use std::time::{Duration, Instant};

/// How many requests a train makes in each half of its mission.
const REQUESTS: u32 = 5;

/// What came of it.
pub struct Outcome {
    pub heard: Vec<Heard>,
    /// How many missions went from their beginning to their end.
    pub missions: u32,
    /// How many connections were ended before the first answer.
    pub refused: u32,
}

/// All trains come again and again. Who is served has to get each answer that is due, and who is not has to be told so at once: a train that hears
/// nothing for a while is an error.
pub fn trains(first: u16, until: Instant) -> io::Result<Outcome> {
    thread::scope(|scope| {
        let trains: Vec<_> = (0..TRAINS).map(|number| scope.spawn(move || train(first, until, number))).collect();
        let mut all = Outcome { heard: Vec::new(), missions: 0, refused: 0 };
        for (number, train) in trains.into_iter().enumerate() {
            let one = train.join().unwrap().map_err(|error| other(&format!("train {number}: {error}")))?;
            all.heard.extend(one.heard);
            all.missions += one.missions;
            all.refused += one.refused;
        }
        Ok(all)
    })
}

fn train(first: u16, until: Instant, number: usize) -> io::Result<Outcome> {
    let mut train = Train::new(number);
    let mut heard = Heard::default();
    let (mut missions, mut refused) = (0, 0);
    while Instant::now() < until {
        let mut stream = connect(train.port(first))?;
        match begin(&mut stream, &mut train, &mut heard) {
            Ok(()) => {
                for k in [0, RELEASED / 2] {
                    for _ in 0..REQUESTS {
                        request(&mut stream, &mut train, &mut heard, k)?;
                        thread::sleep(Duration::from_millis(20));
                    }
                }
                end(&mut stream, &mut train, &mut heard)?;
                missions += 1;
            }
            Err(error) if is_ended(&error) => refused += 1,
            Err(error) => return Err(error),
        }
        drop(stream);
        thread::sleep(Duration::from_millis(100));
    }
    Ok(Outcome { heard: vec![heard], missions, refused })
}

// The other side has ended the connection.
fn is_ended(error: &io::Error) -> bool {
    [ErrorKind::UnexpectedEof, ErrorKind::ConnectionReset, ErrorKind::BrokenPipe].contains(&error.kind())
}
