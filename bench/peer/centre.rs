// A radio block centre of a line with borders: what it answers to a message, a set, an unset and a frame.

use super::frames::{Body as Sent, Frame};
use super::line::{Line, Run};
use super::message::{Body, Message, encode};
use super::state::*;

pub struct Centre {
    pub number: u8,
    pub clock: u32,
    /// By section of the line.
    pub book: Vec<Page>,
    /// By place in the line file.
    pub trains: Vec<TrainState>,
    /// How many handovers it has announced.
    pub announced: u32,
    /// By centre: the frames sent there, and how many were taken from there.
    pub sent: [Vec<Frame>; MOST_CENTRES],
    pub taken: [u32; MOST_CENTRES],
}

impl Centre {
    pub fn new(line: &Line, number: u8) -> Centre {
        let train = |registrar| TrainState {
            phase: Phase::Silent,
            heard: None,
            said: 0,
            mission: None,
            has_right: registrar == number,
            has_asked: false,
            wait: None,
            route_ask: None,
            expected: [None; MOST_CENTRES],
            used: 0,
        };
        Centre {
            number,
            clock: 0,
            book: vec![Page { entry: Entry::Shut, is_wished: false }; line.sections.len()],
            trains: line.trains.iter().map(|t| train(t.registrar)).collect(),
            announced: 0,
            sent: Default::default(),
            taken: [0; MOST_CENTRES],
        }
    }

    pub fn hear(&mut self, line: &Line, message: &Message) -> Result<Outcome, Refused> {
        self.tick(0)?;
        Ok(match self.answer(line, message) {
            Ok((i, said)) => self.outcome(line, i, said),
            Err(why) => Outcome { stamp: self.clock, silence: Some(why), ..Outcome::default() },
        })
    }

    fn answer(&mut self, line: &Line, message: &Message) -> Result<(usize, Said), Silence> {
        let i = line.train_number(message.engine).ok_or(Silence::ForeignEngine)?;
        if self.trains[i].heard.is_some_and(|last| message.time <= last) {
            return Err(Silence::StaleStamp);
        }
        // What is sent on carries the stamp of this message.
        let before = self.trains[i].heard.replace(message.time);
        let said = match message.body {
            Body::Initiation => Ok(self.open_session(i)),
            Body::Established => self.establish_session(i),
            Body::Termination => self.close_session(i),
            Body::Start { is_valid, position } => self.start(line, i, is_valid, &position),
            Body::TrainData => self.take_data(i, message.time),
            Body::Request(position) => self.request(line, i, &position),
            Body::Report(position) => self.report(line, i, &position),
            Body::Granted(stamp, position) => self.granted(line, i, stamp, &position),
            Body::Rejected(stamp) => self.rejected(i, stamp),
            Body::EndOfMission(position) => self.end_mission(line, i, &position),
        };
        if said.is_err() {
            self.trains[i].heard = before;
        }
        Ok((i, said?))
    }

    pub fn set(&mut self, line: &Line, s: u16) -> Result<Outcome, Refused> {
        self.tick(0)?;
        if !line.is_home(self.number, s) {
            return Ok(self.told(Word::NotHome(s)));
        }
        let page = &mut self.book[s as usize];
        page.is_wished = false;
        if page.entry == Entry::Shut {
            page.entry = Entry::Open;
        }
        Ok(self.told(Word::Done(s)))
    }

    pub fn unset(&mut self, line: &Line, s: u16) -> Result<Outcome, Refused> {
        self.tick(0)?;
        if !line.is_home(self.number, s) {
            return Ok(self.told(Word::NotHome(s)));
        }
        let page = &mut self.book[s as usize];
        let mut said = Said::default();
        let i = match page.entry {
            Entry::Shut | Entry::Open => {
                *page = Page { entry: Entry::Shut, is_wished: false };
                return Ok(self.told(Word::Done(s)));
            }
            Entry::Taken(t) => t as usize,
            Entry::Out(t) => {
                for to in (0..line.centres).filter(|to| *to != self.number) {
                    said.send(to, Sent::RouteWithdraw(s));
                }
                t as usize
            }
        };
        page.is_wished = true;
        said.word = Some(Word::Asked(s));
        self.propose(line, i, s, &mut said);
        Ok(self.outcome(line, i, said))
    }

    pub fn deliver(&mut self, line: &Line, from: u8, number: u32, frame: &Frame) -> Result<Outcome, Refused> {
        self.tick(frame.stamp)?;
        let before = &mut self.taken[from as usize];
        let taken = match number {
            n if n <= *before => Taken::Old,
            n if n == *before + 1 => Taken::Next,
            _ => Taken::Early,
        };
        if taken != Taken::Next {
            return Ok(Outcome { stamp: self.clock, taken: Some(taken), ..Outcome::default() });
        }
        *before = number;
        let i = frame.train as usize;
        let said = self.receive(line, i, from, frame.body);
        Ok(Outcome { taken: Some(taken), ..self.outcome(line, i, said) })
    }

    fn tick(&mut self, stamp: u32) -> Result<(), Refused> {
        let last = self.clock.max(stamp);
        if last >= LAST_STAMP {
            return Err(Refused::ClockEnd);
        }
        if self.sent.iter().any(|frames| frames.len() + 4 > MOST_FRAMES) {
            return Err(Refused::LinkFull);
        }
        self.clock = last + 1;
        Ok(())
    }

    fn told(&self, word: Word) -> Outcome {
        Outcome { stamp: self.clock, word: Some(word), ..Outcome::default() }
    }

    /// What a step has come to is said and sent.
    fn outcome(&mut self, line: &Line, i: usize, said: Said) -> Outcome {
        let mut outcome = Outcome { stamp: self.clock, word: said.word, told: said.told, ..Outcome::default() };
        for (at, (reply, group)) in said.replies.into_iter().flatten().enumerate() {
            let train = &mut self.trains[i];
            train.said += 1;
            outcome.sayings[at] = Some((line.trains[i].engine, encode(reply, train.said, group)));
        }
        if said.home[0].is_some() || !said.frames.is_empty() {
            outcome.sent = self.post(line, i, &said.home, &said.frames);
        }
        outcome
    }

    /// To each centre first the sections that go home to it, and then what else it is told. Gives the receivers.
    fn post(&mut self, line: &Line, i: usize, home: &[Option<Run>; 2], frames: &[(u8, Sent)]) -> Vec<u8> {
        let mut receivers = Vec::new();
        for to in (0..line.centres).filter(|to| *to != self.number) {
            let parts = home.iter().flatten().filter_map(|run| part_of(line, to, *run)).map(Sent::RouteReturn);
            let told = frames.iter().filter(|(receiver, _)| *receiver == to).map(|(_, body)| *body);
            for body in parts.chain(told) {
                self.sent[to as usize].push(Frame { stamp: self.clock, train: i as u8, body });
                receivers.push(to);
            }
        }
        receivers
    }

    /// These sections leave a hand or a pool: those of this home are given back, and those that were wished back are shut, which is
    /// told; the others go home.
    pub fn give_up(&mut self, line: &Line, i: usize, run: Run, said: &mut Said) {
        let home = self.number;
        for s in run.numbers().filter(|s| line.is_home(home, *s)) {
            self.free(i, s, said);
        }
        said.go_home(run);
    }

    pub fn free(&mut self, i: usize, s: u16, said: &mut Said) {
        let page = &mut self.book[s as usize];
        let mut entry = Entry::Open;
        if page.is_wished {
            said.told.push(s);
            entry = Entry::Shut;
        }
        *page = Page { entry, is_wished: false };
        self.trains[i].used -= 1;
    }

    /// The sections are in use for the train.
    pub fn take(&mut self, run: Run, i: usize) {
        for s in run.numbers() {
            self.book[s as usize].entry = Entry::Taken(i as u8);
        }
        self.trains[i].used += run.count;
    }

    pub fn is_free(&self, line: &Line, s: u16) -> bool {
        line.is_home(self.number, s) && self.book[s as usize].entry == Entry::Open
    }
}

/// Those sections of a run that are of this home.
pub fn part_of(line: &Line, home: u8, run: Run) -> Option<Run> {
    let first = run.numbers().find(|s| line.is_home(home, *s))?;
    let count = (first..run.next_after()).take_while(|s| line.is_home(home, *s)).count() as u16;
    Some(Run { first, count })
}
