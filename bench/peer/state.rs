// What a radio block centre of a line with borders keeps, and what a step of it comes to.

use super::frames::Body as Sent;
use super::line::{Place, Run};
use super::message::{NO_GROUP, Reply};

pub const LAST_STAMP: u32 = 1_073_741_823;
pub const MOST_FRAMES: usize = 65_536;
pub const MOST_CENTRES: usize = 8;

/// Why a message is left without an answer, by the number that is printed.
#[derive(Clone, Copy, Debug, PartialEq, Eq)]
pub enum Silence {
    StaleStamp = 1,
    NoSession = 2,
    ForeignEngine = 3,
    NoPlace = 4,
    NotSupervised = 5,
    NoTrainData = 6,
    ProposalPending = 7,
    Unasked = 8,
    MissionEnded = 9,
    WrongPhase = 10,
}

/// Why a step is refused.
#[derive(Debug, PartialEq, Eq)]
pub enum Refused {
    LinkFull,
    ClockEnd,
}

#[derive(Clone, Copy, Debug, PartialEq, Eq)]
pub enum Word {
    Done(u16),
    Asked(u16),
    NotHome(u16),
}

/// How a link took a frame.
#[derive(Clone, Copy, Debug, PartialEq, Eq)]
pub enum Taken {
    Next,
    Old,
    Early,
}

#[derive(Clone, Default)]
pub struct Outcome {
    pub stamp: u32,
    /// Messages to this engine.
    pub sayings: [Option<(u32, Vec<u8>)>; 2],
    pub word: Option<Word>,
    /// Sections that were wished back and are shut now.
    pub told: Vec<u16>,
    pub silence: Option<Silence>,
    pub taken: Option<Taken>,
    /// The receivers of the frames that were sent, in their order.
    pub sent: Vec<u8>,
}

#[derive(Clone, Copy, PartialEq, Eq)]
pub enum Entry {
    Shut,
    Open,
    Taken(u8),
    /// In use for a train at another centre.
    Out(u8),
}

#[derive(Clone, Copy)]
pub struct Page {
    pub entry: Entry,
    pub is_wished: bool,
}

#[derive(Clone, Copy, PartialEq, Eq)]
pub enum Phase {
    Silent,
    Opened,
    Up,
}

/// A request to shorten: its T_TRAIN, and the last section that is to be kept.
#[derive(Clone, Copy)]
pub struct Proposal {
    pub stamp: u32,
    pub last_kept: u16,
}

/// A handover that was announced.
#[derive(Clone, Copy)]
pub struct Handing {
    pub number: u32,
    pub to: u8,
}

#[derive(Clone, Copy)]
pub struct Mission {
    pub place: Place,
    pub hand: Run,
    /// Lent sections that follow the hand.
    pub pool: Run,
    pub has_data: bool,
    pub is_ended: bool,
    pub proposal: Option<Proposal>,
    pub handing: Option<Handing>,
}

/// A handover that another centre announced.
#[derive(Clone, Copy)]
pub struct Expectation {
    pub number: u32,
    pub is_taking: bool,
}

#[derive(Clone, Copy)]
pub struct TrainState {
    pub phase: Phase,
    pub heard: Option<u32>,
    pub said: u32,
    pub mission: Option<Mission>,
    /// The right to supervise it is here, and in no mission.
    pub has_right: bool,
    /// A question for the right stands.
    pub has_asked: bool,
    /// A start that waits for the right, and the sections under it.
    pub wait: Option<(Place, Run)>,
    /// The question for sections that stands, by its first section.
    pub route_ask: Option<u16>,
    pub expected: [Option<Expectation>; MOST_CENTRES],
    /// How many sections of this home are in use for it.
    pub used: u16,
}

/// What a step has come to so far.
#[derive(Default)]
pub struct Said {
    pub replies: [Option<(Reply, u32)>; 2],
    pub word: Option<Word>,
    pub told: Vec<u16>,
    /// Sections that go home, in rising order.
    pub home: [Option<Run>; 2],
    /// What else is sent, in the order of the frames to one centre.
    pub frames: Vec<(u8, Sent)>,
}

impl Said {
    pub fn reply(&mut self, reply: Reply) {
        self.reply_at(reply, NO_GROUP);
    }

    pub fn reply_at(&mut self, reply: Reply, group: u32) {
        let at = usize::from(self.replies[0].is_some());
        self.replies[at] = Some((reply, group));
    }

    pub fn send(&mut self, to: u8, body: Sent) {
        self.frames.push((to, body));
    }

    /// These go home too; they follow those that do already.
    pub fn go_home(&mut self, run: Run) {
        if run.count == 0 {
            return;
        }
        match &mut self.home {
            [None, _] => self.home[0] = Some(run),
            [Some(before), None] if before.next_after() == run.first => before.count += run.count,
            [Some(_), None] => self.home[1] = Some(run),
            [_, Some(before)] => before.count += run.count,
        }
    }
}
