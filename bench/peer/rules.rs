// What each message does at a centre (SUBSET-026 3.5, 3.6, 3.8, 5.4, 5.5).

use super::centre::Centre;
use super::frames::Body as Sent;
use super::line::{Line, Place, Run};
use super::message::{Position, Reply};
use super::state::*;

pub const MOST_SECTIONS: u16 = 32;
pub const MOST_METRES: u32 = 32_767;

type Answer = Result<Said, Silence>;

impl Centre {
    fn is_up(&self, i: usize) -> Result<(), Silence> {
        match self.trains[i].phase {
            Phase::Silent => Err(Silence::NoSession),
            Phase::Opened => Err(Silence::WrongPhase),
            Phase::Up => Ok(()),
        }
    }

    /// The mission that is supervised here.
    fn supervised(&self, i: usize) -> Result<Mission, Silence> {
        self.is_up(i)?;
        self.trains[i].mission.ok_or(Silence::NotSupervised)
    }

    /// What ends with a session: a request to shorten, and a start that waits.
    fn end_session(&mut self, i: usize, said: &mut Said) {
        if let Some(mission) = &mut self.trains[i].mission {
            mission.proposal = None;
        }
        self.drop_wait(i, said);
    }

    pub fn drop_wait(&mut self, i: usize, said: &mut Said) {
        let Some((_, covered)) = self.trains[i].wait.take() else { return };
        for s in covered.numbers() {
            self.free(i, s, said);
        }
    }

    // ## Sessions

    pub fn open_session(&mut self, i: usize) -> Said {
        let mut said = Said::default();
        self.end_session(i, &mut said);
        self.trains[i].phase = Phase::Opened;
        said.reply(Reply::SystemVersion);
        said
    }

    pub fn establish_session(&mut self, i: usize) -> Answer {
        match self.trains[i].phase {
            Phase::Silent => Err(Silence::NoSession),
            Phase::Up => Err(Silence::WrongPhase),
            Phase::Opened => {
                self.trains[i].phase = Phase::Up;
                Ok(Said::default())
            }
        }
    }

    pub fn close_session(&mut self, i: usize) -> Answer {
        if self.trains[i].phase == Phase::Silent {
            return Err(Silence::NoSession);
        }
        let mut said = Said::default();
        self.end_session(i, &mut said);
        self.trains[i].phase = Phase::Silent;
        said.reply(Reply::TerminationAcknowledged);
        Ok(said)
    }

    // ## Start of mission

    pub fn start(&mut self, line: &Line, i: usize, is_valid: bool, position: &Position) -> Answer {
        self.is_up(i)?;
        if self.trains[i].wait.is_some() {
            return Err(Silence::WrongPhase);
        }
        let mut said = Said::default();
        let fit = line.place(position).filter(|_| is_valid).and_then(|place| Some((place, line.start_at(&place)?)));
        let Some((place, covered)) = fit else {
            said.reply(Reply::Rejected);
            return Ok(said);
        };
        match self.trains[i].mission {
            Some(_) => self.restart(i, place, covered, &mut said),
            None => self.begin(line, i, place, covered, &mut said),
        }
        Ok(said)
    }

    fn restart(&mut self, i: usize, place: Place, covered: Run, said: &mut Said) {
        let Some(mission) = &mut self.trains[i].mission else { return };
        if !covered.numbers().all(|s| mission.hand.has(s)) {
            return said.reply(Reply::Rejected);
        }
        *mission = Mission { place, has_data: false, is_ended: false, proposal: None, ..*mission };
        said.reply(Reply::Accepted);
    }

    fn begin(&mut self, line: &Line, i: usize, place: Place, covered: Run, said: &mut Said) {
        let registrar = line.trains[i].registrar;
        let is_registrar = registrar == self.number;
        if !covered.numbers().all(|s| self.is_free(line, s)) || (is_registrar && !self.trains[i].has_right) {
            return said.reply(Reply::Rejected);
        }
        self.take(covered, i);
        if is_registrar {
            self.trains[i].has_right = false;
            return self.admit(i, place, covered, said);
        }
        self.trains[i].wait = Some((place, covered));
        if !self.trains[i].has_asked {
            self.trains[i].has_asked = true;
            said.send(registrar, Sent::AskRight);
        }
    }

    pub fn admit(&mut self, i: usize, place: Place, hand: Run, said: &mut Said) {
        let pool = Run { first: hand.next_after(), count: 0 };
        let mission = Mission { place, hand, pool, has_data: false, is_ended: false, proposal: None, handing: None };
        self.trains[i].mission = Some(mission);
        said.reply(Reply::Accepted);
    }

    pub fn take_data(&mut self, i: usize, time: u32) -> Answer {
        let mission = self.supervised(i)?;
        if mission.is_ended {
            return Err(Silence::MissionEnded);
        }
        self.trains[i].mission = Some(Mission { has_data: true, ..mission });
        let mut said = Said::default();
        said.reply(Reply::DataAcknowledged(time));
        Ok(said)
    }

    // ## Request

    pub fn request(&mut self, line: &Line, i: usize, position: &Position) -> Answer {
        let mission = self.supervised(i)?;
        if mission.is_ended {
            return Err(Silence::MissionEnded);
        }
        if !mission.has_data {
            return Err(Silence::NoTrainData);
        }
        if mission.proposal.is_some() {
            return Err(Silence::ProposalPending);
        }
        let place = line.place_on(mission.place.track, position).ok_or(Silence::NoPlace)?;
        let end = hand_end(line, mission.hand);
        if place.front > 10 * end || end > place.group_start + MOST_METRES {
            return Err(Silence::NoPlace);
        }
        let more = self.extension(line, &mission, &place);
        let hand = Run { count: mission.hand.count + more.count, ..mission.hand };
        let fed = more.numbers().filter(|s| mission.pool.has(*s)).count() as u16;
        let pool = Run { first: mission.pool.first + fed, count: mission.pool.count - fed };
        self.take(Run { count: more.count - fed, ..more }, i);
        self.trains[i].mission = Some(Mission { place, hand, pool, ..mission });
        let mut said = Said::default();
        said.reply_at(Reply::Authority(hand_end(line, hand) - place.group_start), place.group);
        self.at_border(line, i, &mut said);
        Ok(said)
    }

    /// The sections that may follow in the hand: free ones of this home, and those of the pool.
    fn extension(&self, line: &Line, mission: &Mission, place: &Place) -> Run {
        let first = mission.hand.next_after();
        let limit = place.group_start + MOST_METRES;
        let may_follow = |s: u16| {
            line.is_on(place.track, s)
                && (self.is_free(line, s) || mission.pool.has(s))
                && line.sections[s as usize].end <= limit
        };
        let most = MOST_SECTIONS.saturating_sub(mission.hand.count);
        let count = (first..first + most).take_while(|s| may_follow(*s)).count();
        Run { first, count: count as u16 }
    }

    // ## Report and end of mission

    pub fn report(&mut self, line: &Line, i: usize, position: &Position) -> Answer {
        self.is_up(i)?;
        let Some(mission) = self.trains[i].mission else {
            return self.report_elsewhere(line, i, position);
        };
        let place = line.place_on(mission.place.track, position).ok_or(Silence::NoPlace)?;
        let mut said = Said::default();
        self.clear(line, i, mission, place, &mut said);
        Ok(said)
    }

    pub fn end_mission(&mut self, line: &Line, i: usize, position: &Position) -> Answer {
        let mission = self.supervised(i)?;
        if mission.is_ended {
            return Err(Silence::MissionEnded);
        }
        let mut said = Said::default();
        if let Some(place) = line.place_on(mission.place.track, position) {
            self.clear(line, i, mission, place, &mut said);
            if position.is_still {
                self.stand_still(line, i, place.front, &mut said);
            }
        }
        if let Some(mission) = &mut self.trains[i].mission {
            mission.is_ended = true;
            mission.proposal = None;
            let pool = mission.pool;
            mission.pool.count = 0;
            self.give_up(line, i, pool, &mut said);
        }
        Ok(said)
    }

    /// What begins at the front or past it leaves the hand, where another section of it begins before.
    fn stand_still(&mut self, line: &Line, i: usize, front: u32, said: &mut Said) {
        let Some(Mission { hand, .. }) = self.trains[i].mission else { return };
        let reached = hand.numbers().take_while(|s| 10 * line.sections[*s as usize].start < front).count() as u16;
        if 0 < reached && reached < hand.count {
            self.cut(line, i, reached, said);
        }
    }

    fn clear(&mut self, line: &Line, i: usize, mission: Mission, place: Place, said: &mut Said) {
        let count = line.cleared(mission.hand, &place);
        self.give_up(line, i, Run { count, ..mission.hand }, said);
        let hand = Run { first: mission.hand.first + count, count: mission.hand.count - count };
        self.trains[i].mission = Some(Mission { place, hand, ..mission });
        if hand.count == 0 {
            self.close(line, i, said);
        }
    }

    // ## Shortening

    /// Message 9 for section s of the train's hand, where it may be made.
    pub fn propose(&mut self, line: &Line, i: usize, s: u16, said: &mut Said) {
        let TrainState { phase, said: count, mission: Some(mission), .. } = &mut self.trains[i] else { return };
        let start = line.sections[s as usize].start;
        let place = mission.place;
        let is_of_hand = mission.hand.has(s) && s != mission.hand.first;
        let is_open = *phase == Phase::Up && !mission.is_ended && mission.proposal.is_none();
        if is_open && is_of_hand && place.front <= 10 * start && start <= place.group_start + MOST_METRES {
            mission.proposal = Some(Proposal { stamp: *count + 1, last_kept: s - 1 });
            said.reply_at(Reply::ShorteningRequest(start.saturating_sub(place.group_start)), place.group);
        }
    }

    pub fn granted(&mut self, line: &Line, i: usize, stamp: u32, position: &Position) -> Answer {
        let (mission, proposal) = self.asked(i, stamp)?;
        let mut said = Said::default();
        let kept_end = 10 * line.sections[proposal.last_kept as usize].end;
        let may_cut = line.place_on(mission.place.track, position).is_some_and(|place| place.front <= kept_end);
        self.trains[i].mission = Some(Mission { proposal: None, ..mission });
        if may_cut {
            self.cut(line, i, (proposal.last_kept + 1).saturating_sub(mission.hand.first), &mut said);
        }
        Ok(said)
    }

    /// So many sections of the hand are kept, if it has as many; what follows them and the pool are given up.
    fn cut(&mut self, line: &Line, i: usize, count: u16, said: &mut Said) {
        let Some(Mission { hand, pool, handing, .. }) = self.trains[i].mission else { return };
        let count = count.min(hand.count);
        self.give_up(line, i, Run { first: hand.first + count, count: hand.count - count }, said);
        self.give_up(line, i, pool, said);
        let kept = Run { count, ..hand };
        let Some(mission) = &mut self.trains[i].mission else { return };
        mission.hand = kept;
        mission.pool.count = 0;
        if count == 0 {
            return self.close(line, i, said);
        }
        let Some(Handing { number, to }) = handing else { return };
        if !kept.numbers().any(|s| line.is_home(to, s)) {
            mission.handing = None;
            said.send(to, Sent::Cancel(number));
        }
    }

    pub fn rejected(&mut self, i: usize, stamp: u32) -> Answer {
        let (mission, _) = self.asked(i, stamp)?;
        self.trains[i].mission = Some(Mission { proposal: None, ..mission });
        Ok(Said::default())
    }

    /// The mission with the proposal that is answered.
    fn asked(&self, i: usize, stamp: u32) -> Result<(Mission, Proposal), Silence> {
        let mission = self.supervised(i)?;
        let proposal = mission.proposal.filter(|p| p.stamp == stamp).ok_or(Silence::Unasked)?;
        Ok((mission, proposal))
    }
}

/// Where the last section of the hand ends.
fn hand_end(line: &Line, hand: Run) -> u32 {
    line.sections[hand.next_after() as usize - 1].end
}
