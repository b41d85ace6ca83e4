// What goes between centres: rights, sections over a border, and handovers.

use super::centre::{Centre, part_of};
use super::frames::{Body, Yielded};
use super::line::{Line, Place, Run};
use super::message::{Position, Reply};
use super::rules::MOST_SECTIONS;
use super::state::*;

const SECTIONS: u16 = 512;

impl Centre {
    pub fn receive(&mut self, line: &Line, i: usize, from: u8, body: Body) -> Said {
        let mut said = Said::default();
        match body {
            Body::AskRight => self.right_asked(i, from, &mut said),
            Body::GiveRight => self.right_given(line, i, &mut said),
            Body::RefuseRight => self.right_refused(i, &mut said),
            Body::ReturnRight => self.trains[i].has_right = true,
            Body::RouteAsk(run) => self.route_asked(line, i, from, run, &mut said),
            Body::RouteInfo(run) => self.route_told(line, i, run, &mut said),
            Body::RouteWithdraw(s) => self.route_withdrawn(line, i, s, &mut said),
            Body::RouteReturn(run) => self.route_returned(line, i, run, &mut said),
            Body::Announce { number, .. } => {
                self.trains[i].expected[from as usize].get_or_insert(Expectation { number, is_taking: false });
            }
            Body::Cancel(number) => {
                let expected = &mut self.trains[i].expected[from as usize];
                *expected = expected.filter(|it| it.number != number);
            }
            Body::TakingOver(number) => self.taking_over(line, i, from, number, &mut said),
            Body::Yield(number, yielded) => self.take_up(line, i, from, number, yielded, &mut said),
        }
        said
    }

    // ## Rights

    fn right_asked(&mut self, i: usize, from: u8, said: &mut Said) {
        let is_given = std::mem::take(&mut self.trains[i].has_right);
        said.send(from, if is_given { Body::GiveRight } else { Body::RefuseRight });
    }

    fn right_given(&mut self, line: &Line, i: usize, said: &mut Said) {
        let train = &mut self.trains[i];
        train.has_asked = false;
        match train.wait {
            Some((place, covered)) if train.mission.is_none() => {
                train.wait = None;
                self.admit(i, place, covered, said);
            }
            _ => said.send(line.trains[i].registrar, Body::ReturnRight),
        }
    }

    fn right_refused(&mut self, i: usize, said: &mut Said) {
        self.trains[i].has_asked = false;
        if self.trains[i].wait.is_some() {
            self.drop_wait(i, said);
            said.reply(Reply::Rejected);
        }
    }

    // ## Sections over a border

    fn route_asked(&mut self, line: &Line, i: usize, from: u8, asked: Run, said: &mut Said) {
        let track = line.sections[asked.first as usize].track;
        let is_lent = |s: &u16| line.is_on(track, *s) && self.is_free(line, *s);
        let count = asked.numbers().take_while(is_lent).count() as u16;
        let lent = Run { count, ..asked };
        for s in lent.numbers() {
            self.book[s as usize].entry = Entry::Out(i as u8);
        }
        self.trains[i].used += count;
        said.send(from, Body::RouteInfo(lent));
    }

    fn route_told(&mut self, line: &Line, i: usize, run: Run, said: &mut Said) {
        self.trains[i].route_ask = None;
        if run.count == 0 {
            return;
        }
        let follows = |mission: &Mission| {
            !mission.is_ended && mission.hand.next_after() == run.first && line.is_on(mission.place.track, run.first)
        };
        match self.trains[i].mission.as_mut().filter(|mission| follows(mission)) {
            Some(mission) => mission.pool = run,
            None => said.go_home(run),
        }
    }

    fn route_withdrawn(&mut self, line: &Line, i: usize, s: u16, said: &mut Said) {
        let Some(mission) = &mut self.trains[i].mission else { return };
        if mission.pool.has(s) {
            said.go_home(Run { first: s, count: mission.pool.next_after() - s });
            mission.pool.count = s - mission.pool.first;
        } else {
            self.propose(line, i, s, said);
        }
    }

    fn route_returned(&mut self, line: &Line, i: usize, run: Run, said: &mut Said) {
        for s in run.numbers() {
            if self.book[s as usize].entry == Entry::Out(i as u8) {
                self.free(i, s, said);
            }
        }
        let train = &self.trains[i];
        let is_awaited = train.wait.is_some() || train.expected.iter().any(Option::is_some);
        if train.used == 0 && train.mission.is_none() && !is_awaited {
            self.order_end(line, i, said);
        }
    }

    fn order_end(&self, line: &Line, i: usize, said: &mut Said) {
        if self.trains[i].phase == Phase::Up {
            said.reply(Reply::EndSession { nid_c: line.nid_c, nid_rbc: u32::from(self.number) + 1 });
        }
    }

    // ## At the border

    /// The next centre is told of the train, once the hand has a section of its home; and it is asked for more.
    pub fn at_border(&mut self, line: &Line, i: usize, said: &mut Said) {
        let Some(mission) = &mut self.trains[i].mission else { return };
        let Some(next) = line.next_centre(self.number, mission.place.track) else { return };
        let Mission { place, hand, .. } = *mission;
        let border = hand.numbers().find(|s| line.is_home(next, *s)).filter(|_| mission.handing.is_none());
        if let Some(border) = border {
            self.announced += 1;
            mission.handing = Some(Handing { number: self.announced, to: next });
            let distance = line.sections[border as usize].start.saturating_sub(place.group_start);
            let order = Reply::Transition { distance, nid_c: line.nid_c, nid_rbc: u32::from(next) + 1 };
            said.reply_at(order, place.group);
            said.send(next, Body::Announce { number: self.announced, track: place.track });
        }
        let first = hand.next_after();
        let is_wanted = line.is_on(place.track, first) && line.is_home(next, first);
        if is_wanted && hand.count < MOST_SECTIONS && mission.pool.count == 0 && self.trains[i].route_ask.is_none() {
            self.trains[i].route_ask = Some(first);
            let count = (MOST_SECTIONS - hand.count).min(SECTIONS - first);
            said.send(next, Body::RouteAsk(Run { first, count }));
        }
    }

    /// A mission with no section left ends here; its right goes back.
    pub fn close(&mut self, line: &Line, i: usize, said: &mut Said) {
        let Some(mission) = self.trains[i].mission.take() else { return };
        self.give_up(line, i, mission.pool, said);
        if let Some(Handing { number, to }) = mission.handing {
            said.send(to, Body::Cancel(number));
        }
        let registrar = line.trains[i].registrar;
        if registrar == self.number {
            self.trains[i].has_right = true;
        } else {
            said.send(registrar, Body::ReturnRight);
        }
    }

    // ## Handover

    /// A report of a train that is supervised elsewhere: each centre that announced it is told once that this one takes over.
    pub fn report_elsewhere(&mut self, line: &Line, i: usize, position: &Position) -> Result<Said, Silence> {
        let train = &mut self.trains[i];
        let is_here = |place: Place| line.front_section(&place).is_some_and(|s| line.is_home(self.number, s));
        if !train.expected.iter().any(Option::is_some) || !line.place(position).is_some_and(is_here) {
            return Err(Silence::NotSupervised);
        }
        let mut said = Said::default();
        for (from, expected) in train.expected.iter_mut().enumerate() {
            if let Some(it) = expected.as_mut().filter(|it| !it.is_taking) {
                it.is_taking = true;
                said.send(from as u8, Body::TakingOver(it.number));
            }
        }
        Ok(said)
    }

    /// The mission goes to the centre that takes over, if its handover stands under this number to that centre.
    fn taking_over(&mut self, line: &Line, i: usize, from: u8, number: u32, said: &mut Said) {
        let Some(mission) = self.trains[i].mission else { return };
        let Some(Handing { to, .. }) = mission.handing.filter(|it| it.number == number && it.to == from) else { return };
        let own = part_of(line, self.number, mission.hand).unwrap_or(Run { count: 0, ..mission.hand });
        self.trains[i].mission = None;
        self.give_up(line, i, mission.pool, said);
        for s in own.numbers() {
            self.book[s as usize].entry = Entry::Out(i as u8);
        }
        let Mission { place, hand, has_data, is_ended, .. } = mission;
        let heard = self.trains[i].heard.unwrap_or(0);
        said.send(to, Body::Yield(number, Yielded { heard, has_data, is_ended, place, hand }));
        if own.count == 0 {
            self.order_end(line, i, said);
        }
    }

    fn take_up(&mut self, line: &Line, i: usize, from: u8, number: u32, yielded: Yielded, said: &mut Said) {
        let train = &mut self.trains[i];
        let is_due = train.expected[from as usize].is_some_and(|it| it.number == number && it.is_taking);
        if !is_due || train.mission.is_some() || train.has_right {
            return;
        }
        train.expected[from as usize] = None;
        train.heard = train.heard.max(Some(yielded.heard));
        let Yielded { place, hand, has_data, is_ended, .. } = yielded;
        let pool = Run { first: hand.next_after(), count: 0 };
        train.mission = Some(Mission { place, hand, pool, has_data, is_ended, proposal: None, handing: None });
        let own = part_of(line, self.number, hand).unwrap_or(pool);
        for s in own.numbers() {
            self.book[s as usize].entry = Entry::Taken(i as u8);
        }
        if let Some(s) = own.numbers().find(|s| self.book[*s as usize].is_wished) {
            self.propose(line, i, s, said);
        }
    }
}
