// What plain Rust radio block centres (`../peer`) have before the first event of a run and after each, for the page of
// a print.
//
// `pages` reads lines: `nid_c 5`, `centres 2`, `section TRACK HOME BALISE START END` and `engine ENGINE REGISTRAR` by their order, all in numbers,
// and then the events: `train CENTRE HEX`, `set CENTRE SECTION`, `unset CENTRE SECTION`, `deliver FROM TO NUMBER`. It writes a line of JSON for
// the beginning and one for each event: the sections, missions and sessions that there are, and what the event was answered. Trains,
// centres and tracks go by their places in the line.

#[path = "../peer/mod.rs"]
mod peer;

use peer::frames::Body as Sent;
use peer::line::{Line, Run, Section, Train};
use peer::state::{Entry, Mission, Outcome, Phase, Taken, Word};
use peer::world::{Answer, Event, World};
use std::io::Read;

fn main() {
    let mut text = String::new();
    std::io::stdin().read_to_string(&mut text).expect("text");
    let rows: Vec<Vec<&str>> = text.lines().map(|row| row.split(' ').collect()).collect();
    let line = line_of(&rows);
    let mut world = World::new(&line);
    println!("{{{}}}", state_of(&world));
    for row in &rows {
        let Some(event) = event_of(row) else { continue };
        let answer = world.step(&event).expect("a step is taken");
        println!("{{{},\"answer\":[{}]}}", state_of(&world), answer_of(&world, &answer).join(","));
    }
}

fn value<T: std::str::FromStr>(word: &str) -> T {
    word.parse().ok().expect("a number")
}

fn line_of(rows: &[Vec<&str>]) -> Line {
    let (mut nid_c, mut centres, mut sections, mut trains) = (0, 0, Vec::new(), Vec::new());
    for row in rows {
        match row[..] {
            ["nid_c", word] => nid_c = value(word),
            ["centres", word] => centres = value(word),
            ["section", track, home, balise, start, end] => sections.push(Section {
                track: value(track),
                home: value(home),
                balise: value(balise),
                start: value(start),
                end: value(end),
            }),
            ["engine", engine, registrar] => trains.push(Train { engine: value(engine), registrar: value(registrar) }),
            _ => {}
        }
    }
    Line::new(nid_c, centres, sections, trains)
}

fn event_of(row: &[&str]) -> Option<Event> {
    Some(match row[..] {
        ["train", centre, digits] => Event::Train {
            centre: value(centre),
            bytes: (0..digits.len() / 2).map(|i| u8::from_str_radix(&digits[2 * i..2 * i + 2], 16).expect("hexadecimal")).collect(),
        },
        ["set", centre, section] => Event::Set { centre: value(centre), section: value(section) },
        ["unset", centre, section] => Event::Unset { centre: value(centre), section: value(section) },
        ["deliver", from, to, number] => Event::Deliver { from: value(from), to: value(to), number: value(number) },
        _ => return None,
    })
}

fn number<T: std::fmt::Display>(it: Option<T>) -> String {
    it.map_or("null".into(), |it| it.to_string())
}

fn state_of(world: &World) -> String {
    let missions = missions_of(world);
    let sections: Vec<String> = (0..world.line.sections.len() as u16).map(|s| section_of(world, &missions, s)).collect();
    let shown: Vec<String> = missions.iter().map(|(train, seat, mission)| mission_of(*train, *seat, mission)).collect();
    let mut phases = Vec::new();
    for i in 0..world.line.trains.len() {
        for centre in &world.centres {
            let phase = match centre.trains[i] {
                train if train.wait.is_some() => "start waits",
                train if train.phase == Phase::Opened => "opened",
                train if train.phase == Phase::Up => "up",
                _ => continue,
            };
            phases.push(format!("[{i},{},\"{phase}\"]", centre.number));
        }
    }
    format!("\"sections\":[{}],\"missions\":[{}],\"phases\":[{}]", sections.join(","), shown.join(","), phases.join(","))
}

fn section_of(world: &World, missions: &[(u8, Option<u8>, Mission)], s: u16) -> String {
    let page = world.centres[world.line.sections[s as usize].home as usize].book[s as usize];
    let wish = u8::from(page.is_wished);
    match page.entry {
        Entry::Shut => format!("[\"shut\",null,{wish}]"),
        Entry::Open => format!("[\"open\",null,{wish}]"),
        Entry::Taken(train) | Entry::Out(train) => {
            let is_given = missions.iter().any(|(t, _, mission)| *t == train && mission.hand.has(s));
            let look = if is_given { "given" } else { "kept" };
            format!("[\"{look}\",{},{wish}]", world.line.trains[train as usize].engine)
        }
    }
}

fn mission_of(train: u8, seat: Option<u8>, mission: &Mission) -> String {
    let to = mission.handing.map(|handing| handing.to);
    let asked = mission.proposal.map(|proposal| proposal.last_kept);
    let place = mission.place;
    format!(
        "[{train},{},{},{},{},{},{},{},{},{}]",
        number(seat),
        number(to),
        place.track,
        number(place.rear.map(|rear| rear.max(0))),
        place.front,
        mission.hand.first,
        mission.hand.count,
        number(asked),
        u8::from(mission.is_ended)
    )
}

/// The missions by their trains' places in the line: where each is, which is nowhere while it is on the way in a frame that was not taken.
fn missions_of(world: &World) -> Vec<(u8, Option<u8>, Mission)> {
    let mut missions = Vec::new();
    for centre in &world.centres {
        for (i, train) in centre.trains.iter().enumerate() {
            if let Some(mission) = train.mission {
                missions.push((i as u8, Some(centre.number), mission));
            }
        }
        for (to, frames) in centre.sent.iter().enumerate() {
            let Some(receiver) = world.centres.get(to) else { continue };
            for frame in &frames[receiver.taken[centre.number as usize] as usize..] {
                if let Sent::Yield(_, yielded) = frame.body {
                    missions.push((frame.train, None, on_the_way(&yielded)));
                }
            }
        }
    }
    missions.sort_by_key(|(train, ..)| *train);
    missions
}

fn on_the_way(yielded: &peer::frames::Yielded) -> Mission {
    Mission {
        place: yielded.place,
        hand: yielded.hand,
        pool: Run { first: 0, count: 0 },
        has_data: yielded.has_data,
        is_ended: yielded.is_ended,
        proposal: None,
        handing: None,
    }
}

/// What is answered, in the order in which it is printed.
fn answer_of(world: &World, answer: &Answer) -> Vec<String> {
    match answer {
        Answer::Outcome(centre, outcome) => outcome_of(world, *centre, outcome),
        Answer::NoCentre => panic!("a script names centres of the line alone"),
        Answer::NotSent => vec!["[\"not sent\"]".into()],
        Answer::Fault(fault) => vec![format!("[\"fault\",{}]", *fault as u8)],
    }
}

fn outcome_of(world: &World, centre: u8, outcome: &Outcome) -> Vec<String> {
    let mut rows = Vec::new();
    for (engine, bytes) in outcome.sayings.iter().flatten() {
        let digits: String = bytes.iter().map(|byte| format!("{byte:02X}")).collect();
        rows.push(format!("[\"say\",{centre},{engine},\"{digits}\"]"));
    }
    for to in 0..world.centres.len() as u8 {
        let sent = outcome.sent.iter().filter(|it| **it == to).count();
        let frames = &world.centres[centre as usize].sent[to as usize];
        for number in frames.len() - sent..frames.len() {
            rows.push(format!("[\"frame\",{centre},{to},{},\"{}\"]", number + 1, name_of(&frames[number].body)));
        }
    }
    match outcome.word {
        Some(Word::Done(s)) => rows.push(format!("[\"word\",{centre},{s},\"Done\"]")),
        Some(Word::Asked(s)) => rows.push(format!("[\"word\",{centre},{s},\"Asked\"]")),
        Some(Word::NotHome(s)) => rows.push(format!("[\"word\",{centre},{s},\"NotHome\"]")),
        None => {}
    }
    rows.extend(outcome.told.iter().map(|s| format!("[\"word\",{centre},{s},\"Told\"]")));
    match (outcome.silence, outcome.taken) {
        (Some(why), _) => rows.push(format!("[\"silent\",{centre},{}]", why as u8)),
        (_, Some(Taken::Old)) => rows.push(format!("[\"late\",{centre},\"old\"]")),
        (_, Some(Taken::Early)) => rows.push(format!("[\"late\",{centre},\"early\"]")),
        _ if rows.is_empty() => rows.push(format!("[\"ok\",{centre}]")),
        _ => {}
    }
    rows
}

fn name_of(body: &Sent) -> &'static str {
    match body {
        Sent::AskRight => "AskRight",
        Sent::GiveRight => "GiveRight",
        Sent::RefuseRight => "RefuseRight",
        Sent::ReturnRight => "ReturnRight",
        Sent::RouteAsk(_) => "RouteAsk",
        Sent::RouteInfo(_) => "RouteInfo",
        Sent::RouteWithdraw(_) => "RouteWithdraw",
        Sent::RouteReturn(_) => "RouteReturn",
        Sent::Announce { .. } => "Announce",
        Sent::Cancel(_) => "Cancel",
        Sent::TakingOver(_) => "TakingOver",
        Sent::Yield(..) => "Yield",
    }
}
