// What plain Rust radio block centres (`../peer`) have after each event of a run, for comparison with a picture of it.
//
// `pictures FOLDER EVENTS SEED` writes line.toml and script, events in any order on a small line of three centres, and so.txt: a line an
// event. On it stand the sections that are in use, as `3:given:10`, `4:kept:10` or `4:kept:10:wished`; who supervises each train that has a
// mission, as `10@A`, or `10@` while the mission is on the way; and each start of mission that waits, as `10?B`.

#[path = "../peer/mod.rs"]
mod peer;
#[path = "../handovers/storm.rs"]
mod storm;
#[path = "../handovers/traffic.rs"]
mod traffic;

use peer::draw::Draw;
use peer::line::Run;
use peer::script;
use peer::state::Entry;
use peer::world::{World, name};

fn main() {
    let words: Vec<String> = std::env::args().skip(1).collect();
    let [folder, events, seed] = &words[..] else { panic!("FOLDER EVENTS SEED") };
    let mut draw = Draw::new(seed.parse().expect("a number"));
    let line = storm::line_of(&mut draw);
    let events = storm::events(&line, events.parse().expect("a number"), &mut draw);
    script::write(folder, &line, &events);
    let mut world = World::new(&line);
    let mut text = String::new();
    for event in &events {
        world.step(event).expect("a step is taken");
        text.push_str(&state_of(&world).join(" "));
        text.push('\n');
    }
    std::fs::write(format!("{folder}/so.txt"), text).expect("the file is written");
}

fn state_of(world: &World) -> Vec<String> {
    let hands = hands_of(world);
    let mut words = Vec::new();
    for (s, section) in world.line.sections.iter().enumerate() {
        let page = world.centres[section.home as usize].book[s];
        let (Entry::Taken(train) | Entry::Out(train)) = page.entry else { continue };
        let is_given = hands.iter().any(|(t, hand, _)| *t == train && hand.has(s as u16));
        let look = if is_given { "given" } else { "kept" };
        let wish = if page.is_wished { ":wished" } else { "" };
        words.push(format!("{s}:{look}:{}{wish}", world.line.trains[train as usize].engine));
    }
    for (train, _, centre) in &hands {
        let at = centre.map_or(String::new(), |c| name(c).to_string());
        words.push(format!("{}@{at}", world.line.trains[*train as usize].engine));
    }
    for centre in &world.centres {
        for (i, train) in centre.trains.iter().enumerate() {
            if train.wait.is_some() {
                words.push(format!("{}?{}", world.line.trains[i].engine, name(centre.number)));
            }
        }
    }
    words
}

/// The hand of each mission by its train, and the centre that has it; none where it is on the way in a frame that was not taken.
fn hands_of(world: &World) -> Vec<(u8, Run, Option<u8>)> {
    let mut hands = Vec::new();
    for centre in &world.centres {
        for (i, train) in centre.trains.iter().enumerate() {
            if let Some(mission) = train.mission {
                hands.push((i as u8, mission.hand, Some(centre.number)));
            }
        }
        for (to, frames) in centre.sent.iter().enumerate() {
            let Some(receiver) = world.centres.get(to) else { continue };
            for frame in &frames[receiver.taken[centre.number as usize] as usize..] {
                if let peer::frames::Body::Yield(_, yielded) = frame.body {
                    hands.push((frame.train, yielded.hand, None));
                }
            }
        }
    }
    hands
}
