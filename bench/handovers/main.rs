// Trains that run over the borders of a line, answered by plain Rust radio block centres (`../peer`).
//
// `handovers write FOLDER EVENTS` writes line.toml, script and plain.txt (the answers), and prints how many missions were handed over;
// `handovers storm FOLDER EVENTS SEED` the same of events in any order on a small line; `handovers time EVENTS TURNS` plays the script so
// often, and prints how many events a second the fastest turn took and the bytes of its messages to trains; `commits` does the same
// with commits to the logs of the centres; `lines` makes the lines of their journals.

#[path = "../peer/mod.rs"]
mod peer;
mod storm;
mod traffic;

use peer::draw::Draw;
use peer::journal;
use peer::log;
use peer::run::run;
use peer::script;

fn main() {
    let words: Vec<String> = std::env::args().skip(1).collect();
    let words: Vec<&str> = words.iter().map(String::as_str).collect();
    match words[..] {
        ["write", folder, events] => {
            let mut draw = Draw::new(1);
            let line = traffic::line_of(&mut draw);
            println!("{}", script::write(folder, &line, &traffic::runs(&line, number(events), &mut draw)));
        }
        ["storm", folder, events, seed] => {
            let mut draw = Draw::new(number(seed) as u64);
            let line = storm::line_of(&mut draw);
            println!("{}", script::write(folder, &line, &storm::events(&line, number(events), &mut draw)));
        }
        ["time", events, turns] => {
            let mut draw = Draw::new(1);
            let line = traffic::line_of(&mut draw);
            script::time(&line, &traffic::runs(&line, number(events), &mut draw), number(turns));
        }
        ["commits", events, turns] => {
            let mut draw = Draw::new(1);
            let line = traffic::line_of(&mut draw);
            log::time(&line, &traffic::runs(&line, number(events), &mut draw), number(turns));
        }
        ["lines", events, turns] => {
            let mut draw = Draw::new(1);
            let line = traffic::line_of(&mut draw);
            journal::time(&line, &traffic::runs(&line, number(events), &mut draw), number(turns));
        }
        ["run", path] => run(&traffic::line_of(&mut Draw::new(1)), path),
        _ => panic!(
            "write FOLDER EVENTS, storm FOLDER EVENTS SEED, time EVENTS TURNS, commits EVENTS TURNS, lines EVENTS TURNS, \
             run SCRIPT"
        ),
    }
}

fn number(word: &str) -> usize {
    word.parse().expect("a number")
}
