// Clients of running centres, and a bare echo server beside them.
// Words: line; releases; echo PORT PORTS; release PORT; load centres|echo PORT SECONDS WINDOW TIME; soak PORT SECONDS; few PORT
// SECONDS; browse PORT SECONDS; stop PORT; missing PRINTED HEARD; crash PORT TIME.

#[path = "../peer/bits.rs"]
#[allow(dead_code)]
mod bits;
#[path = "../peer/draw.rs"]
#[allow(dead_code)]
mod draw;
mod crash;
mod echo;
mod few;
mod heard;
mod line;
mod load;
mod page;
#[path = "../peer/train.rs"]
#[allow(dead_code)]
mod said;
mod train;
mod trouble;

use crate::heard::Heard;
use crate::load::{Other, Plan};
use crate::trouble::Soak;
use std::error::Error;
use std::time::{Duration, Instant};

fn main() -> Result<(), Box<dyn Error>> {
    let words: Vec<String> = std::env::args().skip(1).collect();
    let words: Vec<&str> = words.iter().map(String::as_str).collect();
    match words[..] {
        ["line"] => print!("{}", line::line_file()),
        ["releases"] => println!("{}", line::releases().join("\n")),
        ["echo", first, ports] => echo::serve(first.parse()?, ports.parse()?)?,
        ["release", first] => load::release(first.parse()?)?,
        ["stop", first] => load::stop(first.parse()?)?,
        ["load", other, first, seconds, window, time] => {
            let other = if other == "echo" { Other::Echo } else { Other::Centres };
            let (first_port, seconds) = (first.parse()?, seconds.parse()?);
            let plan = Plan { first_port, seconds, window: window.parse()?, time: time.parse()? };
            let (answered, took) = load::run(other, plan)?;
            println!("{} {answered} {:.1}", (answered as f64 / took.as_secs_f64()) as u64, took.as_secs_f64());
        }
        ["soak", first, seconds] => {
            let until = Instant::now() + Duration::from_secs(seconds.parse()?);
            let outcome = trouble::soak(Soak { first_port: first.parse()?, until })?;
            eprintln!("the train that reads nothing was cut {} times", outcome.cuts);
            print_heard(&outcome.heard)?;
        }
        ["few", first, seconds] => {
            let until = Instant::now() + Duration::from_secs(seconds.parse()?);
            let outcome = few::trains(first.parse()?, until)?;
            eprintln!("{} missions, {} connections were refused", outcome.missions, outcome.refused);
            print_heard(&outcome.heard)?;
        }
        ["crash", first, time] => print_heard(&crash::run(first.parse()?, time.parse()?))?,
        ["browse", port, seconds] => {
            let until = Instant::now() + Duration::from_secs(seconds.parse()?);
            let browsed = page::trouble(port.parse()?, until)?;
            let (answered, crowded) = (browsed.answered.into_inner(), browsed.crowded.into_inner());
            println!("{answered} requests were answered what is due, {crowded} connections were too many");
        }
        ["missing", printed, heard] => {
            let (print, heard) = (std::fs::read_to_string(printed)?, std::fs::read_to_string(heard)?);
            match heard::missing(&print, &heard) {
                Some(line) => return Err(format!("the print lacks {line}").into()),
                None => println!("the print has all {} lines that were heard", heard.lines().count()),
            }
        }
        _ => return Err("words refused".into()),
    }
    Ok(())
}

// Prints what was heard, where it came in order.
fn print_heard(heard: &[Heard]) -> Result<(), Box<dyn Error>> {
    let out_of_order: u32 = heard.iter().map(|heard| heard.out_of_order).sum();
    if out_of_order > 0 {
        return Err(format!("{out_of_order} answers came out of order").into());
    }
    for line in heard.iter().flat_map(|heard| &heard.lines) {
        println!("{line}");
    }
    Ok(())
}
