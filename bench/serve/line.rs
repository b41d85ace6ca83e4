// A line of eight centres and 64 trains. Each train has eight sections at its centre: those that are released, one that
// never is, and after it the spare one, which no train comes to.

use std::fmt::Write;

pub const CENTRES: usize = 8;
pub const TRAINS: usize = 64;
pub const SECTIONS_EACH: usize = 8;
/// How many sections of a train are released.
pub const RELEASED: usize = SECTIONS_EACH - 2;
/// The length of each section, in metres.
pub const LENGTH: u32 = 1000;

const NID_C: u32 = 5;
const FIRST_BALISE: u32 = 100;
const FIRST_ENGINE: u32 = 1000;

/// The name of a centre.
pub fn name_of(centre: usize) -> char {
    (b'A' + centre as u8) as char
}

/// The centre at which a train runs.
pub fn centre_of(train: usize) -> usize {
    train * CENTRES / TRAINS
}

/// The train's number in its messages.
pub fn engine_of(train: usize) -> u32 {
    FIRST_ENGINE + train as u32
}

/// The first of the train's sections.
pub fn first_of(train: usize) -> usize {
    train * SECTIONS_EACH
}

/// The section that the train does not come to.
pub fn spare_of(train: usize) -> usize {
    first_of(train) + SECTIONS_EACH - 1
}

/// The balise group at the start of a section.
pub fn group_of(section: usize) -> u32 {
    NID_C * 16_384 + FIRST_BALISE + section as u32
}

/// The line file. Two centres are on each of the four tracks. Every second train is registered at the other centre of its track.
pub fn line_file() -> String {
    let mut text = format!("nid_c = {NID_C}\n");
    for centre in 0..CENTRES {
        let name = name_of(centre);
        writeln!(text, "[[centre]]\nname = \"{name}\"\nnid_rbc = {}", centre + 1).unwrap();
    }
    for track in 0..CENTRES / 2 {
        writeln!(text, "[[track]]\nname = \"track{track}\"\nsection = [").unwrap();
        for train in (0..TRAINS).filter(|train| centre_of(*train) / 2 == track) {
            write_sections(&mut text, train);
        }
        writeln!(text, "]").unwrap();
    }
    for train in 0..TRAINS {
        let registrar = name_of(centre_of(train) ^ (train % 2));
        let engine = engine_of(train);
        writeln!(text, "[[train]]\nengine = {engine}\nregistrar = \"{registrar}\"").unwrap();
    }
    text
}

fn write_sections(text: &mut String, train: usize) {
    let home = name_of(centre_of(train));
    for section in first_of(train)..first_of(train) + SECTIONS_EACH {
        let balise = FIRST_BALISE + section as u32;
        writeln!(text, "  {{ length = {LENGTH}, home = \"{home}\", balise = {balise} }},").unwrap();
    }
}

/// What the interlocking says first: it releases the sections that the trains are to use.
pub fn releases() -> Vec<String> {
    let sections = (0..TRAINS).flat_map(|train| {
        let first = first_of(train);
        (first..first + RELEASED).map(move |section| format!("set {} {section}", name_of(centre_of(train))))
    });
    sections.collect()
}
