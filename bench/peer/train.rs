// What trains say, as bytes.

use super::bits::Writer;

/// A position report: the front is so far in advance of the balise group, in metres, with doubts of 5 m both ways.
#[derive(Clone, Copy)]
pub struct Report {
    pub group: u32,
    pub metres: u32,
    pub length: Option<u32>,
    pub direction: u32,
    pub level: u32,
}

pub const DOUBT: u32 = 5;

/// NID_MESSAGE, and what stands between the header and the packets.
#[derive(Clone, Copy)]
pub enum Said {
    Initiation,
    Established,
    Termination,
    Start(u32, Report),
    TrainData(Report),
    Request(Report),
    Report(Report),
    Granted(u32, Report),
    Rejected(u32, Report),
    EndOfMission(Report),
}

pub fn encode(time: u32, engine: u32, said: Said) -> Vec<u8> {
    let mut w = Writer::new();
    let (number, field, report) = match said {
        Said::Initiation => (155, None, None),
        Said::Established => (159, None, None),
        Said::Termination => (156, None, None),
        Said::Start(status, report) => (157, Some((status, 2)), Some(report)),
        Said::TrainData(report) => (129, None, Some(report)),
        Said::Request(report) => (132, Some((1, 5)), Some(report)),
        Said::Report(report) => (136, None, Some(report)),
        Said::Granted(stamp, report) => (137, Some((stamp, 32)), Some(report)),
        Said::Rejected(stamp, report) => (138, Some((stamp, 32)), Some(report)),
        Said::EndOfMission(report) => (150, None, Some(report)),
    };
    w.put_all(&[(number, 8), (0, 10), (time, 32), (engine, 24)]);
    if let Some((value, n)) = field {
        w.put(value, n);
    }
    if let Some(report) = report {
        // each second end of mission is at standstill
        let v_train = if number == 150 && time % 2 == 0 { 0 } else { 20 };
        put_report(&mut w, report, v_train);
    }
    if number == 129 {
        w.put_all(&[(11, 8), (21 + 24, 13), (0x0C_5A_96, 24)]);
    }
    w.message()
}

fn put_report(w: &mut Writer, report: Report, v_train: u32) {
    let Report { group, metres, length, direction, level } = report;
    let is_ntc = level == 1;
    let l_packet = 114 + if length.is_some() { 15 } else { 0 } + if is_ntc { 8 } else { 0 };
    w.put_all(&[(0, 8), (l_packet, 13), (1, 2), (group, 24), (metres, 15), (direction, 2), (1, 2)]);
    w.put_all(&[(DOUBT, 15), (DOUBT, 15)]);
    match length {
        Some(length) => w.put_all(&[(1, 2), (length, 15)]),
        None => w.put(0, 2),
    }
    w.put_all(&[(v_train, 7), (1, 2), (0, 4), (level, 3)]);
    if is_ntc {
        w.put(7, 8);
    }
}
