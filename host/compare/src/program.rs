//! The replay of a trace as the `replay` program prints it, but made by the reference.

use crate::line::push_octets;
use reference::refusal::Refusal;
use reference::replay::{Answer, Ended, Replayed};
use reference::table::Table;
use reference::trace::{Fault, Kind};
use std::fmt::Write as _;
use std::io::{self, BufRead, Write};

/// Octets that each poll is lent.
const ROOM: usize = 1280;

/// Replays a trace on a cleared table and prints a line for each record, up to a wrong one.
pub fn replay(trace: impl BufRead, mut printed: impl Write) -> io::Result<()> {
    let (mut table, mut out, mut text) = (Table::default(), [0; ROOM], String::new());
    let ended = table.replay_all(trace, &mut out, |number, replayed, out| {
        text.clear();
        push_line(&mut text, number, replayed, out);
        printed.write_all(text.as_bytes())
    })?;
    if let Ended::Wrong(number, fault) = ended {
        writeln!(printed, "record {number}: {}", said(fault))?;
    }
    printed.flush()
}

/// Appends a record's line: its number, its call, and what the call gave.
fn push_line(text: &mut String, number: u64, replayed: &Replayed, out: &[u8]) {
    let refusal = replayed.answer.err().map_or(0, Refusal::number);
    let _ = write!(text, "{number} {} {refusal}", name(replayed.kind));
    match replayed.answer {
        Ok(Answer::Written(length)) => {
            let _ = write!(text, " {length} ");
            push_octets(text, &out[..length]);
        }
        Ok(Answer::Received(received)) => {
            let (judgement, chunk) = (received.judgement as u8, received.chunk as u8);
            let (offset, delay) = (received.offset, received.delay);
            let _ =
                write!(text, " judgement={judgement} chunk={chunk} offset={offset} delay={delay}");
        }
        Ok(Answer::Done) | Err(_) => {}
    }
    text.push('\n');
}

fn name(kind: Kind) -> &'static str {
    match kind {
        Kind::Open => "open",
        Kind::Poll => "poll",
        Kind::Sent => "sent",
        Kind::Receive => "receive",
        Kind::Close => "close",
    }
}

fn said(fault: Fault) -> &'static str {
    match fault {
        Fault::Mark => "wrong mark",
        Fault::Kind => "wrong kind",
        Fault::DataLength => "wrong data length",
        Fault::Cut => "cut",
    }
}
