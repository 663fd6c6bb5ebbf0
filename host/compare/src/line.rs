//! Calls as the lines that the `cases` program reads, and their answers.

use crate::call::{Answering, Call, Outcome};
use crate::replay;
use ntp5::ffi::Header;
use std::fmt::Write;

/// A table's numbers, for people; a run of equal ones with its count.
pub fn numbers(numbers: &[u64]) -> String {
    let run = |run: &[u64]| match run.len() {
        1 => format!("{:#x}", run[0]),
        count => format!("{:#x}*{count}", run[0]),
    };
    numbers.chunk_by(|a, b| a == b).map(run).collect::<Vec<_>>().join(" ")
}

/// Octets as pairs of digits; a run of four or more equal ones with its count.
pub fn octets(octets: &[u8]) -> String {
    let mut text = String::new();
    push_octets(&mut text, octets);
    text
}

/// Appends octets in the same form.
pub fn push_octets(text: &mut String, octets: &[u8]) {
    if octets.is_empty() {
        text.push('-');
    }
    let mut counted = false;
    for run in octets.chunk_by(|a, b| a == b) {
        if counted {
            text.push(',');
        }
        counted = run.len() >= 4;
        let digits = [run[0] >> 4, run[0] & 15].map(|digit| char::from(DIGITS[usize::from(digit)]));
        for _ in 0..if counted { 1 } else { run.len() } {
            text.extend(digits);
        }
        if counted {
            let _ = write!(text, "*{}", run.len());
        }
    }
}

/// The hexadecimal digits.
const DIGITS: &[u8; 16] = b"0123456789abcdef";

/// The values that a header has before its cookies, as the lines have them.
fn values(h: &Header) -> String {
    let (delay, dispersion) = (h.root_delay, h.root_dispersion);
    format!(
        "{} {} {} {} {} {:#x} {delay:#x} {dispersion:#x}",
        h.stratum, h.poll, h.precision, h.timescale, h.era, h.flags
    )
}

fn answer(args: &Answering) -> String {
    let h = &args.header;
    format!(
        "answer {} {} {:#x} {:#x} {:#x} {} {} {} {} {} {}",
        args.edition,
        octets(&args.request),
        h.receive,
        h.transmit,
        h.server_cookie,
        h.leap,
        values(h),
        h.timescale_offset,
        octets(&args.filter),
        octets(&args.information),
        octets(&args.out)
    )
}

fn write(edition: u8, h: &Header, out: &[u8]) -> String {
    format!(
        "write {edition} {} {} {} {:#x} {:#x} {:#x} {:#x} {} {}",
        h.leap,
        h.mode,
        values(h),
        h.server_cookie,
        h.client_cookie,
        h.receive,
        h.transmit,
        h.timescale_offset,
        octets(out)
    )
}

/// The call's line. `store` is the store before it.
pub fn line(call: &Call, store: &[u8]) -> String {
    match call {
        Call::Clear => "clear".into(),
        Call::Open { association, edition, timescale, chunk } => {
            format!("open {association} {edition} {timescale} {chunk}")
        }
        Call::Close { association } => format!("close {association}"),
        Call::Poll { association, cookie, exponent, interleaved, out } => {
            let mode = if *interleaved { "interleaved" } else { "basic" };
            format!("poll {association} {cookie:#x} {exponent} {mode} {}", octets(out))
        }
        Call::Sent { association, t1 } => format!("sent {association} {t1:#x}"),
        Call::Receive { association, datagram, t4 } => {
            format!("receive {association} {t4:#x} {}", octets(datagram))
        }
        Call::Verdict { association, id } => format!("verdict {association} {}", octets(id)),
        Call::Publish { selected, id, out } => {
            format!("publish {selected:#x} {} {}", octets(id), octets(out))
        }
        Call::Replay { trace, at, .. } => match replay::direct(call) {
            Some(call) => format!("{} # as a record of a trace", line(&call, store)),
            None => format!("# no call is at place {at} of the trace {}", octets(trace)),
        },
        Call::StoreClear => format!("store {}", store.len() / 16),
        Call::Report { cookie, time } => format!("report {cookie:#x} {time:#x}"),
        Call::Answer(args) => answer(args),
        Call::HeaderRead { edition, mode, datagram } => {
            format!("header {edition} {mode} {}", octets(datagram))
        }
        Call::HeaderWrite { edition, header, out } => write(*edition, header, out),
        Call::Sound { mode, datagram } => format!("sound {mode} {}", octets(datagram)),
        Call::Add { filter, id } => format!("add {} {}", octets(filter), octets(id)),
        Call::Union { into, other } => format!("union {} {}", octets(into), octets(other)),
        Call::Weight { filter } => format!("weight {}", octets(filter)),
        Call::Measure { times: [t1, t2, t3, t4] } => {
            format!("measure {t1:#x} {t2:#x} {t3:#x} {t4:#x}")
        }
    }
}

/// What a call gave back, for people.
pub fn outcome(outcome: &Outcome) -> String {
    format!("{:?} {}", outcome.returned, octets(&outcome.out))
}

#[cfg(test)]
mod tests {
    use super::*;

    #[test]
    fn octets_as_the_cases_program_reads_them() {
        let id = [0, 0x10, 2, 0, 0, 0, 0, 0, 0, 0, 0, 0, 0, 0, 0];
        assert_eq!(octets(&id), "00100200*12");
        assert_eq!(octets(&[0x2B, 0, 0, 0, 0, 0xF5]), "2b00*4,f5");
        assert_eq!(octets(&[7, 7, 7]), "070707");
        assert_eq!(octets(&[]), "-");
    }

    #[test]
    fn numbers_with_their_runs() {
        assert_eq!(numbers(&[1, 0, 0, 0, 255, 16, 16]), "0x1 0x0*3 0xff 0x10*2");
    }

    #[test]
    fn words_in_their_order() {
        let out = vec![0; 4];
        let poll = Call::Poll { association: 3, cookie: 16, exponent: -6, interleaved: true, out };
        assert_eq!(line(&poll, &[]), "poll 3 0x10 -6 interleaved 00*4");
        assert_eq!(line(&Call::StoreClear, &[0; 64]), "store 4");
        let open = Call::Open { association: 3, edition: 1, timescale: 15, chunk: 16 };
        assert_eq!(line(&open, &[]), "open 3 1 15 16");
        let header = Call::HeaderRead { edition: 7, mode: 4, datagram: vec![0x2C] };
        assert_eq!(line(&header, &[]), "header 7 4 2c");
        let header = Header {
            leap: 1,
            mode: 2,
            stratum: 3,
            poll: -4,
            precision: -5,
            timescale: 6,
            era: 7,
            timescale_offset: -37,
            flags: 8,
            root_delay: 9,
            root_dispersion: 10,
            server_cookie: 11,
            client_cookie: 12,
            receive: 13,
            transmit: 14,
        };
        let (edition, out) = (1, vec![0; 4]);
        let write = Call::HeaderWrite { edition, header, out: out.clone() };
        let values = "3 -4 -5 6 7 0x8 0x9 0xa";
        let expected = format!("write 1 1 2 {values} 0xb 0xc 0xd 0xe -37 00*4");
        assert_eq!(line(&write, &[]), expected);
        let (request, filter, information) = (vec![0x2B], vec![1; 5], vec![2]);
        let args = Answering { edition, request, header, filter, information, out };
        let expected = format!("answer 1 2b 0xd 0xe 0xb 1 {values} -37 01*5 02 00*4");
        assert_eq!(line(&Call::Answer(Box::new(args)), &[]), expected);
    }
}
