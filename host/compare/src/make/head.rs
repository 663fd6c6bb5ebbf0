//! Heads of records: in range, with each clause of their rule broken, with any one number.

use crate::random::Random;
use reference::association::CHUNK_SIZES;
use reference::edition::Edition;
use reference::record::HEAD;

/// A head's seventeen numbers, in the order of their places.
pub type Head = [u64; HEAD];

/// Numbers at which a range begins or ends, or near them.
#[rustfmt::skip]
const EDGES: [u64; 25] = [
    0, 1, 2, 3, 4, 6, 7, 8, 9, 15, 16, 17, 32, 48, 255, 256, 496, 511, 512, 513, 528, 1024,
    1 << 32, 1 << 63, u64::MAX,
];

/// Numbers of missed polls, those at an edge of a range twice.
const MISSED: [u64; 13] = [0, 0, 1, 2, 3, 3, 4, 4, 5, 6, 7, 8, 8];

/// What is asked of the numbers, so that calls on a cleared table lead to them.
#[derive(Clone, Copy, Debug, PartialEq, Eq)]
pub enum Clause {
    /// The state is 0 or an edition, 1 or 7.
    State,
    /// A closed record's numbers are all 0.
    Closed,
    /// The timescale is an octet.
    Timescale,
    /// The chunk size is offered.
    ChunkSize,
    /// The next offset is a multiple of c below 512.
    NextOffset,
    /// The octets before the next offset were taken, or all.
    Taken,
    /// None was taken if nothing was saved.
    TakenUnsaved,
    /// There is a last cookie if something is outstanding or was saved.
    LastMissing,
    /// There is none otherwise.
    LastAlone,
    /// A request is outstanding or not, 1 or 0.
    Outstanding,
    /// It sent server cookie 0 or the saved one.
    RequestCookie,
    /// It asked the next offset.
    RequestOffset,
    /// Its numbers are 0 if nothing is outstanding.
    RequestAbsent,
    /// The saved timescale is an octet.
    SavedTimescale,
    /// What is saved beside T4 is 0 if T4 is.
    SavedAbsent,
    /// At most 8 polls were missed.
    Missed,
    /// None was missed if nothing is outstanding.
    MissedAlone,
    /// Fewer than 4 were missed if the outstanding request sent a server cookie.
    MissedCookie,
    /// In edition 1 the timescale is at most 15.
    OneTimescale,
    /// So is the saved one.
    OneSavedTimescale,
    /// In edition 1 the next offset is 0.
    OneNextOffset,
    /// So are the octets taken.
    OneTaken,
    /// So is the outstanding request's offset.
    OneRequestOffset,
}

impl Clause {
    /// All clauses.
    pub const ALL: [Clause; 23] = [
        Clause::State,
        Clause::Closed,
        Clause::Timescale,
        Clause::ChunkSize,
        Clause::NextOffset,
        Clause::Taken,
        Clause::TakenUnsaved,
        Clause::LastMissing,
        Clause::LastAlone,
        Clause::Outstanding,
        Clause::RequestCookie,
        Clause::RequestOffset,
        Clause::RequestAbsent,
        Clause::SavedTimescale,
        Clause::SavedAbsent,
        Clause::Missed,
        Clause::MissedAlone,
        Clause::MissedCookie,
        Clause::OneTimescale,
        Clause::OneSavedTimescale,
        Clause::OneNextOffset,
        Clause::OneTaken,
        Clause::OneRequestOffset,
    ];

    /// The edition of a head where this clause is broken: 1 for what that alone asks, 7 for what
    /// edition 1 asks more of, so that no other clause is broken with it.
    fn edition(self, random: &mut Random) -> Edition {
        match self {
            Clause::OneTimescale
            | Clause::OneSavedTimescale
            | Clause::OneNextOffset
            | Clause::OneTaken
            | Clause::OneRequestOffset => Edition::One,
            Clause::Timescale
            | Clause::SavedTimescale
            | Clause::NextOffset
            | Clause::Taken
            | Clause::TakenUnsaved
            | Clause::RequestOffset => Edition::Seven,
            _ => edition(random),
        }
    }

    /// Whether a request is outstanding and something saved in a head where this clause is broken.
    fn occasion(self, random: &mut Random) -> (bool, bool) {
        let (asked, saved) = (random.one_in(2), random.one_in(2));
        match self {
            Clause::NextOffset | Clause::Taken | Clause::SavedTimescale => (asked, true),
            Clause::TakenUnsaved | Clause::SavedAbsent => (asked, false),
            Clause::LastMissing => (asked || !saved, saved),
            Clause::LastAlone => (false, false),
            Clause::Outstanding | Clause::RequestCookie | Clause::RequestOffset => (true, saved),
            Clause::RequestAbsent | Clause::MissedAlone => (false, saved),
            Clause::Missed => (true, saved),
            Clause::MissedCookie => (true, true),
            Clause::OneSavedTimescale | Clause::OneNextOffset | Clause::OneTaken => (asked, true),
            Clause::OneRequestOffset => (true, saved),
            _ => (asked, saved),
        }
    }

    /// Whether a head in range lets the clauses on missed polls and on the request's server
    /// cookie be broken one without the other, and has an offset other than 0.
    fn alone(self, head: &Head) -> bool {
        match self {
            Clause::RequestCookie => head[16] < 4,
            Clause::Missed => head[7] == 0,
            Clause::MissedCookie => head[7] != 0,
            Clause::OneNextOffset | Clause::OneRequestOffset => head[2] < 512,
            _ => true,
        }
    }

    /// An open head in range in which this clause is to be broken.
    fn head(self, random: &mut Random) -> Head {
        loop {
            let (asked, saved) = self.occasion(random);
            let edition = self.edition(random);
            let head = open(random, edition, asked, saved);
            if self.alone(&head) {
                return head;
            }
        }
    }
}

/// A head in range: closed once in a while, mostly open.
pub fn in_range(random: &mut Random) -> Head {
    if random.one_in(10) {
        return [0; HEAD];
    }
    let (asked, saved) = (random.one_in(2), random.below(3) > 0);
    let edition = edition(random);
    open(random, edition, asked, saved)
}

fn edition(random: &mut Random) -> Edition {
    random.pick(&[Edition::One, Edition::Seven, Edition::Seven])
}

/// An open head in range, with or without a request outstanding and something saved.
fn open(random: &mut Random, edition: Edition, asked: bool, saved: bool) -> Head {
    let mut head = [0; HEAD];
    let c = random.pick(&CHUNK_SIZES).into();
    head[0] = edition as u64;
    head[1] = timescale(random, edition);
    head[2] = c;
    if saved && edition == Edition::Seven {
        head[3] = c * random.below(512 / c as usize) as u64;
        head[4] = random.pick(&[head[3], 512]);
    }
    if saved {
        head[10] = timescale(random, edition);
        head[11..16].fill_with(|| random.time());
        head[14] = random.number().max(1);
    }
    if asked || saved {
        head[5] = random.number().max(1);
    }
    if asked {
        head[6] = 1;
        head[8] = head[3];
        head[9] = if random.one_in(2) { 0 } else { random.time() };
        head[16] = random.pick(&MISSED);
        let known = if head[16] < 4 { head[15] } else { 0 };
        head[7] = random.pick(&[0, known, known]);
    }
    head
}

/// Mostly one of a few, so that those of association and response are often equal.
fn timescale(random: &mut Random, edition: Edition) -> u64 {
    let largest = if edition == Edition::One { 15 } else { 255 };
    let any = random.any() % (largest + 1);
    random.pick(&[0, 1, 2, 3, 0, 1, largest, any])
}

/// Any number, mostly one near an edge.
fn number(random: &mut Random) -> u64 {
    if random.one_in(4) {
        random.any()
    } else {
        random.pick(&EDGES)
    }
}

/// A number that is `wrong`, of which there are many.
fn such(random: &mut Random, wrong: impl Fn(u64) -> bool) -> u64 {
    loop {
        let number = number(random);
        if wrong(number) {
            return number;
        }
    }
}

/// A head in range but for one number, which may be any, or the other edition.
pub fn changed(random: &mut Random) -> Head {
    let mut head = in_range(random);
    match (random.one_in(8), head[0]) {
        (true, edition @ (1 | 7)) => head[0] = 8 - edition,
        _ => head[random.below(HEAD)] = number(random),
    }
    head
}

/// A head in which this clause is broken; the others hold where they can without it.
pub fn broken(random: &mut Random, clause: Clause) -> Head {
    let mut head = match clause {
        Clause::Closed => [0; HEAD],
        _ => clause.head(random),
    };
    let [state, _, _, next, taken, _, asked, ..] = head;
    let (at, number) = wrong(random, clause, &head);
    head[at] = number;
    // What has to be the next offset goes with it.
    if state != 0 && at == 3 {
        head[4] = if taken == next { number } else { taken };
        head[8] = if asked == 1 { number } else { 0 };
    }
    head
}

/// The place of a number and a value with which it breaks the clause.
fn wrong(random: &mut Random, clause: Clause, head: &Head) -> (usize, u64) {
    let &[_, _, c, next, .., known, _] = head;
    let offered = |n: u64| CHUNK_SIZES.iter().any(|&size| n == size.into());
    match clause {
        Clause::State => (0, such(random, |n| ![0, 1, 7].contains(&n))),
        Clause::Closed => (1 + random.below(HEAD - 1), such(random, |n| n != 0)),
        Clause::Timescale => (1, such(random, |n| n > 255)),
        Clause::ChunkSize => (2, such(random, |n| !offered(n))),
        Clause::NextOffset => (3, such(random, |n| n >= 512 || n % c != 0)),
        Clause::Taken => (4, such(random, |n| n != next && n != 512)),
        Clause::TakenUnsaved if c < 512 && random.one_in(2) => (3, c),
        Clause::TakenUnsaved => (4, 512),
        Clause::LastMissing => (5, 0),
        Clause::LastAlone => (5, such(random, |n| n != 0)),
        Clause::Outstanding => (6, such(random, |n| n > 1)),
        Clause::RequestCookie => (7, such(random, |n| n != 0 && n != known)),
        Clause::RequestOffset => (8, such(random, |n| n != next)),
        Clause::RequestAbsent => (7 + random.below(3), random.pick(&[next, known, 1]).max(1)),
        Clause::SavedTimescale => (10, such(random, |n| n > 255)),
        Clause::SavedAbsent => (random.pick(&[10, 11, 12, 13, 15]), such(random, |n| n != 0)),
        Clause::Missed => (16, such(random, |n| n > 8)),
        Clause::MissedAlone => (16, 1 + random.below(8) as u64),
        Clause::MissedCookie => (16, 4 + random.below(5) as u64),
        Clause::OneTimescale => (1, such(random, |n| (16..256).contains(&n))),
        Clause::OneSavedTimescale => (10, such(random, |n| (16..256).contains(&n))),
        Clause::OneNextOffset => (3, c * (1 + random.below(511 / c as usize) as u64)),
        Clause::OneTaken => (4, 512),
        Clause::OneRequestOffset => (8, c * (1 + random.below(511 / c as usize) as u64)),
    }
}
