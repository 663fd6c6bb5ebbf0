//! Random calls made on the library and on the reference, and compared.

use crate::call::{Call, Outcome, Returned, Side};
use crate::editions::{self, words, Followed};
use crate::library::Library;
use crate::line;
use crate::make;
use crate::make::head::Clause;
use crate::make::lent::Broken;
use crate::met::{self, Met};
use crate::missed::Runs;
use crate::plain::{Lent, Plain};
use crate::random::Random;
use crate::reorder;
use crate::replay;
use reference::edition::Edition;
use reference::header::{Header, RESPONSE};

/// One list of calls on the sides that are compared.
struct Trial {
    library: Library,
    /// The reference on a lent table and store, where `Plain` is compared too.
    lent: Option<Lent>,
    made: Vec<String>,
    keep: bool,
}

/// What kind of list is made.
#[derive(Clone, Copy, Debug, PartialEq, Eq)]
enum Kind {
    /// Calls on a table from a cleared one.
    Client,
    /// Calls on a store from a cleared one.
    Responder,
    /// Calls without table and store.
    Single,
    /// A few calls on any numbers lent as a table.
    AnyTable,
    /// A few calls on any octets lent as a store.
    AnyStore,
}

/// Lists on any numbers or octets are short, so they are made more often.
fn kind(random: &mut Random) -> Kind {
    if random.one_in(60) {
        random.pick(&[Kind::Client, Kind::Client, Kind::Responder, Kind::Single])
    } else {
        random.pick(&[Kind::AnyTable, Kind::AnyStore])
    }
}

/// Makes at least `count` calls, in lists each with a seed of its own. A difference
/// is returned with the calls that led to it.
pub fn run(seed: u64, count: u64, met: &mut Met) -> Result<(), String> {
    let mut random = Random::new(seed);
    let mut done = 0;
    while done < count {
        let kind = kind(&mut random);
        let own = random.any();
        // Lines are long: only a list that failed is made again with its lines kept.
        done += list(kind, own, false, met).or_else(|_| {
            let kept = list(kind, own, true, &mut Met::default());
            kept.map_err(|text| format!("# {kind:?} list with seed {own:#x} of {seed:#x}:\n{text}"))
        })?;
    }
    Ok(())
}

/// One list of calls; gives their number.
fn list(kind: Kind, seed: u64, keep: bool, met: &mut Met) -> Result<u64, String> {
    let mut random = Random::new(seed);
    match kind {
        Kind::Client | Kind::Responder | Kind::Single => reached(kind, &mut random, keep, met),
        Kind::AnyTable | Kind::AnyStore => any(kind, &mut random, keep, met),
    }
}

/// Calls from a cleared table and store, compared with the plain ones and with lent ones.
fn reached(kind: Kind, random: &mut Random, keep: bool, met: &mut Met) -> Result<u64, String> {
    let records = random.pick(&[1, 1, 2, 3, 4, 8, 16, 63, 64]);
    let length = random.pick(&[10, 40, 160, 600, 2000]);
    let (table, store) = (vec![0; reference::lent::TABLE_NUMBERS], vec![0; 16 * records]);
    // The generator is shown this one; it is compared as the others are.
    let mut plain = Plain::new(records);
    let mut trial = Trial {
        library: Library::new(&table, &store, random.below(64)),
        lent: Some(Lent { table, store }),
        made: vec![format!("clear\nstore {records}")],
        keep,
    };
    let calm = random.one_in(3);
    let (mut runs, mut followed) = (Runs::default(), Followed::default());
    for _ in 0..length {
        let call = match kind {
            Kind::Client => {
                let call = make::client::call(random, &plain.table, calm);
                make::trace::replaying(random, call)
            }
            Kind::Responder => make::responder::call(random, plain.store.row()),
            _ => make::single::call(random),
        };
        let before = plain.clone();
        let outcome = trial.compare(&call, &mut plain, met)?;
        // A replayed record is followed as the call that it is.
        let (Some(call), Some(outcome)) = (replay::direct(&call), replay::given(&outcome)) else {
            continue;
        };
        let noted = noted(&call, &outcome, &before, records);
        let half_era = half_era(&call, &outcome, &before);
        let mut also: Vec<String> = noted.into_iter().chain(half_era).collect();
        also.extend(runs.follow(&call, &outcome));
        also.extend(followed.follow(&call, &outcome, &before));
        also.iter().for_each(|what| met.also(what));
    }
    Ok(length as u64)
}

/// What else must be met: filters taken a second time, and answers from a full row.
fn noted(call: &Call, outcome: &Outcome, before: &Plain, records: usize) -> Option<String> {
    match (call, outcome.returned) {
        (Call::Receive { association, .. }, Returned::Received(received)) => {
            let place = before.table.places.get(usize::from(*association))?;
            let open = place.0.as_ref().filter(|open| open.taken.complete())?;
            let taken = received.chunk == 1;
            taken.then(|| format!("second turn of the filter with c = {}", open.chunk))
        }
        (Call::Answer(args), Returned::Written(written)) => {
            let full = before.store.row().len() == records && written.refusal == 0;
            let edition = Edition::of(args.edition).ok().filter(|_| full)?;
            let asked = met::interleaved(edition, &args.request) == met::mode(true);
            let mode = met::interleaved(edition, &outcome.out);
            asked.then(|| format!("answer from a full row, {mode}{}", words(edition)))
        }
        _ => None,
    }
}

/// The one difference for which a response was judged 5.
fn half_era(call: &Call, outcome: &Outcome, before: &Plain) -> Option<String> {
    let (Call::Receive { association, datagram, t4 }, Returned::Received(received)) =
        (call, outcome.returned)
    else {
        return None;
    };
    let place = before.table.places.get(usize::from(*association))?;
    let open = place.0.as_ref().filter(|_| received.judgement == 5)?;
    let header = Header::read(open.edition as u8, datagram, RESPONSE).ok()?;
    let times = if header.interleaved(open.edition) {
        let saved = open.saved?.times;
        [saved.t1, saved.t2, header.transmit, saved.t4]
    } else {
        [open.outstanding?.t1, header.receive, header.transmit, *t4]
    };
    let alone = met::half_era_alone(times)?;
    let (mode, words) = (met::interleaved(open.edition, datagram), words(open.edition));
    Some(format!("half an era in {alone} alone, {mode}{words}"))
}

/// A few calls on any numbers or octets.
fn any(kind: Kind, random: &mut Random, keep: bool, met: &mut Met) -> Result<u64, String> {
    let on_table = kind == Kind::AnyTable;
    let (table, mut broken) = if on_table { make::lent::table(random) } else { Default::default() };
    let store = if on_table { Vec::new() } else { make::lent::store(random) };
    let lent = || match kind {
        Kind::AnyTable => format!("# on a table with these numbers: {}", line::numbers(&table)),
        _ => format!("lend {}", line::octets(&store)),
    };
    let length = 1 + random.below(6);
    let mut side = Lent { table: table.clone(), store: store.clone() };
    let mut trial = Trial {
        library: Library::new(&table, &store, random.below(64)),
        lent: None,
        made: keep.then(lent).into_iter().collect(),
        keep,
    };
    for _ in 0..length {
        let call = match (on_table, random.one_in(20)) {
            (true, true) => Call::Clear,
            (true, false) => {
                let known = make::lent::known_table(&side.table);
                let call = make::client::call(random, &known, false);
                make::trace::replaying(random, call)
            }
            (false, true) => Call::StoreClear,
            (false, false) => make::responder::call(random, &make::lent::known_row(&side.store)),
        };
        let outcome = trial.compare(&call, &mut side, met)?;
        if call == Call::Clear {
            broken = Broken::default();
        }
        if let Some(clause) = refused_for(&call, &outcome, &broken) {
            met.also(&format!("head out of range: {clause:?}"));
        }
    }
    Ok(length as u64)
}

/// The clause that is broken in the one head that a refused call was to read, unless the call's
/// own arguments are refused with 6 too.
fn refused_for(call: &Call, outcome: &Outcome, broken: &Broken) -> Option<Clause> {
    let named = reorder::names(call);
    if outcome.returned.refusal() != 6 || !named.is_power_of_two() {
        return None;
    }
    let clause = broken[named.trailing_zeros() as usize]?;
    (Plain::new(1).make(call).returned.refusal() != 6).then_some(clause)
}

impl Trial {
    /// Makes the call on every side and compares all that it gave back and left.
    fn compare(
        &mut self,
        call: &Call,
        side: &mut dyn Side,
        met: &mut Met,
    ) -> Result<Outcome, String> {
        if self.keep {
            self.made.push(line::line(call, &self.library.store()));
        }
        let direct = replay::direct(call);
        let of = direct.as_deref().unwrap_or(call);
        let edition = editions::of_call(of, |association| self.library.state(association));
        let outcome = self.library.make(call);
        met.count(call, &outcome, edition);
        let mut faults: Vec<String> = outcome.stray.iter().cloned().collect();
        let lent = self.lent.as_mut().map(|lent| lent as &mut dyn Side);
        for side in [Some(side), lent].into_iter().flatten() {
            let expected = side.make(call);
            if expected.returned != outcome.returned || expected.out != outcome.out {
                faults.push(format!("reference: {}", line::outcome(&expected)));
            }
            faults.extend(differing("table", &self.library.table(), &side.table()));
            faults.extend(differing("store", &self.library.store(), &side.store()));
        }
        if faults.is_empty() {
            return Ok(outcome);
        }
        let (made, outcome) = (self.made.join("\n"), line::outcome(&outcome));
        Err(format!("{made}\n# library: {outcome}\n# {}", faults.join("\n# ")))
    }
}

/// Where two buffers differ first.
fn differing<T: PartialEq>(what: &str, library: &[T], reference: &[T]) -> Option<String> {
    if library == reference {
        return None;
    }
    let at = library.iter().zip(reference).position(|(a, b)| a != b);
    Some(format!("the {what} differs from the reference's at place {at:?}"))
}
