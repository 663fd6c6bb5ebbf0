//! The laws of filters for a safety review, W207-1 to W207-7, tried on the library's calls:
//! each on 10,000 filters, from none set to all set.
#![forbid(unsafe_code)]

use compare::random::Random;
use ntp5::Edition::Seven;
use ntp5::{Chunk, ClientCookie, Filter, Header, Mode, ReferenceId, Refusal, Table, RESPONSE};

/// Groups of filters, as many in each as a table has associations.
const GROUPS: u64 = 625;
const GROUP: usize = 16;
const POSITIONS: u16 = 4096;

/// A filter in which about one position in 2^`rare` is set, or is not.
fn drawn(random: &mut Random, rare: usize, mostly_set: bool) -> Filter {
    let mut filter = Filter::FRESH;
    for word in filter.0.chunks_exact_mut(8) {
        let rarely = (0..rare).fold(u64::MAX, |bits, _| bits & random.any());
        word.copy_from_slice(&(if mostly_set { !rarely } else { rarely }).to_le_bytes());
    }
    filter
}

fn id(random: &mut Random) -> ReferenceId {
    ReferenceId([0; 15].map(|_: u8| random.any() as u8))
}

/// Sparse, dense, of a few IDs, none or all set.
fn filter(random: &mut Random) -> Filter {
    match random.below(16) {
        0 => Filter::FRESH,
        1 => Filter([0xFF; 512]),
        2..6 => {
            let ids = 1 + random.below(40);
            (0..ids).fold(Filter::FRESH, |filter, _| with(&filter, &id(random)))
        }
        kind => {
            let rare = 1 + random.below(7);
            drawn(random, rare, kind % 2 == 0)
        }
    }
}

fn group(seed: u64) -> (Random, [Filter; GROUP]) {
    let mut random = Random::new(seed);
    let filters = [(); GROUP].map(|()| filter(&mut random));
    (random, filters)
}

fn union(f: &Filter, g: &Filter) -> Filter {
    let mut united = *f;
    united.unite(g);
    united
}

fn with(f: &Filter, id: &ReferenceId) -> Filter {
    let mut more = *f;
    more.add(id);
    more
}

/// Which bounds a union's weight reached: the larger weight, the sum, all positions.
type Reached = [u32; 3];

fn hold_union_laws(f: &Filter, g: &Filter, h: &Filter, id: &ReferenceId, reached: &mut Reached) {
    let united = union(f, g);
    assert_eq!(united, union(g, f), "order");
    assert_eq!(union(&united, h), union(f, &union(g, h)), "grouping");
    assert_eq!(union(f, f), *f, "itself");
    assert_eq!(union(f, &Filter::FRESH), *f, "fresh filter");
    assert_eq!(union(&Filter::FRESH, f), *f, "fresh filter on the left");
    assert_eq!(union(&with(f, id), g), with(&united, id), "adding on the left");
    assert_eq!(union(f, &with(g, id)), with(&united, id), "adding on the right");
    let (weight, larger) = (united.weight(), f.weight().max(g.weight()));
    let sum = f.weight() + g.weight();
    assert!(larger <= weight, "{weight} below the larger weight, {larger}");
    assert!(weight <= sum.min(POSITIONS), "{weight} above {POSITIONS} or the sum, {sum}");
    let proper = f.weight() > 0 && g.weight() > 0;
    for (times, met) in reached.iter_mut().zip([larger, sum, POSITIONS]) {
        *times += u32::from(proper && weight == met);
    }
}

#[test]
fn unions() {
    let (mut reached, mut weights) = ([0; 3], Vec::new());
    for seed in 0..GROUPS {
        let (mut random, filters) = group(seed);
        for i in 0..GROUP {
            let [f, g, h] = [i, i + 1, i + 2].map(|at| &filters[at % GROUP]);
            hold_union_laws(f, g, h, &id(&mut random), &mut reached);
        }
        weights.extend(filters.map(|filter| filter.weight()));
    }
    weights.sort_unstable();
    let [sparse, dense] = [1, 9].map(|tenths| weights[tenths * weights.len() / 10]);
    assert!(weights.len() == 10_000 && sparse < 100 && dense > 4000, "{sparse} to {dense}");
    assert!(reached.iter().all(|&times| times > 100), "bounds reached: {reached:?}");
}

/// Opens an association and takes the filter from one response to its poll.
fn follow(table: &mut Table<Vec<u64>>, association: u8, filter: &Filter) -> Result<(), Refusal> {
    let cookie = ClientCookie(9);
    table.open(association, Seven, 0, 512)?;
    table.poll(association, cookie, 6, Mode::Basic, &mut [0; 596])?;
    let mut response = vec![0; 48];
    let header = Header { mode: RESPONSE, client_cookie: cookie, ..Header::default() };
    header.write(Seven, &mut response)?;
    // A Reference IDs Response field of 516 octets.
    response.extend([0xF5, 0x04, 0x02, 0x04]);
    response.extend(filter.0);
    assert_eq!(table.receive(association, &response, 1)?.chunk, Chunk::Taken);
    Ok(())
}

/// The associations that a number selects, in any order.
fn shuffled(random: &mut Random, selected: u16) -> Vec<usize> {
    let mut order: Vec<usize> = (0..GROUP).filter(|a| selected >> a & 1 == 1).collect();
    for end in (1..order.len()).rev() {
        order.swap(end, random.below(end + 1));
    }
    order
}

#[test]
fn publishing_in_any_order() -> Result<(), Refusal> {
    let mut other_orders = 0;
    for seed in 0..GROUPS {
        let (mut random, filters) = group(seed);
        let mut table = Table::new();
        for (association, filter) in (0..).zip(&filters) {
            follow(&mut table, association, filter)?;
        }
        let any = random.any() as u16;
        for selected in [0, u16::MAX, 1 << random.below(GROUP), any] {
            let (own, order) = (id(&mut random), shuffled(&mut random, selected));
            let joined = order.iter().fold(Filter::FRESH, |f, &a| union(&f, &filters[a]));
            assert_eq!(table.publish(selected, &own)?, with(&joined, &own), "{order:?}");
            other_orders += u32::from(!order.is_sorted());
        }
    }
    assert!(other_orders > 1000, "only {other_orders} orders were not rising");
    Ok(())
}
