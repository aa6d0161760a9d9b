//! The functions on lent records, by the Rust package: the five changes of a hart and the regions as a run, each beside the original Rust, beside
//! what works on plain words, and beside document 01's words written out in `src/document_01.rs`. Every record that is lent, or lies beside it,
//! is compared.
use compare::document_01::{change_numbers, is_region_table, run_number};
use compare::draw::{MAX, any, region};
use compare::entries::{by_c, unvalued};
use compare::leaves::{Regions, Row, new_region};
use compare::lent::{ConfidentialHart, ConfidentialVmMmioRegion, Defined, Run};
use compare::original::{hart_of, hart_words};
use compare::seen::{KINDS, kind};
use compare::tables::Tables;
use compare::{HART_WORDS, MOST_REGIONS, REGION_WORDS, VALUE_WORDS};
use oracle::core::control_data as rust;
use oracle::driver::{Random, Request, number_of};
use oracle::error::Error;
use oudrameng::ffi::lent_is_mmio_region_defined;
use std::collections::BTreeMap;
use std::fs;
use std::panic::{AssertUnwindSafe, catch_unwind};
use std::path::Path;

fn number(result: Result<(), Error>) -> u64 {
    result.map_or_else(|error| number_of(error) as u64, |()| 0)
}

/// How often what is told was met with each number.
#[derive(Default)]
struct Seen(BTreeMap<(&'static str, u64), u64>);

impl Seen {
    fn count(&mut self, what: &'static str, number: u64) {
        *self.0.entry((what, number)).or_default() += 1;
    }

    /// Fails unless each was met with each of its numbers at least so often, and with no other.
    fn check(&self, least: u64, expected: &[(&'static str, &[u64])]) {
        let mut pairs: Vec<_> = expected.iter().flat_map(|&(what, numbers)| numbers.iter().map(move |&number| (what, number))).collect();
        pairs.sort();
        let seen: Vec<_> = self.0.keys().copied().collect();
        assert_eq!(seen, pairs, "what was met and what can be met");
        assert!(self.0.values().all(|&times| times >= least), "less often than {least}: {:?}", self.0);
    }
}

/// The numbers that each change of a record and each request on a run may be given, in the order in which they are tested.
const HART_NUMBERS: [(&str, &[u64]); 5] =
    [("start", &[12, 2, 4, 0]), ("suspend", &[12, 16, 5, 0]), ("stop", &[12, 16, 6, 0]), ("wake", &[12, 16, 7, 0]), ("off", &[12, 16, 0])];
const RUN_NUMBERS: [(&str, &[u64]); 3] = [("add", &[12, 11, 9, 10, 0]), ("remove", &[12, 11, 0]), ("defined", &[12, 11, 0])];

#[test]
fn the_header_lists_these_numbers() {
    let header =
        fs::read_to_string(Path::new(env!("CARGO_MANIFEST_DIR")).join("../include/oudrameng_lent.h")).expect("the header is there");
    let functions = ["start", "suspend", "stop", "wake", "off", "add_mmio_region", "remove_mmio_region", "is_mmio_region_defined"];
    for (function, (_, numbers)) in functions.iter().zip(HART_NUMBERS.iter().chain(&RUN_NUMBERS)) {
        let (before, _) = header.split_once(&format!(" lent_{function}(")).expect("the header declares it");
        let (_, gives) = before.rsplit_once("Gives ").expect("the comment says what it gives");
        let (gives, _) = gives.split_once('.').expect("the sentence ends");
        let listed: Vec<u64> = gives.split(|c: char| !c.is_ascii_digit()).filter_map(|digits| digits.parse().ok()).collect();
        assert_eq!(listed, *numbers, "{function}");
    }
}

/// The five changes in document 01's order: of a lent record, of a row by value, and of the Rust's hart.
const CHANGES: [&str; 5] = ["start", "suspend", "stop", "wake", "off"];
const LENT: [fn(&mut ConfidentialHart, u64, u64) -> Result<(), oudrameng::Error>; 5] = [
    ConfidentialHart::transition_from_stopped_to_started,
    |hart, _, _| hart.transition_from_started_to_suspended(),
    |hart, _, _| hart.transition_from_started_to_stopped(),
    ConfidentialHart::transition_from_suspended_to_started,
    |hart, _, _| hart.transition_to_shutdown(),
];
const BY_VALUE: [fn(&mut Row, u64, u64) -> u64; 5] =
    [Row::start, |row, _, _| row.suspend(), |row, _, _| row.stop(), Row::wake, |row, _, _| row.off()];
const BY_RUST: [fn(&mut rust::ConfidentialHart, usize, usize) -> Result<(), Error>; 5] = [
    rust::ConfidentialHart::transition_from_stopped_to_started,
    |hart, _, _| hart.transition_from_started_to_suspended(),
    |hart, _, _| hart.transition_from_started_to_stopped(),
    rust::ConfidentialHart::transition_from_suspended_to_started,
    |hart, _, _| Ok(hart.transition_to_shutdown()),
];

/// Lends a record that lies between two others, which must stay, and changes it.
fn lend(change: usize, row: Row, address: u64, opaque: u64) -> (u64, Row) {
    let beside = ConfidentialHart::from(Row([u64::MAX; HART_WORDS]));
    let mut harts = [beside, row.into(), beside];
    let number = unvalued(LENT[change](&mut harts[1], address, opaque));
    assert_eq!([harts[0], harts[2]], [beside; 2], "a record beside the lent one was written");
    (number, harts[1].into())
}

/// A real hart's record in a lifecycle, with any number, any operation and any registers.
fn real(random: &mut Random, lifecycle: u64) -> Row {
    let mut row = [(); HART_WORDS].map(|()| any(random) as u64);
    let operation = random.below(6) as u64;
    (row[0], row[2], row[3]) = (1, lifecycle, operation);
    if operation == 0 {
        row[4..6].fill(0);
    }
    Row(row)
}

/// A dummy's record.
fn dummy(hardware_hart: u64) -> Row {
    Row([0, hardware_hart, 0, 0, 0, 0, 0, 0, 0, 0, 0, 0])
}

#[test]
fn a_lent_hart_changes_as_in_the_rust() {
    let random = &mut Random::new(1);
    let mut seen = Seen::default();
    for round in 0..100_000 {
        let (lifecycle, change) = (round % 4, round as usize / 4 % 5);
        let row = real(random, lifecycle);
        let mut rust = hart_of(&row.0);
        assert_eq!(hart_words(&rust), row.0, "the Rust holds another hart");
        let (address, opaque) = (any(random), any(random));
        let (ours, after) = lend(change, row, address as u64, opaque as u64);
        assert_eq!(ours, number(BY_RUST[change](&mut rust, address, opaque)), "{} {row:?}", CHANGES[change]);
        assert_eq!(after.0, hart_words(&rust), "{} {row:?}", CHANGES[change]);
        seen.count(CHANGES[change], ours);
    }
    seen.check(2_000, &[("start", &[0, 4]), ("suspend", &[0, 5]), ("stop", &[0, 6]), ("wake", &[0, 7]), ("off", &[0])]);
}

#[test]
fn a_lent_dummy_changes_nowhere() {
    let mut seen = Seen::default();
    for hardware_hart in [0, 1, 63, 64, 1 << 32, 1 << 63, u64::MAX - 1, u64::MAX] {
        let row = dummy(hardware_hart);
        for change in 0..CHANGES.len() {
            let mut rust = hart_of(&row.0);
            let (ours, after) = lend(change, row, 1, 2);
            // The Rust asserts in all but start.
            match catch_unwind(AssertUnwindSafe(|| BY_RUST[change](&mut rust, 1, 2))) {
                Ok(result) => assert_eq!((CHANGES[change], ours), ("start", number(result))),
                Err(_) => assert_eq!(ours, 16, "{}", CHANGES[change]),
            }
            assert_eq!((after.0, hart_words(&rust)), (row.0, row.0), "{}", CHANGES[change]);
            seen.count(CHANGES[change], ours);
        }
    }
    seen.check(8, &[("start", &[2]), ("suspend", &[16]), ("stop", &[16]), ("wake", &[16]), ("off", &[16])]);
}

/// Changes a record lent and by value, each change from the record as it is, beside document 01.
fn both_changes(random: &mut Random, row: Row, seen: &mut Seen) {
    for (change, by_document) in change_numbers(&row.0).into_iter().enumerate() {
        let (address, opaque) = (any(random) as u64, any(random) as u64);
        let mut by_value = row;
        let expected = BY_VALUE[change](&mut by_value, address, opaque);
        let (ours, after) = lend(change, row, address, opaque);
        assert_eq!((ours, after), (expected, by_value), "{} {row:?}", CHANGES[change]);
        assert_eq!(ours, by_document, "{} {row:?}", CHANGES[change]);
        assert!(ours == 0 || after == row, "{} was refused and changed {row:?} to {after:?}", CHANGES[change]);
        seen.count(CHANGES[change], ours);
    }
}

#[test]
fn a_lent_hart_changes_as_by_value() {
    const WORDS: [u64; 12] = [0, 1, 2, 3, 4, 5, 6, 7, 1 << 32, 1 << 63, u64::MAX - 1, u64::MAX];
    let random = &mut Random::new(2);
    let mut seen = Seen::default();
    let drawn = |random: &mut Random, state| if state == 4 { dummy(any(random) as u64) } else { real(random, state) };
    // Each word in turn.
    for round in 0..100 {
        let row = drawn(random, round % 5);
        both_changes(random, row, &mut seen);
        for place in 0..HART_WORDS {
            for word in WORDS {
                let mut damaged = row;
                damaged.0[place] = word;
                both_changes(random, damaged, &mut seen);
            }
        }
    }
    // Up to three words at once, and all.
    for round in 0..50_000 {
        let mut row = drawn(random, round % 5);
        for _ in 0..random.below(4) {
            row.0[random.below(HART_WORDS)] = if random.one_in(3) { any(random) as u64 } else { random.of(&WORDS) };
        }
        both_changes(random, row, &mut seen);
        let noise = Row([(); HART_WORDS].map(|()| any(random) as u64));
        both_changes(random, noise, &mut seen);
    }
    seen.check(3_000, &HART_NUMBERS);
}

const UNUSED: ConfidentialVmMmioRegion = record(0, 0);
/// Records past the 1,024th, which nobody looks at: the first overlaps nearly all, and the others are no regions.
const PAST: [ConfidentialVmMmioRegion; 3] = [record(0, u64::MAX), record(u64::MAX, 7), record(9, 0)];

const fn record(base: u64, end: u64) -> ConfidentialVmMmioRegion {
    ConfidentialVmMmioRegion { base, end }
}

/// A run in which these regions stand, with the records past the 1,024th.
fn run(standing: impl IntoIterator<Item = ConfidentialVmMmioRegion>) -> Run {
    let mut records: Vec<_> = standing.into_iter().collect();
    let count = records.len() as u64;
    records.resize(MOST_REGIONS, UNUSED);
    records.extend(PAST);
    Run { records, count }
}

/// So many regions side by side: the i-th is that of `unit` addresses from `(64 + i) * unit` on.
fn side_by_side(regions: usize, unit: usize) -> Run {
    run((0..regions).map(|i| record(((64 + i) * unit) as u64, ((65 + i) * unit) as u64)))
}

fn base_and_size(request: &Request) -> (usize, usize) {
    match *request {
        Request::Add { base, size } | Request::Remove { base, size } | Request::Defined { base, size } => (base, size),
        _ => panic!("this is not asked of regions: {request:?}"),
    }
}

/// What a request on a lent run gives; adding and removing say nothing of what is defined.
fn ask(run: &mut Run, request: &Request) -> Defined {
    let (base, size) = base_and_size(request);
    let (base, size) = (base as u64, size as u64);
    match request {
        Request::Add { .. } => Defined { number: run.add(base, size), defined: false },
        Request::Remove { .. } => Defined { number: run.remove(base, size), defined: false },
        _ => {
            let given = run.is_mmio_region_defined(base, size);
            // Where it is refused the package has no flag, and the C function says no.
            // SAFETY: the run is a slice, and the function takes any records and any numbers.
            let by_c = unsafe { lent_is_mmio_region_defined(run.records.as_ptr(), run.records.len(), run.count, base, size) };
            assert_eq!(given, by_c, "{request:?} {run:?}");
            given
        }
    }
}

/// The Rust with the regions of a run.
fn rust_with(run: &Run) -> rust::ConfidentialVm {
    let mut vm = rust::ConfidentialVm::new(rust::ConfidentialVmId::new(1), vec![]);
    let standing = &run.records[..run.count as usize];
    vm.mmio_regions_mut().extend(standing.iter().map(|region| rust_region(region.base as usize, (region.end - region.base) as usize)));
    vm
}

fn rust_region(base: usize, size: usize) -> rust::ConfidentialVmMmioRegion {
    rust::ConfidentialVmMmioRegion::new(base, size).expect("making an address never fails")
}

/// The run that holds the Rust's regions.
fn run_of(vm: &rust::ConfidentialVm) -> Run {
    let standing = vm.mmio_regions().iter().map(|region| [&region.base_address, &region.one_past_the_end_address]);
    run(standing.map(|ends| ends.map(|address| address.usize() as u64)).map(|[base, end]| record(base, end)))
}

/// What the Rust gives. It has no 11: a request whose end is too large is not given to it.
fn ask_rust(vm: &mut rust::ConfidentialVm, request: &Request) -> Defined {
    let (base, size) = base_and_size(request);
    let mut given = Defined { number: 11, defined: false };
    if base.checked_add(size).is_some() {
        let region = rust_region(base, size);
        given.number = 0;
        match request {
            Request::Add { .. } => given.number = number(vm.add_mmio_region(region)),
            Request::Remove { .. } => vm.remove_mmio_region(&region),
            _ => given.defined = vm.is_mmio_region_defined(&region),
        }
    }
    given
}

/// The next request on a run: often about a region that stands, and now and then with the largest end or the next.
fn request(random: &mut Random, run: &Run, unit: usize) -> Request {
    let (mut base, mut size) = region(random, unit);
    if run.count != 0 && random.one_in(3) {
        let standing = run.records[random.below(run.count as usize)];
        base = (standing.base as usize).saturating_sub(random.below(2) * unit);
        size = if random.one_in(2) { (standing.end - standing.base) as usize } else { random.below(4) * unit };
    }
    if random.one_in(16) {
        size = (MAX - base).saturating_add(random.below(2));
    }
    match random.below(8) {
        0..4 => Request::Add { base, size },
        4 => Request::Remove { base, size },
        _ => Request::Defined { base, size },
    }
}

/// Counts a request with its answer: under its kind, and under what else is to be met.
fn count(seen: &mut Seen, request: &Request, given: Defined, before: &Run, after: &Run) {
    seen.count(KINDS[kind(request)].0, given.number);
    let standing = || before.records.iter().take(before.count as usize);
    match *request {
        Request::Add { size: 0, .. } => seen.count("add an empty one", given.number),
        Request::Add { base, size } if given.number == 0 => {
            let touches = standing().any(|region| region.end == base as u64 || region.base == (base + size) as u64);
            seen.count(if touches { "add beside another" } else { "add apart" }, 0);
            seen.count(if base + size == MAX { "add up to the largest end" } else { "add below it" }, 0);
        }
        Request::Remove { .. } if given.number == 0 => seen.count("remove so many", (before.count - after.count).min(2)),
        Request::Defined { .. } if given.number == 0 => seen.count("defined, no and yes", given.defined as u64),
        _ => {}
    }
}

/// All that is met by requests on a run that is sound.
const MET: [(&str, &[u64]); 10] = [
    ("add", &[0, 9, 10, 11]),
    ("remove", &[0, 11]),
    ("defined", &[0, 11]),
    ("add an empty one", &[0, 9, 10]),
    ("add beside another", &[0]),
    ("add apart", &[0]),
    ("add up to the largest end", &[0]),
    ("add below it", &[0]),
    ("remove so many", &[0, 1, 2]),
    ("defined, no and yes", &[0, 1]),
];

#[test]
fn a_lent_run_is_worked_as_in_the_rust() {
    let random = &mut Random::new(3);
    let mut seen = Seen::default();
    for round in 0..3_000 {
        let unit = random.of(&[1, 8, 4096]);
        let mut run = side_by_side(random.of(&[0, 0, 0, 5, 1000, MOST_REGIONS - 2, MOST_REGIONS]), unit);
        let mut vm = rust_with(&run);
        for _ in 0..120 {
            let request = request(random, &run, unit);
            let before = run.clone();
            let given = ask(&mut run, &request);
            assert_eq!(given, ask_rust(&mut vm, &request), "{round} {request:?} {before:?}");
            assert_eq!(given.number, run_number(&before.words(), before.count, &request), "{round} {request:?} {before:?}");
            assert_eq!(run, run_of(&vm), "{round} {request:?} {before:?}");
            count(&mut seen, &request, given, &before, &run);
        }
    }
    seen.check(700, &MET);
}

#[test]
fn the_1025th_of_a_lent_run_is_refused_as_in_the_rust() {
    let random = &mut Random::new(4);
    let mut run = side_by_side(0, 8);
    let mut vm = rust_with(&run);
    let mut both = |request: Request, number: u64, count: u64| {
        let given = ask(&mut run, &request);
        assert_eq!((given.number, run.count), (number, count), "{request:?}");
        assert_eq!(given, ask_rust(&mut vm, &request), "{request:?}");
        assert_eq!(run, run_of(&vm), "{request:?}");
    };
    // 1,024 regions side by side, added in any order, and one more beyond them.
    let mut bases: Vec<usize> = (0..MOST_REGIONS).map(|i| 8 * i).collect();
    for i in (1..bases.len()).rev() {
        bases.swap(i, random.below(i + 1));
    }
    for (base, count) in bases.into_iter().zip(1..) {
        both(Request::Add { base, size: 8 }, 0, count);
    }
    both(Request::Add { base: 8 * MOST_REGIONS, size: 8 }, 9, 1024);
    // Full comes before overlapping, and too large an end before both.
    both(Request::Add { base: 0, size: 8 }, 9, 1024);
    both(Request::Add { base: 0, size: 0 }, 9, 1024);
    both(Request::Add { base: 8, size: MAX - 7 }, 11, 1024);
    both(Request::Defined { base: 8 * 1023, size: 8 }, 0, 1024);
    both(Request::Remove { base: 8 * 1024, size: 8 }, 0, 1024);
    // Two of them, one more in the place of the last, a fifth scattered over the run, and then all.
    both(Request::Remove { base: 4, size: 8 }, 0, 1022);
    both(Request::Add { base: 0, size: 16 }, 0, 1023);
    both(Request::Add { base: MAX, size: 0 }, 0, 1024);
    both(Request::Remove { base: 8 * 500 + 7, size: 8 * 200 - 6 }, 0, 1024 - 201);
    both(Request::Remove { base: 0, size: MAX }, 0, 1);
    assert_eq!(run.records[..2], [record(u64::MAX, u64::MAX), UNUSED]);
}

/// Sound tables of two harts, whose regions are those of a run. What decides is the regions alone.
fn tables_with(run: &Run) -> Tables {
    let mut tables = Tables::filled(Tables::needed(2, 1), || 0);
    let setup = Request::Setup { harts: 2, hardware_harts: 1, boot: 0, a1: 1, mepc: 2, vsatp: 3, vsstatus: 4 };
    assert_eq!(by_c(&mut tables, &setup, &mut [], &mut []), 0);
    put(run, &mut tables);
    tables
}

fn put(run: &Run, tables: &mut Tables) {
    tables.regions = run.words();
    tables.head[3] = run.count;
}

/// What the entry of a request on tables gives.
fn ask_entry(tables: &mut Tables, request: &Request) -> Defined {
    let mut value = [0; VALUE_WORDS];
    let number = by_c(tables, request, &mut [], &mut value);
    Defined { number, defined: value[0] == 1 }
}

/// What the leaves give on a table over plain numbers.
fn ask_leaf(regions: &mut Regions, request: &Request) -> Defined {
    let (base, size) = base_and_size(request);
    let (number, region) = new_region(base as u64, size as u64);
    let mut given = Defined { number, defined: false };
    match request {
        _ if number != 0 => {}
        Request::Add { .. } => given.number = regions.add(region),
        Request::Remove { .. } => regions.remove(region),
        _ => given.defined = regions.is_mmio_region_defined(region),
    }
    given
}

#[test]
fn a_lent_run_is_worked_as_the_tables_over_plain_numbers() {
    let random = &mut Random::new(5);
    let mut seen = Seen::default();
    for round in 0..3_000 {
        let unit = random.of(&[1, 8, 4096]);
        let mut run = side_by_side(random.of(&[0, 0, 0, 5, 1000, MOST_REGIONS - 2, MOST_REGIONS]), unit);
        let mut regions = Regions { words: run.words(), count: run.count };
        let mut tables = tables_with(&run);
        for _ in 0..120 {
            let request = request(random, &run, unit);
            let before = run.clone();
            let given = ask(&mut run, &request);
            let words = run.words();
            assert_eq!(given, ask_leaf(&mut regions, &request), "{round} {request:?} {before:?}");
            assert_eq!((run.count, &words), (regions.count, &regions.words), "{round} {request:?} {before:?}");
            assert_eq!(given, ask_entry(&mut tables, &request), "{round} {request:?} {before:?}");
            assert_eq!((run.count, &words), (tables.head[3], &tables.regions), "{round} {request:?} {before:?}");
            count(&mut seen, &request, given, &before, &run);
        }
    }
    seen.check(700, &MET);
}

/// Requests of each kind: of a region that stands in none of the runs below, of one that overlaps all, of empty ones and of one whose end is too
/// large.
fn requests() -> Vec<Request> {
    let regions = [(1 << 40, 8), (0, MAX), (0, 0), (8 * 70, 0), (8 * 70, 8), (MAX, 1)];
    let of = |(base, size)| [Request::Add { base, size }, Request::Remove { base, size }, Request::Defined { base, size }];
    regions.into_iter().flat_map(of).collect()
}

/// Gives each request to a run as it is, by document 01's words, and to the entry on tables of the same words.
fn judge(run: &Run, tables: &mut Tables, seen: &mut Seen) {
    let words = run.words();
    for request in requests() {
        let mut after = run.clone();
        let given = ask(&mut after, &request);
        let told = || format!("{request:?} on {} records with the count {}", run.records.len(), run.count);
        assert_eq!(given.number, run_number(&words, run.count, &request), "{}", told());
        assert!(given.number == 0 || (!given.defined && after == *run), "it was refused and not left: {}", told());
        put(run, tables);
        assert_eq!(given, ask_entry(tables, &request), "{}", told());
        assert_eq!((after.count, after.words()), (tables.head[3], tables.regions.clone()), "{}", told());
        seen.count(KINDS[kind(&request)].0, given.number);
    }
}

#[test]
fn a_damaged_run_is_12_and_stays() {
    let mut seen = Seen::default();
    let tables = &mut tables_with(&side_by_side(0, 8));
    for count in [0, 1, 2, 1000, MOST_REGIONS - 1, MOST_REGIONS] {
        let sound = side_by_side(count, 8);
        assert!(is_region_table(&sound.words(), sound.count));
        let mut damaged = vec![];
        // Too short, whatever the count; too large a count.
        for length in [0, 1, MOST_REGIONS - 1] {
            for count in [0, 1, count as u64, 1023, 1024, 1025, u64::MAX] {
                damaged.push(Run { records: sound.records[..length].to_vec(), count });
            }
        }
        for count in [1025, 1026, 1027, 1028, 1 << 63, u64::MAX] {
            damaged.push(Run { count, ..sound.clone() });
        }
        // A base above its end, in the first, a middle and the last place that is used.
        let mut with = |place: usize, record| {
            let mut run = sound.clone();
            run.records[place] = record;
            damaged.push(run);
        };
        for place in [0, count / 2, count.max(1) - 1].into_iter().filter(|_| count != 0) {
            let region = sound.records[place];
            with(place, record(region.end + 1, region.end));
            with(place, record(region.base, region.base - 1));
            with(place, record(region.end, region.base));
            with(place, record(u64::MAX, 0));
        }
        // An unused record that is not 0, in the first, a middle and the last place.
        for place in [count, (count + MOST_REGIONS) / 2, MOST_REGIONS - 1].into_iter().filter(|_| count < MOST_REGIONS) {
            for word in [1, 1 << 63, u64::MAX] {
                with(place, record(word, 0));
                with(place, record(0, word));
                with(place, record(word, word));
            }
        }
        for run in damaged {
            assert!(!is_region_table(&run.words(), run.count), "{} {}", run.records.len(), run.count);
            judge(&run, tables, &mut seen);
        }
    }
    seen.check(1_000, &[("add", &[12]), ("remove", &[12]), ("defined", &[12])]);
}

#[test]
fn a_run_with_damaged_words_is_judged_by_the_document() {
    let random = &mut Random::new(6);
    let mut seen = Seen::default();
    let tables = &mut tables_with(&side_by_side(0, 8));
    for count in [0, 1, 2, 1000, MOST_REGIONS - 1, MOST_REGIONS] {
        for _ in 0..100 {
            let mut run = side_by_side(count, 8);
            match random.below(4) {
                0 => run.count = random.of(&[0, 1, count as u64 + 1, (count as u64).wrapping_sub(1), 1023, 1024, 1025, u64::MAX]),
                1 => run.records.truncate(random.of(&[0, 1, 512, MOST_REGIONS - 1, MOST_REGIONS, MOST_REGIONS + 1])),
                2 => run.records[random.below(count + 1)] = record(any(random) as u64, any(random) as u64),
                _ => {
                    let length = run.records.len();
                    let place = &mut run.records[random.below(length)];
                    *(if random.one_in(2) { &mut place.base } else { &mut place.end }) = any(random) as u64;
                }
            }
            judge(&run, tables, &mut seen);
        }
    }
    seen.check(100, &RUN_NUMBERS);
}

#[test]
fn what_lies_past_the_1024th_record_is_not_looked_at() {
    let random = &mut Random::new(7);
    let mut seen = Seen::default();
    for count in [0, 1, 2, 1000, MOST_REGIONS - 1, MOST_REGIONS] {
        let mut bare = side_by_side(count, 8);
        bare.records.truncate(MOST_REGIONS);
        for past in [1, 2, 3, MOST_REGIONS] {
            let beyond: Vec<_> = (0..past).map(|_| record(any(random) as u64, any(random) as u64)).collect();
            for request in requests() {
                let mut run = Run { records: [bare.records.clone(), beyond.clone()].concat(), ..bare };
                let mut expected = bare.clone();
                let given = ask(&mut run, &request);
                assert_eq!(given, ask(&mut expected, &request), "{count} {past} {request:?}");
                expected.records.extend_from_slice(&beyond);
                assert_eq!(run, expected, "{count} {past} {request:?}");
                seen.count(KINDS[kind(&request)].0, given.number);
            }
        }
    }
    seen.check(10, &[("add", &[0, 9, 10, 11]), ("remove", &[0, 11]), ("defined", &[0, 11])]);
}

/// Asks for requests from an empty run on, each answered with its number, and then these regions must stand.
fn regions_after(requests: &[(Request, u64)], standing: &[[u64; REGION_WORDS]]) {
    let mut ours = side_by_side(0, 1);
    for (request, number) in requests {
        assert_eq!(ask(&mut ours, request).number, *number, "{request:?} of {requests:?}");
    }
    assert_eq!(ours, run(standing.iter().map(|&[base, end]| record(base, end))), "{requests:?}");
}

#[test]
fn document_01s_p2_to_p5_on_a_run() {
    let (add, remove) = (|base, size| Request::Add { base, size }, |base, size| Request::Remove { base, size });
    let defined = |base, size| Request::Defined { base, size };
    let all = [4096, 8192];
    // P2
    regions_after(&[(add(4096, 4096), 0), (add(8192, 4096), 0)], &[all, [8192, 12288]]);
    // P3
    let p3 = [(add(4096, 4096), 0), (add(4096, 0), 0), (add(4096, 0), 0), (add(5000, 0), 10)];
    regions_after(&p3, &[all, [4096, 4096], [4096, 4096]]);
    // P4
    let p4 = [&p3[..], &[(remove(5000, 0), 0), (remove(4096, 0), 0)]].concat();
    regions_after(&p4[..5], &[[4096, 4096], [4096, 4096]]);
    regions_after(&p4, &[[4096, 4096], [4096, 4096]]);
    // P5
    regions_after(&[(add(MAX, 0), 0), (add(MAX, 1), 11), (remove(MAX, 1), 11), (defined(MAX, 1), 11)], &[[u64::MAX; 2]]);
}
