//! Lists of writes between two register files.

use thymeflask_tests::cases::{each_case, Case, Tally};
use thymeflask_tests::compare;
use thymeflask_tests::inputs::{files, requests};
use thymeflask_tests::library::{self, FILE_BYTES, STATE_BYTES};
use thymeflask_tests::model::masks::CAPTIONS;
use thymeflask_tests::model::plan::Plan;

const SEED: u64 = 0x504C_4101;

#[test]
fn files_of_all_kinds() {
    let mut tally = Tally::new("plan");
    each_case(SEED, 30_000, |case| {
        let from = match case.random.below(3) {
            0 => files::with_picture(&mut case.random),
            _ => files::any(&mut case.random),
        };
        let to = files::changed(&mut case.random, &from);
        let out = case.random.bytes(300);
        let plan = compare::plan(case, &from, &to, &out);
        tally.meet(plan.reply);
        if plan.reply == 0 {
            assert!(plan.list.len() <= 254);
            leads_there(case, &from, &to, &plan);
            for length in room_near(case, plan.list.len()) {
                tally.meet(compare::plan(case, &from, &to, &out[..length]).reply);
            }
        }
    });
    tally.finish(&[0, 10, 11], 2_000);
}

/// Lengths of a buffer around that of the list: just enough, one short, one over, none, some.
fn room_near(case: &mut Case, bytes: usize) -> [usize; 5] {
    let less = case.random.below(bytes + 1);
    [bytes, bytes.saturating_sub(1), bytes + 1, 0, less]
}

/// The list as the library's own bus writes do it: on a state with the first file it leaves the second,
/// and nothing else moves.
fn leads_there(case: &Case, from: &[u8], to: &[u8], plan: &Plan) {
    let inputs: &[(&str, &[u8])] = &[("from", from), ("to", to), ("list", &plan.list)];
    let mut state = vec![0x3C; STATE_BYTES];
    let mut wanted = state.clone();
    state[..FILE_BYTES].copy_from_slice(from);
    wanted[..FILE_BYTES].copy_from_slice(to);
    let mut list = &plan.list[..];
    let mut bursts = 0;
    while let [subaddress, count, rest @ ..] = list {
        let (data, behind) = rest.split_at(usize::from(*count));
        let first = usize::from(*subaddress);
        let written = first..first + data.len();
        assert!(!data.is_empty() && !CAPTIONS.iter().any(|caption| written.contains(caption)));
        let transaction = [&[0x88, *subaddress], data].concat();
        let reply = library::write(&mut state, &transaction);
        case.same("reply to a burst", reply, 0, inputs);
        list = behind;
        bursts += 1;
    }
    case.same("state after the list", state, wanted, inputs);
    case.same("bursts", bursts, plan.bursts, inputs);
}

/// The list that changes just these places, at one writable bit each.
fn list_of(case: &mut Case, from: &[u8], places: &[usize]) -> Plan {
    let mut to = from.to_vec();
    for place in places {
        to[*place] ^= lowest_bit(files::writable(*place));
    }
    compare::plan(case, from, &to, &[0xEE; 254])
}

fn lowest_bit(bits: u8) -> u8 {
    bits & bits.wrapping_neg()
}

fn writable_places(places: impl Iterator<Item = usize>) -> Vec<usize> {
    places
        .filter(|place| files::writable(*place) != 0)
        .collect()
}

/// Every pair of places: of two bursts the gap between them decides.
#[test]
fn every_pair_of_places() {
    let mut tally = Tally::new("plan, every pair of places");
    let case = &mut Case::new(SEED, 0);
    let from = case.random.bytes(FILE_BYTES);
    let places = writable_places(0..FILE_BYTES);
    assert_eq!(places.len(), 92);
    for first in &places {
        for second in places.iter().filter(|second| *second > first) {
            let plan = list_of(case, &from, &[*first, *second]);
            let gap = second - first - 1;
            let expected = if gap <= 2 { (gap + 4, 1) } else { (6, 2) };
            let counted = (plan.list.len(), plan.bursts);
            assert_eq!(counted, expected, "{first:02x}, {second:02x}");
            tally.meet(plan.reply);
        }
    }
    tally.finish(&[0], 4_186);
}

/// Every choice of places within every window of eight.
#[test]
fn every_window_of_eight_places() {
    let mut tally = Tally::new("plan, every window of eight places");
    let case = &mut Case::new(SEED, 1);
    let from = case.random.bytes(FILE_BYTES);
    for first in 0..=FILE_BYTES - 8 {
        let places = writable_places(first..first + 8);
        for choice in 0..1_usize << places.len() {
            let chosen = (0..places.len()).filter(|index| choice >> index & 1 == 1);
            let chosen: Vec<usize> = chosen.map(|index| places[index]).collect();
            tally.meet(list_of(case, &from, &chosen).reply);
        }
    }
    tally.finish(&[0], 10_000);
}

/// Every single bit of the file, by itself and beside a place that is changed anyway: 10 for the bits
/// that cannot be written, and a burst for the others.
#[test]
fn every_single_bit() {
    let mut tally = Tally::new("plan, every single bit");
    let case = &mut Case::new(SEED, 2);
    for bit in 0..8 * FILE_BYTES {
        let from = case.random.bytes(FILE_BYTES);
        let mut to = from.clone();
        to[bit / 8] ^= 1 << (bit % 8);
        let writable = files::writable(bit / 8) >> (bit % 8) & 1 == 1;
        let plan = compare::plan(case, &from, &to, &[0; 254]);
        assert_eq!(plan.reply, if writable { 0 } else { 10 }, "bit {bit}");
        tally.meet(plan.reply);
        // The refusal for the bit comes before the one for the buffer.
        let plan = compare::plan(case, &from, &to, &[]);
        assert_eq!(plan.reply, if writable { 11 } else { 10 }, "bit {bit}");
        tally.meet(plan.reply);
        to[0xA2] ^= 0x10;
        tally.meet(compare::plan(case, &from, &to, &[0; 254]).reply);
    }
    tally.finish(&[0, 10, 11], 500);
}

#[test]
fn equal_files() {
    let mut tally = Tally::new("plan, equal files");
    each_case(SEED + 3, 1_000, |case| {
        let file = files::any(&mut case.random);
        let length = case.random.below(3);
        let out = case.random.bytes(length);
        let plan = compare::plan(case, &file, &file, &out);
        assert_eq!(plan, Plan::default());
        tally.meet(plan.reply);
    });
    tally.finish(&[0], 1_000);
}

/// Every place that can be written, changed at once, and every second, third and so on: the buffer that
/// is said to be always enough is enough.
#[test]
fn long_lists() {
    let mut tally = Tally::new("plan, long lists");
    let case = &mut Case::new(SEED, 4);
    let from = case.random.bytes(FILE_BYTES);
    let all = writable_places(0..FILE_BYTES);
    let mut longest = 0;
    for step in 1..=8 {
        for start in 0..step {
            let chosen: Vec<usize> = all.iter().copied().skip(start).step_by(step).collect();
            let plan = list_of(case, &from, &chosen);
            tally.meet(plan.reply);
            longest = longest.max(plan.list.len());
        }
    }
    println!("plan, long lists: {longest} bytes at most");
    tally.finish(&[0], 36);
}

/// From one picture to another.
#[test]
fn from_picture_to_picture() {
    let mut tally = Tally::new("plan, from picture to picture");
    each_case(SEED + 5, 5_000, |case| {
        let from = files::with_picture(&mut case.random);
        let mut to = from.clone();
        let request = requests::accepted(&mut case.random).to_bytes();
        assert_eq!(library::write_picture(&mut to, &request), 0);
        let plan = compare::plan(case, &from, &to, &[0; 254]);
        tally.meet(plan.reply);
        leads_there(case, &from, &to, &plan);
    });
    tally.finish(&[0], 5_000);
}
