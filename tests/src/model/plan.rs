//! The shortest list of writes, by dynamic programming over the places.

use super::lowest;
use super::masks::{self, CAPTIONS, REGISTERS_END};
use crate::library::FILE_BYTES;

/// Bytes on the bus, then bursts: the order of the pair is the paper's order of lists.
pub type Cost = (u64, u64);

#[derive(Clone, Copy, Debug, Default)]
pub struct Place {
    pub changed: bool,
    pub barred: bool,
}

/// What is done at a place.
#[derive(Clone, Copy, Debug, PartialEq)]
enum Choice {
    Leave,
    Begin,
    Go,
}

/// The cheapest way to deal with all places from one on, and how many ways are as cheap.
#[derive(Clone, Copy, Debug)]
struct Best {
    cost: Cost,
    choice: Choice,
    ways: u64,
}

const HEADING: u64 = 2;
const NO_COST: Cost = (0, 0);

/// The runs of the cheapest list that writes every changed place and no barred one: first place and
/// end. There must be such a list, and it must be the only one that is as cheap.
pub fn runs(places: &[Place]) -> Vec<(usize, usize)> {
    let table = best_of_all(places);
    let mut runs: Vec<(usize, usize)> = Vec::new();
    let mut open = false;
    for (index, best) in table[..places.len()].iter().enumerate() {
        let best = best[usize::from(open)].expect("the changed places can be written");
        assert_eq!(best.ways, 1, "lists of the same cost, at place {index}");
        match best.choice {
            Choice::Leave => {}
            Choice::Begin => runs.push((index, index + 1)),
            Choice::Go => runs.last_mut().expect("an open burst").1 = index + 1,
        }
        open = best.choice != Choice::Leave;
    }
    runs
}

/// For each place, with no burst open at it and with one open.
fn best_of_all(places: &[Place]) -> Vec<[Option<Best>; 2]> {
    let end = Best {
        cost: NO_COST,
        choice: Choice::Leave,
        ways: 1,
    };
    let mut table = vec![[Some(end); 2]; places.len() + 1];
    for index in (0..places.len()).rev() {
        let [closed, open] = table[index + 1];
        table[index] = [false, true].map(|is_open| {
            let leave = (!places[index].changed).then_some((closed, Choice::Leave, NO_COST));
            let begin = (!places[index].barred).then_some((open, Choice::Begin, (HEADING + 1, 1)));
            let may_go = is_open && !places[index].barred;
            let go = may_go.then_some((open, Choice::Go, (1, 0)));
            cheapest([leave, begin, go])
        });
    }
    table
}

/// The cheapest of up to three choices, each with what comes behind it and what it costs itself.
fn cheapest(choices: [Option<(Option<Best>, Choice, Cost)>; 3]) -> Option<Best> {
    let mut best: Option<Best> = None;
    for (behind, choice, own) in choices.into_iter().flatten() {
        let Some(behind) = behind else { continue };
        let cost = (behind.cost.0 + own.0, behind.cost.1 + own.1);
        let ways = behind.ways;
        best = match best {
            Some(other) if other.cost < cost => Some(other),
            Some(other) if other.cost == cost => Some(Best {
                ways: other.ways.saturating_add(ways),
                ..other
            }),
            _ => Some(Best { cost, choice, ways }),
        };
    }
    best
}

pub fn cost(runs: &[(usize, usize)]) -> Cost {
    let data: usize = runs.iter().map(|(first, end)| end - first).sum();
    let bursts = runs.len() as u64;
    (data as u64 + HEADING * bursts, bursts)
}

#[derive(Clone, Debug, Default, PartialEq)]
pub struct Plan {
    pub reply: u32,
    pub list: Vec<u8>,
    pub bursts: u64,
}

impl Plan {
    /// The reply in bits 0 to 7, the bytes in bits 8 to 31, the bursts in bits 32 to 63.
    pub fn result(&self) -> u64 {
        u64::from(self.reply) | (self.list.len() as u64) << 8 | self.bursts << 32
    }
}

/// The list of writes from one file to the other, into a buffer of so many bytes.
pub fn plan(from: &[u8], to: &[u8], out_length: usize) -> Plan {
    let refused = |reply| Plan {
        reply,
        ..Plan::default()
    };
    if from.len() != FILE_BYTES || to.len() != FILE_BYTES {
        return refused(1);
    }
    if (0..FILE_BYTES).any(|place| cannot_be_written(place, from[place], to[place])) {
        return refused(10);
    }
    let runs = runs(&places(from, to));
    let (bytes, bursts) = cost(&runs);
    match lowest(&[(11, bytes > out_length as u64)]) {
        0 => Plan {
            reply: 0,
            list: list(&runs, to),
            bursts,
        },
        reply => refused(reply),
    }
}

fn cannot_be_written(place: usize, from: u8, to: u8) -> bool {
    let differing = from ^ to;
    let barred = CAPTIONS.contains(&place);
    differing & !masks::mask(place) != 0 || barred && differing != 0
}

fn places(from: &[u8], to: &[u8]) -> Vec<Place> {
    let place = |index: usize| Place {
        changed: from[index] != to[index],
        barred: CAPTIONS.contains(&index),
    };
    (0..REGISTERS_END).map(place).collect()
}

/// The bursts in the buffer: subaddress, count, and the wanted file's bytes.
fn list(runs: &[(usize, usize)], to: &[u8]) -> Vec<u8> {
    let mut list = Vec::new();
    for (first, end) in runs {
        list.push(u8::try_from(*first).expect("a subaddress"));
        list.push(u8::try_from(end - first).expect("a count"));
        list.extend_from_slice(&to[*first..*end]);
    }
    list
}

#[cfg(test)]
mod tests {
    use super::*;
    use crate::model::brute::Tiny;
    use crate::random::Random;

    fn changed(marks: &str) -> Vec<Place> {
        let place = |mark| Place {
            changed: mark == 'x',
            barred: mark == '#',
        };
        marks.chars().map(place).collect()
    }

    #[test]
    fn gaps_of_up_to_two_places_are_bridged() {
        assert_eq!(runs(&changed("")), []);
        assert_eq!(runs(&changed("....")), []);
        assert_eq!(runs(&changed("xx..x")), [(0, 5)]);
        assert_eq!(runs(&changed("x...x")), [(0, 1), (4, 5)]);
        assert_eq!(runs(&changed(".x.x...xx.")), [(1, 4), (7, 9)]);
        assert_eq!(runs(&changed("x#x")), [(0, 1), (2, 3)]);
    }

    /// The cost of the list against that of every list there is, on a small chip.
    fn agrees(tiny: &Tiny, first: u32) {
        let found = tiny.cheapest(first);
        for wanted in 0..1 << tiny.width {
            let differing = first ^ wanted;
            let places: Vec<Place> = (0..tiny.width)
                .map(|bit| Place {
                    changed: differing >> bit & 1 == 1,
                    barred: tiny.barred >> bit & 1 == 1,
                })
                .collect();
            let stuck = differing & (tiny.barred | tiny.unnamed) != 0;
            let planned = (!stuck).then(|| cost(&runs(&places)));
            assert_eq!(
                found[wanted as usize], planned,
                "{tiny:?}, {first:b} to {wanted:b}"
            );
        }
    }

    #[test]
    fn no_list_on_a_small_chip_is_cheaper() {
        let mut random = Random::new(3);
        for _ in 0..400 {
            let width = 1 + random.below(7) as u32;
            let tiny = Tiny {
                width,
                unnamed: random.below(1 << width) as u32 & random.below(1 << width) as u32,
                barred: random.below(1 << width) as u32 & random.below(1 << width) as u32,
            };
            agrees(&tiny, random.below(1 << width) as u32);
        }
    }

    #[test]
    fn no_list_on_ten_places_is_cheaper() {
        let tiny = Tiny {
            width: 10,
            unnamed: 0,
            barred: 0,
        };
        agrees(&tiny, 0);
        agrees(&tiny, 0b10_1101_0010);
    }
}
