//! Every list of bursts there is, on a chip so small that they can all be tried: some places of one
//! bit each, of which some have no name and some are barred.

use super::plan::Cost;

#[derive(Debug)]
pub struct Tiny {
    pub width: u32,
    pub unnamed: u32,
    pub barred: u32,
}

impl Tiny {
    /// The cheapest list from the first file to every other, whatever data it sends and in whatever
    /// order, overlaps taken in. The file that is cheapest to reach is settled first, and every burst
    /// is tried on it.
    pub fn cheapest(&self, first: u32) -> Vec<Option<Cost>> {
        let files = 1 << self.width;
        let bursts = self.bursts();
        let mut reached: Vec<Option<Cost>> = vec![None; files];
        let mut settled = vec![false; files];
        reached[first as usize] = Some((0, 0));
        while let Some((cost, file)) = nearest(&reached, &settled) {
            settled[file] = true;
            for (written, data, bytes) in &bursts {
                let next = (file as u32 & !written | data) as usize;
                let longer = (cost.0 + bytes, cost.1 + 1);
                if reached[next].is_none_or(|known| longer < known) {
                    reached[next] = Some(longer);
                }
            }
        }
        reached
    }

    /// Every burst: the bits that it writes, their values, and its bytes on the bus.
    fn bursts(&self) -> Vec<(u32, u32, u64)> {
        let mut bursts = Vec::new();
        for first in 0..self.width {
            for end in first + 1..=self.width {
                let places = (1 << end) - (1 << first);
                if places & self.barred != 0 {
                    continue;
                }
                let written = places & !self.unnamed;
                for data in 0..1 << (end - first) {
                    let values = (data << first) & written;
                    bursts.push((written, values, 2 + u64::from(end - first)));
                }
            }
        }
        bursts
    }
}

/// The file that is reached at the lowest cost, of those that are not settled yet.
fn nearest(reached: &[Option<Cost>], settled: &[bool]) -> Option<(Cost, usize)> {
    let open = (0..reached.len()).filter(|file| !settled[*file]);
    open.filter_map(|file| reached[file].map(|cost| (cost, file)))
        .min()
}
