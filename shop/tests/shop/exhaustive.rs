// The most that a plan of a small order earns, by trying every cut at every unit and every way to share the copies
// out. It shares nothing with the planner but the meaning of an order.
use std::collections::HashMap;

/// A panel in units: sides, price and copies.
#[derive(Clone, Copy, Debug)]
pub struct Panel {
    pub sides: [usize; 2],
    pub price: u64,
    pub count: usize,
}

#[derive(Clone)]
pub struct Small {
    pub plate: [usize; 2],
    pub kerf: usize,
    pub turning: bool,
    pub panels: Vec<Panel>,
}

type Known = HashMap<([usize; 2], Vec<usize>), u64>;

impl Small {
    pub fn most(&self) -> u64 {
        let area = self.plate[0] * self.plate[1];
        let held = |panel: &Panel| panel.count.min(area / (panel.sides[0] * panel.sides[1]));
        self.most_on(self.plate, self.panels.iter().map(held).collect(), &mut Known::new())
    }

    fn most_on(&self, sides: [usize; 2], left: Vec<usize>, known: &mut Known) -> u64 {
        if left.iter().all(|copies| *copies == 0) {
            return 0;
        }
        if let Some(most) = known.get(&(sides, left.clone())) {
            return *most;
        }
        let mut most = self.single(sides, &left);
        for side in 0..2 {
            for at in 1..sides[side].saturating_sub(self.kerf) {
                let (mut first, mut second) = (sides, sides);
                (first[side], second[side]) = (at, sides[side] - at - self.kerf);
                for share in shares(&left) {
                    let rest = left.iter().zip(&share).map(|(left, share)| left - share).collect();
                    let earned = self.most_on(first, share, known) + self.most_on(second, rest, known);
                    most = most.max(earned);
                }
            }
        }
        known.insert((sides, left), most);
        most
    }

    fn single(&self, [length, width]: [usize; 2], left: &[usize]) -> u64 {
        let fits = |panel: &Panel| {
            let [a, b] = panel.sides;
            a <= length && b <= width || self.turning && b <= length && a <= width
        };
        let open = self.panels.iter().zip(left).filter(|(panel, left)| **left > 0 && fits(panel));
        open.map(|(panel, _)| panel.price).max().unwrap_or(0)
    }
}

/// Every way to take copies, none more than are left.
fn shares(left: &[usize]) -> Vec<Vec<usize>> {
    let mut shares = vec![Vec::new()];
    for copies in left {
        let longer = |share: &Vec<usize>| {
            (0..=*copies).map(|taken| [&share[..], &[taken]].concat()).collect::<Vec<_>>()
        };
        shares = shares.iter().flat_map(longer).collect();
    }
    shares
}

#[test]
fn job_s_is_searched() {
    let panel = |sides, price, count| Panel { sides, price, count };
    let panels = vec![panel([2, 3], 7, 1), panel([3, 1], 4, 2), panel([2, 2], 5, 1)];
    let mut small = Small { plate: [5, 3], kerf: 0, turning: false, panels };
    assert_eq!(small.most(), 16);
    small.panels.iter_mut().for_each(|panel| panel.count = 9);
    assert_eq!(small.most(), 19);
    small.turning = true;
    small.panels.iter_mut().zip([2, 2, 1]).for_each(|(panel, count)| panel.count = count);
    assert_eq!(small.most(), 18);
}

impl Small {
    /// The fewest plates that hold every copy, by trying every way to share the copies out.
    pub fn fewest(&self) -> usize {
        let all: Vec<usize> = self.panels.iter().map(|panel| panel.count).collect();
        self.fewest_for(&all, &mut HashMap::new(), &mut Known::new())
    }

    fn fewest_for(&self, left: &[usize], known: &mut HashMap<Vec<usize>, usize>, held: &mut Known) -> usize {
        if left.iter().all(|copies| *copies == 0) {
            return 0;
        }
        if let Some(fewest) = known.get(left) {
            return *fewest;
        }
        let mut fewest = usize::MAX;
        for share in shares(left) {
            let count: usize = share.iter().sum();
            if count > 0 && self.copies_on(self.plate, share.clone(), held) == count as u64 {
                let rest: Vec<usize> = left.iter().zip(&share).map(|(left, share)| left - share).collect();
                fewest = fewest.min(self.fewest_for(&rest, known, held).saturating_add(1));
            }
        }
        known.insert(left.to_vec(), fewest);
        fewest
    }

    /// The most copies of these that a rectangle holds.
    fn copies_on(&self, sides: [usize; 2], left: Vec<usize>, known: &mut Known) -> u64 {
        let priced = |panel: &Panel| Panel { price: 1, ..*panel };
        let counted = Small { panels: self.panels.iter().map(priced).collect(), ..*self };
        counted.most_on(sides, left, known)
    }
}

#[test]
fn the_fewest_plates_are_found() {
    let panels =
        vec![Panel { sides: [3, 2], price: 1, count: 3 }, Panel { sides: [2, 2], price: 1, count: 1 }];
    let mut small = Small { plate: [5, 4], kerf: 0, turning: false, panels };
    assert_eq!(small.fewest(), 2);
    small.turning = true;
    small.plate = [6, 4];
    assert_eq!(small.fewest(), 1);
}
