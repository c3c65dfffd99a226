// Where words stand on a board: the boxes that are taken, and the first free place for a mark along its cut.

/// A box with its sides along the board's, by its middle.
#[derive(Clone, Copy, Debug, PartialEq)]
pub struct Spot {
    pub middle: [f64; 2],
    pub sides: [f64; 2],
}

/// The boxes that are taken.
#[derive(Default)]
pub struct Places(Vec<Spot>);

/// The most places that are tried along a cut.
const TRIED: usize = 60;

impl Spot {
    fn meets(&self, other: &Spot) -> bool {
        let meet = |side: usize| {
            let apart = (self.middle[side] - other.middle[side]).abs();
            apart < (self.sides[side] + other.sides[side]) / 2.0
        };
        meet(0) && meet(1)
    }

    fn is_within(&self, board: [f64; 2]) -> bool {
        let within = |side: usize| {
            let half = self.sides[side] / 2.0;
            half <= self.middle[side] && self.middle[side] + half <= board[side]
        };
        within(0) && within(1)
    }
}

impl Places {
    /// Takes a box if it is free.
    pub fn take(&mut self, spot: Spot) -> bool {
        let free = !self.0.iter().any(|taken| taken.meets(&spot));
        if free {
            self.0.push(spot);
        }
        free
    }

    /// Takes the first free box on the board along a line, from its start on, and gives its middle.
    pub fn take_along(
        &mut self,
        [from, to]: [[f64; 2]; 2],
        sides: [f64; 2],
        board: [f64; 2],
    ) -> Option<[f64; 2]> {
        let line = [to[0] - from[0], to[1] - from[1]];
        let side = usize::from(line[1] > line[0]);
        let (length, own) = (line[side], sides[side]);
        if own > length {
            return None;
        }
        let step = (own / 4.0).max((length - own) / TRIED as f64);
        let spot = |index: usize| {
            let share = (own / 2.0 + step * index as f64).min(length - own / 2.0) / length;
            Spot { middle: [0, 1].map(|side| from[side] + share * line[side]), sides }
        };
        let spots = (0..=TRIED).map(spot).map(|spot| spot.moved_onto(board));
        spots.into_iter().find(|spot| spot.is_within(board) && self.take(*spot)).map(|spot| spot.middle)
    }
}

impl Spot {
    /// The box moved onto the board where it reaches over an edge.
    fn moved_onto(self, board: [f64; 2]) -> Spot {
        let middle = [0, 1].map(|side| {
            let half = self.sides[side] / 2.0;
            self.middle[side].min(board[side] - half).max(half)
        });
        Spot { middle, ..self }
    }
}
