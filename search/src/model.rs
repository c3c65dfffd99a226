// Small models of a board: whole sizes for panels and plate, so that whatever chain of panels fits the board truly
// fits the model. Found by a linear program or by scaling, then mended one by one. `planner_check_model` judges them;
// nothing here is proved or need be.
use super::clock::Work;
use super::dice::Dice;
use super::simplex::{Column, Simplex};
use super::task::Task;
use crate::plan::Sides;

/// The greatest size in a model. Plates stay below it, so that a panel of this size fits none.
pub const MOST_SIZE: i32 = 1_000;

/// A sum that no chain has.
const FAR: i32 = 1 << 30;

/// A board and its panels in whole units of a model without a kerf.
#[derive(Clone, Debug, Default, PartialEq, Eq)]
pub struct Model {
    pub plate: [u16; 2],
    pub sides: Vec<[u16; 2]>,
}

/// A value in a chain, or else another of the same panel turned, and how many there are.
#[derive(Clone, Copy, Debug, PartialEq, Eq)]
struct Item {
    value: usize,
    other: Option<usize>,
    count: u32,
}

/// The chains along one direction of the board.
struct Axis {
    room: i32,
    items: Vec<Item>,
}

/// The true values, kerf added, that one map stands for, in the directions that share it.
struct Chains {
    values: Vec<i32>,
    axes: Vec<Axis>,
}

/// A model size for each value and a room for each direction.
#[derive(Clone, Debug)]
struct Map {
    sizes: Vec<i32>,
    rooms: Vec<i32>,
}

/// What breaks the model, the greatest miss of what it allows too much, and the sum of these.
type Misses = (i64, i64, i64);

/// The least and the greatest true sum of each model sum.
#[derive(Default)]
struct Sums {
    least: Vec<i32>,
    most: Vec<i32>,
    spare: Vec<i32>,
}

impl Sums {
    /// Adds one more item to every chain, in one of its ways; false where that changes nothing.
    fn pass(&mut self, room: usize, ways: &[(i32, i32)], work: &mut Work) -> bool {
        work.spend(self.least.len() * ways.len());
        self.spare.clone_from(&self.least);
        for &(value, size) in ways {
            let size = size as usize;
            let ends = (self.least.len() - size).min(room + 1);
            let sums = self.spare[size..size + ends].iter_mut().zip(&self.least[..ends]);
            sums.for_each(|(sum, before)| *sum = (*sum).min(*before + value));
        }
        let mut changed = self.spare != self.least;
        std::mem::swap(&mut self.spare, &mut self.least);
        self.spare.clone_from(&self.most);
        for &(value, size) in ways.iter().filter(|way| way.1 as usize <= room) {
            let size = size as usize;
            let sums = self.spare[size..=room].iter_mut().zip(&self.most[..=room - size]);
            sums.for_each(|(sum, before)| *sum = (*sum).max((*before + value).min(FAR)));
        }
        changed |= self.spare != self.most;
        std::mem::swap(&mut self.spare, &mut self.most);
        changed
    }
}

impl Chains {
    /// Over all model sums: the least true sum, up to the room and the longest size more, and the greatest.
    fn sum(&self, map: &Map, axis: usize, sums: &mut Sums, work: &mut Work) {
        let (items, true_room) = (&self.axes[axis].items, self.axes[axis].room);
        let room = map.rooms[axis];
        let sizes = |item: &Item| map.sizes[item.value].max(item.other.map_or(0, |other| map.sizes[other]));
        let top = (room + 1 + items.iter().map(sizes).max().unwrap_or(0)) as usize;
        for (list, length, far) in [(&mut sums.least, top, FAR), (&mut sums.most, room as usize + 1, -FAR)] {
            list.clear();
            list.resize(length, far);
            list[0] = 0;
        }
        let most_of = |value: i32, size: i32| (true_room / value).max(room / size) as u32 + 1;
        for item in items {
            let (value, size) = (self.values[item.value], map.sizes[item.value]);
            if let Some(other) = item.other {
                let (other_value, other_size) = (self.values[other], map.sizes[other]);
                let most = most_of(value.min(other_value), size.min(other_size));
                let ways = [(value, size), (other_value, other_size)];
                for _ in 0..item.count.min(most) {
                    if !sums.pass(room as usize, &ways, work) {
                        break;
                    }
                }
            } else {
                for copies in halves(item.count.min(most_of(value, size))) {
                    if i64::from(copies) * i64::from(size) < top as i64 {
                        let value = (i64::from(copies) * i64::from(value)).min(i64::from(FAR)) as i32;
                        sums.pass(room as usize, &[(value, copies as i32 * size)], work);
                    }
                }
            }
        }
    }

    fn misses(&self, map: &Map, sums: &mut Sums, work: &mut Work) -> Misses {
        let (mut broken, mut greatest, mut all) = (0, 0, 0);
        for (axis, room) in self.axes.iter().map(|axis| axis.room).enumerate() {
            self.sum(map, axis, sums, work);
            for over in
                sums.most.iter().map(|most| i64::from(*most) - i64::from(room)).filter(|over| *over > 0)
            {
                all += over;
                greatest = greatest.max(over);
            }
            let beyond = sums.least[map.rooms[axis] as usize + 1..].iter();
            let under =
                beyond.map(|least| i64::from(room) - i64::from(*least) + 1).filter(|under| *under > 0);
            broken += under.sum::<i64>();
        }
        (broken, greatest, all)
    }

    /// Moves single sizes and rooms by one, up or down, while that helps.
    fn mend(
        &self,
        map: &mut Map,
        score: impl Fn(Misses) -> Misses,
        sweeps: usize,
        dice: &mut Dice,
        work: &mut Work,
    ) -> Misses {
        let mut sums = Sums::default();
        let mut best = score(self.misses(map, &mut sums, work));
        let numbers = self.values.len() + self.axes.len();
        for _ in 0..sweeps {
            let (before, shift) = (best, dice.below(numbers));
            for (number, step) in (0..numbers).flat_map(|number| [(number, 1), (number, -1)]) {
                if best == (0, 0, 0) || work.is_over() {
                    return best;
                }
                let number = (number + shift) % numbers;
                let mut moved = map.clone();
                let size = match number.checked_sub(self.values.len()) {
                    None => &mut moved.sizes[number],
                    Some(axis) => &mut moved.rooms[axis],
                };
                *size += step;
                if *size < 1 || *size >= MOST_SIZE {
                    continue;
                }
                let misses = score(self.misses(&moved, &mut sums, work));
                if misses < best || misses == best && dice.below(2) == 0 {
                    (best, *map) = (misses, moved);
                }
            }
            if best == before {
                break;
            }
        }
        best
    }

    /// A map that allows exactly what fits, with rooms up to `limit`, if one is found.
    fn exact(&self, limit: f64, dice: &mut Dice, work: &mut Work) -> Option<Map> {
        let (sizes, rooms) = self.fair(limit, work)?;
        let mut goal = (rooms[0] - 1e-3).ceil();
        while goal <= limit && !work.is_over() {
            let scale = (goal + 0.5) / (rooms[0] + 0.5);
            for rounding in [0.5, 0.4, 0.6] {
                let mut map = Map {
                    sizes: sizes.iter().map(|size| whole(size * scale + rounding)).collect(),
                    rooms: rooms.iter().map(|room| whole((room + 0.5) * scale)).collect(),
                };
                let score = |(broken, _, all)| (broken + all, 0, 0);
                if self.mend(&mut map, score, 3, dice, work) == (0, 0, 0) {
                    return Some(map);
                }
            }
            goal += (1.0 + goal / 100.0).floor();
        }
        None
    }

    /// The map of least excess that is found with rooms up to `limit`: scaling in many ways, then mending. Rounding
    /// down breaks nothing, so that there always is one.
    fn nearest(&self, limit: i32, dice: &mut Dice, work: &mut Work) -> Map {
        let mut sums = Sums::default();
        let mut tried: Vec<(Misses, Map)> = Vec::new();
        let (mut room, third) = (limit, work.left() / 3 * 2);
        while room > limit / 2 && (tried.is_empty() || work.left() > third && !work.is_over()) {
            for part in [0.0, 0.25, 0.5, 0.75, 0.999] {
                for rounding in [1e-9, 0.5] {
                    if !tried.is_empty() && work.is_over() {
                        break;
                    }
                    let scale = (f64::from(room) + part) / f64::from(self.axes[0].room);
                    let map = Map {
                        sizes: self.values.iter().map(|v| whole(f64::from(*v) * scale + rounding)).collect(),
                        rooms: self.axes.iter().map(|a| whole(f64::from(a.room) * scale + 1e-9)).collect(),
                    };
                    tried.push((self.misses(&map, &mut sums, work), map));
                }
            }
            room -= 1 + limit / 200;
        }
        tried.sort_by_key(|(misses, _)| *misses);
        let mut best: Option<(Misses, Map)> = None;
        for (_, mut map) in tried {
            let misses = self.mend(&mut map, |misses| misses, 40, dice, work);
            if best.as_ref().is_none_or(|(least, _)| misses < *least) {
                best = Some((misses, map));
            }
            let done =
                best.as_ref().is_some_and(|(least, _)| least.0 == 0 && (least.1 == 0 || work.is_over()));
            if done {
                break;
            }
        }
        best.expect("a map was tried").1
    }
}

/// Copies as 1, 2, 4 and so on, and what is left: sums of some of them are all numbers up to the copies.
fn halves(mut copies: u32) -> Vec<u32> {
    let (mut parts, mut next) = (Vec::new(), 1);
    while copies > 0 {
        let part = next.min(copies);
        parts.push(part);
        copies -= part;
        next *= 2;
    }
    parts
}

fn whole(size: f64) -> i32 {
    (size.floor() as i32).clamp(1, MOST_SIZE - 1)
}

/// Cells of a table over true sums that are not exceeded: finer sizes have no exact map here.
const MOST_CELLS: usize = 40_000_000;

impl Chains {
    /// Real sizes of the least room that part what fits from what does not by 1, by cutting planes; none where the
    /// room passes the limit: then no exact map is as small.
    fn fair(&self, limit: f64, work: &mut Work) -> Option<(Vec<f64>, Vec<f64>)> {
        let unit =
            self.values.iter().chain(self.axes.iter().map(|axis| &axis.room)).copied().fold(0, divisor);
        let (values, axes) = (self.values.len(), self.axes.len());
        // A little on the right side of the sizes' rows keeps the simplex from standing still.
        let right = |row: usize| {
            if row < values {
                1e-6 * (1.0 + (row * 7 % 13) as f64 / 13.0)
            } else {
                1.0
            }
        };
        let right: Vec<f64> = (0..values + axes).map(right).collect();
        let mut simplex = Simplex::new(&vec![1.0; values + axes], &vec![0.0; values + axes], &right);
        let mut planes = self.first_planes();
        loop {
            if !simplex.solve(&planes, 1.0, work) || work.is_over() {
                return None;
            }
            let mut sizes: Vec<f64> = simplex.duals().iter().map(|dual| -dual).collect();
            let rooms = sizes.split_off(values);
            if rooms[0] > limit + 1e-6 {
                return None;
            }
            let before = planes.len();
            for (axis, room) in rooms.iter().enumerate() {
                for fits in [true, false] {
                    let goal = if fits { room + 1e-3 } else { room + 1.0 - 1e-3 };
                    for chain in self.worst(axis, &sizes, fits, goal as f32, unit, work)? {
                        self.add_plane(&mut planes, axis, &chain, fits);
                    }
                }
            }
            if planes.len() == before {
                return Some((sizes, rooms));
            }
        }
    }

    /// Copies of one value: as many as fit, and one more.
    fn first_planes(&self) -> Vec<Column> {
        let mut planes = Vec::new();
        for (axis, Axis { room, items }) in self.axes.iter().enumerate() {
            for value in 0..self.values.len() {
                let has = |item: &&Item| item.value == value || item.other == Some(value);
                let count: u32 = items.iter().filter(has).map(|item| item.count).sum();
                let fitting = (room / self.values[value]) as u32;
                let mut chain = vec![0; self.values.len()];
                chain[value] = fitting.min(count);
                if count > 0 {
                    self.add_plane(&mut planes, axis, &chain, true);
                }
                if fitting < count {
                    chain[value] = fitting + 1;
                    self.add_plane(&mut planes, axis, &chain, false);
                }
            }
        }
        planes
    }

    fn add_plane(&self, planes: &mut Vec<Column>, axis: usize, chain: &[u32], fits: bool) {
        let sign = if fits { -1.0 } else { 1.0 };
        let mut column: Vec<f64> = chain.iter().map(|copies| sign * f64::from(*copies)).collect();
        column.extend((0..self.axes.len()).map(|other| if other == axis { -sign } else { 0.0 }));
        let plane = (column, if fits { 0.0 } else { -1.0 });
        if !planes.contains(&plane) {
            planes.push(plane);
        }
    }

    /// For real sizes: chains that fit and whose sizes pass the goal, or that do not fit and stay below it, the worst
    /// first, by a table over true sums; none where the table would be too long.
    fn worst(
        &self,
        axis: usize,
        sizes: &[f64],
        fits: bool,
        goal: f32,
        unit: i32,
        work: &mut Work,
    ) -> Option<Vec<Vec<u32>>> {
        let steps = self.steps(axis);
        let room = (self.axes[axis].room / unit) as usize;
        let longest = if fits { 0 } else { (self.values.iter().max()? / unit) as usize };
        let length = room + 1 + longest;
        if length * steps.len() > MOST_CELLS {
            return None;
        }
        work.spend(2 * length * steps.len());
        let better = |new: f32, old: f32| if fits { new > old } else { new < old };
        let mut figures = vec![if fits { f32::NEG_INFINITY } else { f32::INFINITY }; length];
        figures[0] = 0.0;
        let mut taken = vec![0u8; steps.len() * length];
        for (step, ways) in steps.iter().enumerate() {
            let before = figures.clone();
            let taken = &mut taken[step * length..(step + 1) * length];
            for (way, &(value, copies)) in ways.iter().enumerate() {
                let far = (copies as usize) * (self.values[value] / unit) as usize;
                let size = (f64::from(copies) * sizes[value]) as f32;
                for sum in far..length.min(far + room + 1) {
                    let figure = before[sum - far] + size;
                    if better(figure, figures[sum]) {
                        (figures[sum], taken[sum]) = (figure, way as u8 + 1);
                    }
                }
            }
        }
        let first = if fits { 0 } else { room + 1 };
        let mut broken: Vec<usize> = (first..length).filter(|sum| better(figures[*sum], goal)).collect();
        broken.sort_by(|a, b| {
            if fits {
                figures[*b].total_cmp(&figures[*a])
            } else {
                figures[*a].total_cmp(&figures[*b])
            }
        });
        let some = broken.iter().step_by(1 + broken.len() / 40).take(10);
        let chain = |sum: &usize| {
            let (mut sum, mut chain) = (*sum, vec![0; self.values.len()]);
            for (step, ways) in steps.iter().enumerate().rev() {
                if let Some(way) = taken[step * length + sum].checked_sub(1) {
                    let (value, copies) = ways[usize::from(way)];
                    chain[value] += copies;
                    sum -= copies as usize * (self.values[value] / unit) as usize;
                }
            }
            chain
        };
        Some(some.map(chain).collect())
    }

    /// The steps in which copies join a chain: one way or the other, or several at once.
    fn steps(&self, axis: usize) -> Vec<Vec<(usize, u32)>> {
        let Axis { room, items } = &self.axes[axis];
        let mut steps = Vec::new();
        for item in items {
            let least = item.other.map_or(i32::MAX, |other| self.values[other]).min(self.values[item.value]);
            let count = item.count.min((room / least) as u32 + 1);
            match item.other {
                Some(other) => steps.extend((0..count).map(|_| vec![(item.value, 1), (other, 1)])),
                None => steps.extend(halves(count).into_iter().map(|copies| vec![(item.value, copies)])),
            }
        }
        steps
    }
}

fn divisor(a: i32, b: i32) -> i32 {
    if b == 0 {
        a
    } else {
        divisor(b, a % b)
    }
}

/// The maps that a board needs: one for each direction, or one for both where panels turn.
pub struct Problem {
    parts: Vec<Chains>,
    /// The values of each kind's sides; none for kinds that do not fit the board.
    places: Vec<Option<[usize; 2]>>,
}

impl Problem {
    pub fn new(task: &Task, board: Sides) -> Problem {
        let fitting: Vec<usize> =
            (0..task.kinds.len()).filter(|kind| task.ways(*kind, board).next().is_some()).collect();
        let shared = fitting.iter().any(|kind| task.kinds[*kind].turns);
        let mut problem = Problem { parts: Vec::new(), places: vec![None; task.kinds.len()] };
        // A value of a panel that turns is one for both directions; any other is one for its own.
        let mut keys: [Vec<(i32, Option<usize>)>; 2] = [Vec::new(), Vec::new()];
        let mut place = |part: usize, key: (i32, Option<usize>)| {
            let keys = &mut keys[part];
            keys.iter().position(|old| *old == key).unwrap_or_else(|| {
                keys.push(key);
                keys.len() - 1
            })
        };
        let mut axes = [0, 1].map(|axis| Axis { room: task.room(board)[axis], items: Vec::new() });
        for kind in fitting {
            let turns = task.kinds[kind].turns;
            let sides = task.wide(kind, false);
            let values = [0, 1].map(|side| {
                let part = if shared { 0 } else { side };
                place(part, (sides[side], (!turns).then_some(side)))
            });
            problem.places[kind] = Some(values);
            for (side, axis) in axes.iter_mut().enumerate() {
                let mut ways: Vec<usize> = task
                    .ways(kind, board)
                    .map(|turned| values[if turned { 1 - side } else { side }])
                    .collect();
                ways.dedup();
                axis.add(Item { value: ways[0], other: ways.get(1).copied(), count: task.kinds[kind].count });
            }
        }
        let values = keys.map(|keys| keys.into_iter().map(|(value, _)| value).collect::<Vec<_>>());
        let [length, width] = axes;
        problem.parts = match (shared, values) {
            (true, [values, _]) => vec![Chains { values, axes: vec![length, width] }],
            (false, [lengths, widths]) => {
                vec![
                    Chains { values: lengths, axes: vec![length] },
                    Chains { values: widths, axes: vec![width] },
                ]
            }
        };
        problem
    }

    /// A model with a plate of at most `limit` a side, and whether it is exact, else of least excess. So much work at
    /// most is for each map of each of both.
    pub fn model(&self, limit: i32, each: i64, work: &mut Work, dice: &mut Dice) -> (Model, bool) {
        let limit = limit.min(MOST_SIZE - 1);
        let mut is_exact = true;
        let map = |part: &Chains| {
            let exact = work.with_part(each, |work| part.exact(f64::from(limit), dice, work));
            is_exact &= exact.is_some();
            exact.unwrap_or_else(|| work.with_part(each, |work| part.nearest(limit, dice, work)))
        };
        let maps: Vec<Map> = self.parts.iter().map(map).collect();
        let of = |side: usize| &maps[side.min(maps.len() - 1)];
        let room = |side: usize| {
            if maps.len() == 1 {
                maps[0].rooms[side]
            } else {
                maps[side].rooms[0]
            }
        };
        let sides = |place: &Option<[usize; 2]>| match place {
            Some(values) => [0, 1].map(|side| of(side).sizes[values[side]] as u16),
            None => [MOST_SIZE as u16; 2],
        };
        let plate = [0, 1].map(|side| room(side) as u16);
        (Model { plate, sides: self.places.iter().map(sides).collect() }, is_exact)
    }
}

impl Axis {
    fn add(&mut self, new: Item) {
        let same = |item: &&mut Item| (item.value, item.other) == (new.value, new.other);
        match self.items.iter_mut().find(same) {
            Some(item) => item.count += new.count,
            None => self.items.push(new),
        }
    }
}
