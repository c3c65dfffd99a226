// The table where the capacity is 0: one word a cell.
// A row starts as the row before; length cuts add whole rows; width cuts go out from cells that rise.
use super::plate::{raise_by, raise_rows, Plate, Positions, LENGTH, WIDTH};

pub fn fill(plate: &Plate, table: &mut [u64]) {
    let [lengths, widths] = &plate.on;
    let r = widths.at.len();
    let mut unit = vec![0; widths.side + 1];
    table[..r].fill(0);
    for a in 1..lengths.at.len() {
        let (rows, row) = table.split_at_mut(a * r);
        let row = &mut row[..r];
        row.copy_from_slice(&rows[(a - 1) * r..]);
        lay_pieces(plate, lengths.position(a), row);
        for (first, rest) in lengths.halves(a) {
            raise_rows(row, &rows[first * r..][..r], &rows[rest * r..][..r]);
        }
        cut_widths(widths, row, &mut unit);
    }
}

/// Pieces of exactly this length and no weight; shorter ones came with the row before.
fn lay_pieces(plate: &Plate, length: usize, row: &mut [u64]) {
    let widths = &plate.on[WIDTH];
    for piece in plate.pieces.iter().filter(|piece| piece.side[LENGTH] == length) {
        if piece.side[WIDTH] <= widths.side && piece.weight == 0 {
            let cell = &mut row[widths.floor(piece.side[WIDTH])];
            *cell = piece.price.max(*cell);
        }
    }
}

/// Over units: a cell that is not above the one before it earns nothing new as a first part.
fn cut_widths(widths: &Positions, row: &mut [u64], unit: &mut [u64]) {
    let side = widths.side;
    unit.fill(0);
    for (&w, &figure) in widths.at.iter().zip(row.iter()) {
        unit[usize::from(w)] = figure;
    }
    for b in 1..row.len() {
        let (w, before) = (widths.position(b), row[b - 1]);
        unit[widths.position(b - 1) + 1..w].fill(before);
        row[b] = unit[w].max(before);
        unit[w] = row[b];
        let most = w.min(side - w);
        if row[b] > before && most > 0 {
            let (done, later) = unit.split_at_mut(w + 1);
            raise_by(&mut later[..most], row[b], &done[1..=most]);
        }
    }
}
