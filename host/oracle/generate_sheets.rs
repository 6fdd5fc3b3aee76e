//! Generated sheets, valid and damaged, as lines `HEX ROOM`.

use crate::chance::Chance;
use crate::generate::{Out, Ranges};
use crate::shapes;
use crate::sheet::{Fields, HEADER, answer_length, to_hex};

/// A valid sheet with room for its answer, or more.
pub fn valid(
    chance: &mut Chance,
    item: usize,
    ranges: Ranges,
    out: &mut Out<'_>,
) -> Result<(), String> {
    let n = chance.from(ranges.n.0, ranges.n.1);
    let (k, ka) = (chance.from(1, 20), chance.from(0, 5));
    let fields = fields(chance, item, ranges, (n, k, ka));
    let more = chance.one_of(&[0, 0, 1, 7]);
    out(&format!(
        "{} {}",
        to_hex(&fields.pack()),
        answer_length(n) + more
    ))
}

/// A sheet with one to three damages, or rarely none.
pub fn damaged(
    chance: &mut Chance,
    item: usize,
    ranges: Ranges,
    out: &mut Out<'_>,
) -> Result<(), String> {
    let n = chance.from(ranges.n.0, ranges.n.1);
    let mut sizes = (n, chance.from(1, 20), chance.from(0, 5));
    // Some wrong sizes come with a body that fits them, so that their number shows alone.
    if chance.one_in(8) {
        match chance.below(4) {
            0 => sizes.0 = 129,
            1 => sizes.1 = chance.one_of(&[0, 21, 31]),
            _ => sizes.2 = chance.from(6, 7),
        }
    }
    let mut fields = fields(chance, item, ranges, sizes);
    let mut bytes_damages = Vec::new();
    for _ in 0..chance.one_of(&[0, 1, 1, 1, 2, 2, 3]) {
        match chance.below(18) {
            0 => fields.version = chance.one_of(&[0, 2, 3, 15]),
            1 => fields.spare = chance.from(1, 15) as u64,
            2 => fields.n = chance.one_of(&[0, 1, 129, 4095, 4096, 4097, 8191]),
            3 => fields.k = chance.one_of(&[0, 21, 31]),
            4 => fields.ka = chance.from(6, 7) as u64,
            5 => fields.step = 3,
            6 => {
                fields.step = chance.from(1, 2) as u64;
                fields.ka = 0;
                fields.alpha.clear();
            }
            7 => fields.seed = 0,
            8..=10 => spoil_list(chance, &mut fields),
            other => bytes_damages.push(other),
        }
    }
    let mut bytes = fields.pack();
    let mut room = answer_length(n);
    for damage in bytes_damages {
        match damage {
            11 => bytes.truncate(chance.below(bytes.len() + 1)),
            12 => bytes.truncate(chance.one_of(&[0, 1, HEADER - 1, HEADER, HEADER + 1])),
            13 => bytes.resize(bytes.len() + chance.from(1, 20), 0),
            14 if bytes.len() >= HEADER => {
                // Not the upper bytes of the budget, whose search would take hours.
                let byte = chance.one_of(&[0, 1, 2, 3, 7, 8, 9, 10, 11, 12, 13, 14, 15]);
                bytes[byte] ^= 1 << chance.below(8);
            }
            15 => {
                if let Some(last) = bytes.last_mut() {
                    *last |= chance.from(1, 15) as u8;
                }
            }
            _ => room = chance.below(room + 1),
        }
    }
    out(&format!("{} {room}", to_hex(&bytes)))
}

/// A list entry that is n or more, or the stop itself.
fn spoil_list(chance: &mut Chance, fields: &mut Fields) {
    let n = fields.n as usize;
    let near = fields.alpha.is_empty() || chance.one_in(2);
    let (list, each) = if near {
        (&mut fields.near, fields.k as usize)
    } else {
        (&mut fields.alpha, fields.ka as usize)
    };
    if list.is_empty() || n > 4095 || each == 0 {
        return;
    }
    let at = chance.below(list.len());
    list[at] = match chance.below(3) {
        0 => (at / each) as u32,
        1 => n as u32,
        _ => chance.from(n, 4095) as u32,
    };
}

/// A sheet's fields for these n, k and ka, which may be out of range.
fn fields(
    chance: &mut Chance,
    item: usize,
    ranges: Ranges,
    (n, k, ka): (usize, usize, usize),
) -> Fields {
    let matrix = shapes::matrix(chance, shapes::shape(item), n, true);
    let triangle = (0..n).flat_map(|i| matrix[i * n + i + 1..(i + 1) * n].iter().copied());
    Fields {
        version: 1,
        step: if ka == 0 { 0 } else { chance.below(3) as u64 },
        stop: chance.below(2) as u64,
        n: n as u64,
        k: k as u64,
        ka: ka as u64,
        spare: 0,
        budget: chance.from(ranges.budget.0, ranges.budget.1) as u64,
        seed: chance.bits().max(1),
        matrix: triangle.collect(),
        near: shapes::near(chance, &matrix, n, k),
        alpha: shapes::alpha(chance, &matrix, n, ka),
    }
}
