//! Sheets: 01's bit-packed input and answer, and the search of a sheet.

use crate::checks::{self, Kinds};
use crate::lent::{ENTRY, Lent};
use crate::tsp::local_search::calls;

/// The bytes of the header, of a sheet and of an answer alike.
pub const HEADER: usize = 16;
/// The journal entries of a sheet's search.
const ROOM: usize = 512;

/// The fields of an input sheet; matrix is the upper triangle row by row.
#[derive(Clone, Default)]
pub struct Fields {
    pub version: u64,
    pub step: u64,
    pub stop: u64,
    pub n: u64,
    pub k: u64,
    pub ka: u64,
    pub spare: u64,
    pub budget: u64,
    pub seed: u64,
    pub matrix: Vec<u16>,
    pub near: Vec<u32>,
    pub alpha: Vec<u32>,
}

impl Fields {
    /// The sheet's bytes, zero bits to a whole byte.
    pub fn pack(&self) -> Vec<u8> {
        let mut bits = Bits::default();
        bits.put(4, self.version);
        bits.put(2, self.step);
        bits.put(1, self.stop);
        bits.put(13, self.n);
        bits.put(5, self.k);
        bits.put(3, self.ka);
        bits.put(4, self.spare);
        bits.put(32, self.budget);
        bits.put(64, self.seed);
        for &time in &self.matrix {
            bits.put(16, u64::from(time));
        }
        for &stop in self.near.iter().chain(&self.alpha) {
            bits.put(12, u64::from(stop));
        }
        bits.bytes
    }
}

/// The answer's bytes, or the number of the refusal. `room` is the number of answer bytes lent.
pub fn answer(sheet: &[u8], room: usize) -> Result<Vec<u8>, u8> {
    if sheet.len() < HEADER {
        return Err(9);
    }
    let mut bits = Reader::new(sheet);
    let [version, step, stop] = [4, 2, 1].map(|width| bits.take(width));
    let [n, k, ka] = [13, 5, 3].map(|width| bits.take(width) as usize);
    let spare = bits.take(4);
    let [budget, seed] = [32, 64].map(|width| bits.take(width));
    if version != 1 || spare != 0 {
        return Err(9);
    }
    if !(2..=128).contains(&n) {
        return Err(1);
    }
    let kinds = Kinds {
        step: Some(step as u32),
        kick: Some(0),
    };
    if !checks::settings(k, ka, kinds) || seed == 0 {
        return Err(2);
    }
    if sheet.len() != length(n, k, ka)
        || !bits.rest_is_zero(16 * n * (n - 1) / 2 + 12 * n * (k + ka))
    {
        return Err(10);
    }
    if room < answer_length(n) {
        return Err(4);
    }

    let mut lent = Lent {
        k,
        ka,
        matrix: vec![0; n * n],
        journal: vec![0; ROOM * ENTRY],
        draw: seed,
        ..Lent::default()
    };
    lent.set_stops(n);
    for i in 0..n {
        for j in i + 1..n {
            let time = bits.take(16) as u16;
            lent.matrix[i * n + j] = time;
            lent.matrix[j * n + i] = time;
        }
    }
    lent.near = (0..n * k).map(|_| bits.take(12) as u32).collect();
    lent.alpha = (0..n * ka).map(|_| bits.take(12) as u32).collect();

    let found = calls::search(&mut lent, step as u32, 0, stop == 1, budget as u32);
    if found.number != 0 {
        return Err(found.number);
    }
    let mut bits = Bits::default();
    bits.put(4, 1);
    bits.put(2, u64::from(found.ended));
    bits.put(13, n as u64);
    bits.put(13, 0);
    bits.put(32, u64::from(lent.state.time));
    bits.put(32, u64::from(found.units));
    bits.put(32, found.kicks);
    for &stop in &lent.best {
        bits.put(12, u64::from(stop));
    }
    Ok(bits.bytes)
}

/// The bytes of a sheet of n stops with lists of k and ka.
pub fn length(n: usize, k: usize, ka: usize) -> usize {
    HEADER + n * (n - 1) + bytes(12 * n * (k + ka))
}

/// The bytes of an answer for n stops.
pub fn answer_length(n: usize) -> usize {
    HEADER + bytes(12 * n)
}

/// Whole bytes for so many bits.
fn bytes(bits: usize) -> usize {
    (bits + 7) / 8
}

/// Writes numbers of so many bits on end, most significant bit first.
#[derive(Default)]
struct Bits {
    bytes: Vec<u8>,
    used: usize,
}

impl Bits {
    fn put(&mut self, width: usize, value: u64) {
        for i in (0..width).rev() {
            if self.used % 8 == 0 {
                self.bytes.push(0);
            }
            let bit = (value >> i & 1) as u8;
            self.bytes[self.used / 8] |= bit << (7 - self.used % 8);
            self.used += 1;
        }
    }
}

/// Reads numbers of so many bits on end, most significant bit first.
struct Reader<'a> {
    bytes: &'a [u8],
    at: usize,
}

impl<'a> Reader<'a> {
    fn new(bytes: &'a [u8]) -> Self {
        Self { bytes, at: 0 }
    }

    fn take(&mut self, width: usize) -> u64 {
        (0..width).fold(0, |value, _| {
            let bit = self.bytes[self.at / 8] >> (7 - self.at % 8) & 1;
            self.at += 1;
            value << 1 | u64::from(bit)
        })
    }

    /// The bits after the next `skipped` ones are all 0.
    fn rest_is_zero(&self, skipped: usize) -> bool {
        let mut rest = Self {
            bytes: self.bytes,
            at: self.at + skipped,
        };
        (rest.at..8 * rest.bytes.len()).all(|_| rest.take(1) == 0)
    }
}

/// Bytes as hex digits; no bytes are a hyphen.
pub fn to_hex(bytes: &[u8]) -> String {
    if bytes.is_empty() {
        return "-".to_string();
    }
    bytes.iter().map(|byte| format!("{byte:02x}")).collect()
}
