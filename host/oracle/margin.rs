//! Compares 01's whole-number margin with the source's f64 lines, wherever the former changes.

use crate::tsp::local_search::calls;

/// How many differences are told one by one.
const TOLD: usize = 5;

/// Both margins never fall as the time grows, so equal at each change and just before it is equal everywhere.
pub fn compare() -> String {
    let mut compared: u64 = 0;
    let mut differ = Vec::new();
    for n in 2..=4096_i64 {
        let mut changes_at = 5 * n;
        while changes_at <= 65535 * n {
            for time in [changes_at - 1, changes_at] {
                let (whole, source) = ((time + 5 * n) / (10 * n), calls::margin(time, n as usize));
                compared += 1;
                if whole != source {
                    differ.push(format!("n {n} time {time}: {whole}, the source {source}"));
                }
            }
            changes_at += 10 * n;
        }
    }
    let mut text = format!("compared {compared} differ {}", differ.len());
    for line in differ.iter().take(TOLD) {
        text.push('\n');
        text.push_str(line);
    }
    text
}
