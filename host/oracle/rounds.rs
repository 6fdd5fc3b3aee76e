//! Start rounds and exact rounds: one line in, one line out.

use crate::checks;
use crate::script::{number, numbers};
use crate::tsp::local_search::calls;
use crate::tsp::{
    Budget, DistMatrix, greedy_nearest_neighbor, nearest_neighbor_tour, solve_tsp_exact,
};

/// `N v v v ..` gives `NUMBER blocked: s s .. plain: s s ..`.
pub fn start(line: &str) -> Result<String, String> {
    let words: Vec<&str> = line.split_whitespace().collect();
    let (n, matrix) = match words.as_slice() {
        [n, matrix @ ..] => (number(n)?, numbers(matrix)?),
        [] => return Err("a line holds n and a matrix".to_string()),
    };
    let refusal = checks::start_round(n, &matrix);
    if refusal != 0 {
        return Ok(format!("{refusal} blocked: plain:"));
    }
    let dists = DistMatrix::new(n, &matrix);
    let blocked = nearest_neighbor_tour(&dists);
    let plain = greedy_nearest_neighbor(&dists).expect("n is at least 1");
    Ok(format!(
        "0 blocked:{} plain:{}",
        stops(&blocked),
        stops(&plain)
    ))
}

/// `N TABLEWORDS v v v ..` gives `NUMBER TIME round: s s ..`.
pub fn exact(line: &str) -> Result<String, String> {
    let words: Vec<&str> = line.split_whitespace().collect();
    let (n, table, matrix) = match words.as_slice() {
        [n, table, matrix @ ..] => (number(n)?, number(table)?, numbers(matrix)?),
        _ => return Err("a line holds n, the table's words and a matrix".to_string()),
    };
    let refusal = checks::exact(n, &matrix, table);
    if refusal != 0 {
        return Ok(format!("{refusal} 0 round:"));
    }
    let dists = DistMatrix::new(n, &matrix);
    let round = solve_tsp_exact(&dists, &Budget::new(0, 0))
        .map_err(|error| format!("the exact solver failed: {error}"))?;
    let round: Vec<u32> = round.iter().map(|&stop| stop as u32).collect();
    Ok(format!(
        "0 {} round:{}",
        calls::time_of(&dists, &round),
        stops(&round)
    ))
}

/// Numbers, each after a space.
fn stops<N: std::fmt::Display>(round: &[N]) -> String {
    round.iter().map(|stop| format!(" {stop}")).collect()
}
