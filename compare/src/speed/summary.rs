//! Several measurements by calls: each row's middle ratio, and the single ratios.

use std::collections::BTreeMap;

/// A row of `compare speed` is its flash, its call, two times and their ratio.
const COLUMNS: usize = 8;
const CALL: usize = 4;
const RATIO: usize = 7;

/// Prints a line for each kind of call in the texts that `compare speed` printed.
pub fn summarize(texts: &[String]) {
    let mut rows: BTreeMap<String, Vec<f64>> = BTreeMap::new();
    for line in texts.iter().flat_map(|text| text.lines()) {
        let columns: Vec<&str> = line.split(" | ").collect();
        if let (COLUMNS, Some(Ok(ratio))) =
            (columns.len(), columns.get(RATIO).map(|ratio| ratio.parse::<f64>()))
        {
            rows.entry(columns[..=CALL].join(" | ")).or_default().push(ratio);
        }
    }
    let mut calls: BTreeMap<String, (Vec<f64>, Vec<f64>)> = BTreeMap::new();
    for (row, mut ratios) in rows {
        ratios.sort_by(f64::total_cmp);
        let (middles, all) =
            calls.entry(kind(row.rsplit(" | ").next().unwrap_or(&row))).or_default();
        middles.push(ratios[ratios.len() / 2]);
        all.extend(ratios);
    }
    println!("call | middle ratio of a row | any ratio | above 1.0 | above 1.5 | of");
    for (call, (middles, all)) in calls {
        let above = |bound: f64| all.iter().filter(|ratio| **ratio > bound).count();
        println!(
            "{call} | {} | {} | {} | {} | {}",
            range(&middles),
            range(&all),
            above(1.0),
            above(1.5),
            all.len()
        );
    }
}

/// The call without the number of its steps; runs by that number.
fn kind(call: &str) -> String {
    let parts: Vec<&str> = call.split(", ").collect();
    match parts[..] {
        [_, steps @ ("16 steps" | "8202 steps"), "run"] => format!("run of {steps}"),
        [_, _, "run"] => "run of other numbers of steps".to_string(),
        [command, _, "start"] => {
            format!("start of {}", command.split(' ').next().unwrap_or(command))
        }
        _ => call.to_string(),
    }
}

fn range(ratios: &[f64]) -> String {
    let least = ratios.iter().copied().fold(f64::INFINITY, f64::min);
    let greatest = ratios.iter().copied().fold(0.0, f64::max);
    format!("{least:.2} to {greatest:.2}")
}
