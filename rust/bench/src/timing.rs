//! How times are taken.

/// The best time of each. They take turns, in one order and then in the other.
pub fn best_of_rounds<T>(timed: &[T], rounds: usize, time: impl Fn(&T) -> f64) -> Vec<f64> {
    let mut best = vec![f64::INFINITY; timed.len()];
    for round in 0..rounds {
        for turn in 0..timed.len() {
            let i = match round % 2 {
                0 => turn,
                _ => timed.len() - 1 - turn,
            };
            best[i] = best[i].min(time(&timed[i]));
        }
    }
    best
}

/// How times grow with the depth: a line for each, as ratios to the first.
pub fn print_growth(of: &str, columns: &[&str], times_at: impl Fn(u32) -> Vec<f64>) {
    println!("time of {of} by depth, as a ratio to the same column at depth 64");
    let width = |column: &str| column.len().max(8);
    print!("    depth");
    for column in columns {
        let width = width(column);
        print!("  {column:>width$}");
    }
    println!();
    let mut at_64 = Vec::new();
    for depth in (6..=12).map(|power| 1 << power) {
        let times = times_at(depth);
        if at_64.is_empty() {
            at_64 = times.clone();
        }
        print!("  {depth:>7}");
        for (i, column) in columns.iter().enumerate() {
            let (ratio, width) = (times[i] / at_64[i], width(column));
            print!("  {ratio:>width$.2}");
        }
        println!();
    }
}
