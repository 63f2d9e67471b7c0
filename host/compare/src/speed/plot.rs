//! The growth of generating, refreshing and signing with the share count, as text.

use super::calls::Pair;
use crate::permutations::CALLS;

pub const CAPTION: &str = "\
Growth with d: the unit's time as a multiple of that at d = 2, then a bar of its time per share. If
time grew as d log d, the bars would end at the marks |; if it grew as d, all would be as long as the
last. Refreshing draws no masks at d = 1. Generating and signing add noise in 8, 4, 2, 4, 2, 4
repetitions for d = 1 to 32, with a refresh behind each, so their bars go up and down with these.";

/// The numbers of the calls that are plotted.
const PLOTTED: [usize; 3] = [0, 2, 3];

/// Columns of the bar at 32 shares: four for each level of a zero encoding.
const BAR: usize = 20;

/// Columns of a call's figures with its bar.
const PANEL: usize = 30;

/// A block of six rows for each set, the calls side by side.
pub fn growth(pairs: &[Pair]) -> String {
    pairs.chunk_by(|a, b| a.set == b.set).map(block).collect::<Vec<String>>().join("\n")
}

fn block(pairs: &[Pair]) -> String {
    let line = |first: String, panels: [String; 3]| -> String {
        let panels: String = panels.iter().map(|panel| format!("{panel:<PANEL$}")).collect();
        format!("{first:<8}{panels}").trim_end().to_string() + "\n"
    };
    let head = line(format!("set {}", pairs[0].set), PLOTTED.map(|call| format!("{:>5}  {}", "", CALLS[call])));
    let rows = pairs.iter().map(|pair| line(format!("d = {}", pair.d), PLOTTED.map(|call| panel(pairs, pair, call))));
    head + &rows.collect::<String>()
}

/// How much more a call takes than at 2 shares, and its bar.
fn panel(pairs: &[Pair], pair: &Pair, call: usize) -> String {
    let time = |d: usize| pairs.iter().find(|pair| pair.d == d).unwrap().time(call);
    let per_share = |d: usize| time(d) / d as f64;
    let (d, multiple) = (pair.d, time(pair.d) / time(2));
    format!("{multiple:>5.*}  {}", usize::from(multiple < 10.0), bar(d, per_share(d) / per_share(32)))
}

/// A bar of so much of the full length, with the mark of d log d.
fn bar(d: usize, part: f64) -> String {
    let (length, mark) = ((BAR as f64 * part).round() as usize, BAR / 5 * d.ilog2() as usize);
    (0..length.max(mark + 1))
        .map(|at| {
            if at == mark && d > 1 {
                '|'
            } else if at < length {
                '#'
            } else {
                ' '
            }
        })
        .collect()
}
