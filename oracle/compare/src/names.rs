//! What a word of an answer is.
use reference::by_bins;

pub fn name_of(code: u64, words: &[u64], at: usize) -> String {
    let one_of = |names: &[&str]| names.get(at).map_or("?".into(), |s| s.to_string());
    match by_bins(code) {
        1 => one_of(&["cell", "position"]),
        2 => one_of(&["found", "x", "y", "z"]),
        3 => line_word(words, 0, at),
        13 if at == 0 => "point count".into(),
        13 => format!("point {}, {} in millimetres", (at - 1) / 2, ["x", "y"][(at - 1) % 2]),
        4 if at == 0 => "line count".into(),
        4 => line_word(words, 1, at),
        5 if at == 0 => "polygon count".into(),
        5 => polygon_word(words, at),
        6 => one_of(&[
            "used", "area", "minimum", "maximum", "mean", "integral", "flux", "positive", "negative", "absolute flux",
            "absolute flux above 0", "weighted value", "reverse fraction",
        ]),
        7 => one_of(&["area", "mean pressure", "mean speed", "flux"]),
        _ => one_of(&["cell", "velocity x", "velocity y", "velocity z", "pressure"]),
    }
}

/// A word as the number that it most likely is.
pub fn value_of(code: u64, word: u64) -> String {
    if by_bins(code) == 13 { (word as i64).to_string() } else { format!("{:e}", f64::from_bits(word)) }
}

fn axis(k: usize) -> &'static str {
    ["x", "y", "z"][k % 3]
}

/// A word of lines, the first of which is at i.
fn line_word(words: &[u64], mut i: usize, at: usize) -> String {
    let mut line = 0;
    while i < words.len() {
        let n = words[i] as usize;
        if at == i {
            return format!("point count of line {line}");
        }
        if at <= i + 3 * n {
            return format!("line {line}, point {}, {}", (at - i - 1) / 3, axis(at - i - 1));
        }
        (i, line) = (i + 1 + 3 * n, line + 1);
    }
    "?".into()
}

fn polygon_word(words: &[u64], at: usize) -> String {
    let (mut i, mut k) = (1, 0);
    while i + 1 < words.len() {
        let n = words[i + 1] as usize;
        let size = 9 + 3 * n;
        if at < i + size {
            let what = match at - i {
                0 => "cell".into(),
                1 => "vertex count".into(),
                j if j < 5 => format!("centre {}", axis(j - 2)),
                j if j < 5 + 3 * n => format!("vertex {} {}", (j - 5) / 3, axis(j - 5)),
                j if j < 8 + 3 * n => format!("velocity {}", axis(j - 5)),
                _ => "pressure".into(),
            };
            return format!("polygon {k}, {what}");
        }
        (i, k) = (i + size, k + 1);
    }
    "?".into()
}
