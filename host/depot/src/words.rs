//! The library's answers in words.

use uskelzar::{End, Entry, Kind};

/// How a search ended.
pub fn end(end: End) -> &'static str {
    match end {
        End::Whole => "whole",
        End::TableUnreadable => "stopped at a table entry that can't be read (mark 2)",
        End::BorderFailed => "stopped at a border that can't be read (mark 3)",
        End::OutOfOrder => "the table is not in order, and an entry behind the stop holds the fix (mark 4)",
    }
}

/// Where in a zone a fix is.
pub fn kind(kind: Kind) -> &'static str {
    match kind {
        Kind::InZone => "in the zone",
        Kind::OnBorderVertex => "on a vertex of its border",
        Kind::OnBorderSegment => "on its border",
    }
}

/// A text for a terminal: a control character, which a yard's name may hold, is shown and not obeyed.
pub fn shown(text: &str) -> String {
    let shown = |c: char| if c.is_control() && c != '\n' && c != '\t' { c.escape_default().to_string() } else { c.to_string() };
    text.chars().map(shown).collect()
}

/// So many lines of a kind are told one by one.
const TOLD: usize = 20;

/// The first of some lines, and how many more there are.
pub fn few(lines: &[String]) -> Vec<String> {
    let more = (lines.len() > TOLD).then(|| format!("and {} more", grouped(lines.len() - TOLD)));
    lines.iter().take(TOLD).cloned().chain(more).collect()
}

/// A count with its noun.
pub fn count(number: usize, noun: &str) -> String {
    let noun = if number == 1 { noun.to_string() } else { plural(noun) };
    format!("{} {noun}", grouped(number))
}

fn plural(noun: &str) -> String {
    match noun.strip_suffix('y') {
        Some(stem) if !stem.ends_with(['a', 'e', 'o', 'u']) => format!("{stem}ies"),
        None if noun.ends_with('x') => format!("{noun}es"),
        _ => format!("{noun}s"),
    }
}

/// A number with commas between its thousands.
pub fn grouped(number: usize) -> String {
    let digits = number.to_string();
    let mut out = String::new();
    for (i, digit) in digits.chars().enumerate() {
        if i > 0 && (digits.len() - i) % 3 == 0 {
            out.push(',');
        }
        out.push(digit);
    }
    out
}

/// A length in metres or kilometres.
pub fn length(metres: f64) -> String {
    if metres < 1000.0 {
        return format!("{metres:.2} m");
    }
    format!("{:.1} km", metres / 1000.0)
}

/// A table entry, its box to a tenth of a metre.
pub fn entry(entry: &Entry) -> String {
    let Entry { number, place, border, lower: (south, west), upper: (north, east), .. } = entry;
    let points = entry.points.map_or("which can't be read to its end".into(), |points| count(points as usize, "point"));
    format!("entry {number} at byte {place}: box {south:.6} {west:.6} to {north:.6} {east:.6}, border at byte {border}, {points}")
}

#[cfg(test)]
mod tests {
    use super::*;

    #[test]
    fn control_characters_are_shown() {
        assert_eq!(shown("Gate\x1b[2J 7\n\u{9b}x\tB\u{e9}"), "Gate\\u{1b}[2J 7\n\\u{9b}x\tB\u{e9}");
    }

    #[test]
    fn counts() {
        assert_eq!(count(1, "point"), "1 point");
        assert_eq!(count(0, "yard"), "0 yards");
        assert_eq!(count(1_234_567, "entry"), "1,234,567 entries");
        assert_eq!([count(12, "byte"), count(2, "fix")], ["12 bytes", "2 fixes"]);
    }
}
