//! The Markdown that is printed: the table, and the table of growth.

use crate::growth::Growth;
use crate::race::Line;
use std::fmt;

/// Seconds or megabytes, with as many digits as tell something.
fn number(x: f64) -> String {
    match x {
        x if !x.is_finite() => "-".to_string(),
        x if x >= 100.0 => format!("{x:.0}"),
        x if x >= 10.0 => format!("{x:.1}"),
        x if x >= 0.1 => format!("{x:.2}"),
        x if x >= 0.01 => format!("{x:.3}"),
        x => format!("{x:.4}"),
    }
}

fn ratio(x: f64) -> String {
    match x {
        x if !x.is_finite() => "-".to_string(),
        x if x >= 10.0 => format!("{x:.0}"),
        x if x >= 1.0 => format!("{x:.1}"),
        x => format!("{x:.2}"),
    }
}

impl fmt::Display for Line {
    fn fmt(&self, f: &mut fmt::Formatter) -> fmt::Result {
        match &self.outcome {
            Ok(cost) => write!(f, "{}: {}: {} s", self.work, self.contestant, number(cost.wall)),
            Err(fault) => write!(f, "{}: {}: {fault}{}", self.work, self.contestant, fault.detail()),
        }
    }
}

/// A Markdown table, the first row as its head. Cells are not padded, and a row ends with its last cell.
fn table(rows: &[Vec<String>]) -> String {
    let mut text = String::new();
    for (i, row) in rows.iter().enumerate() {
        text += &format!("|{}|\n", row.join("|"));
        if i == 0 {
            text += &format!("|{}\n", "-|".repeat(row.len()));
        }
    }
    text
}

/// The table of all works. The last three columns say how many times as much as the line the work's first line of
/// lightning takes.
pub fn lines_table(lines: &[Line]) -> String {
    let head = ["work", "by", "wall s", "processor s", "peak MB", "times: wall", "processor", "memory"];
    let mut rows = vec![head.map(str::to_string).to_vec()];
    let mut last = "";
    for line in lines {
        let title = if line.work == last { "" } else { &line.work };
        last = &line.work;
        let mut row = vec![title.to_string(), line.contestant.clone()];
        let ours = lines.iter().find(|l| l.product && l.work == line.work && l.outcome.is_ok());
        match (&line.outcome, ours.map(|l| &l.outcome)) {
            (Err(fault), _) => row.push(fault.to_string()),
            (Ok(cost), ours) => {
                row.extend([number(cost.wall), number(cost.processor), number(cost.peak)]);
                if let (Some(Ok(ours)), false) = (ours, line.product) {
                    let ratios = [ours.wall / cost.wall, ours.processor / cost.processor, ours.peak / cost.peak];
                    row.extend(ratios.map(ratio));
                }
            }
        }
        rows.push(row);
    }
    table(&rows)
}

pub fn growth_table(sizes: &[u64], found: &[Growth]) -> String {
    let mut head = vec!["work".to_string(), "by".to_string()];
    head.extend(sizes.iter().map(|n| format!("{} changes", grouped(*n))));
    head.push("exponent".to_string());
    let mut rows = vec![head];
    for growth in found {
        let mut row = vec![growth.work.clone(), growth.contestant.clone()];
        row.extend(growth.seconds.iter().map(|s| s.map_or("-".to_string(), number)));
        row.push(growth.exponent(sizes).map_or("-".to_string(), |e| format!("{e:.2}")));
        rows.push(row);
    }
    table(&rows)
}

/// A number with a comma before each three digits.
pub fn grouped(n: u64) -> String {
    let digits = n.to_string();
    let mut text = String::new();
    for (i, digit) in digits.chars().enumerate() {
        if i > 0 && (digits.len() - i) % 3 == 0 {
            text.push(',');
        }
        text.push(digit);
    }
    text
}
