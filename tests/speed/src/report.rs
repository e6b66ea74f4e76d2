//! The table as it is printed.

use crate::rows::Unit;

/// What something cost in one program, in the row's unit.
#[derive(Clone, Copy)]
pub struct Cost {
    pub least: f64,
    pub median: f64,
}

/// A row of the table.
pub struct Measured {
    pub keys: u32,
    pub name: String,
    pub unit: Unit,
    pub proved: Cost,
    pub plain: Cost,
    /// None where a HashMap cannot do it.
    pub map: Option<Cost>,
}

#[derive(Clone, Copy)]
pub enum Format {
    /// A table for a page.
    Markdown,
    /// The same times for another program, the ratios left to it.
    Csv,
}

impl Format {
    /// Of a table of the least and the median of so many runs, fewer in slow rows.
    pub fn print_head(self, runs: usize, slow_runs: usize) {
        match self {
            Format::Markdown => {
                println!("Processor time, the least and the median of {runs} runs of each program ({slow_runs} where a call takes seconds), in turns\n");
                println!("| keys | work | unit | proved, least | plain Rust, least | ratio of the least | proved, median | plain Rust, median | ratio of the medians | HashMap, least |");
                println!("|---|---|---|---|---|---|---|---|---|---|");
            }
            Format::Csv => println!("keys,work,unit,proved least,plain least,HashMap least,proved median,plain median,HashMap median"),
        }
    }

    pub fn print(self, row: &Measured) {
        let Measured {
            keys,
            name,
            unit,
            proved,
            plain,
            map,
        } = row;
        match self {
            Format::Markdown => println!(
                "| {} | {name} | {} | {} | {} | {:.2} | {} | {} | {:.2} | {} |",
                grouped(*keys),
                unit.name(),
                short(proved.least),
                short(plain.least),
                proved.least / plain.least,
                short(proved.median),
                short(plain.median),
                proved.median / plain.median,
                map.map_or("-".to_string(), |map| short(map.least)),
            ),
            Format::Csv => {
                let of_map = |time: fn(Cost) -> f64| {
                    map.map_or(String::new(), |map| format!("{:.4}", time(map)))
                };
                println!(
                    "{keys},\"{name}\",{},{:.4},{:.4},{},{:.4},{:.4},{}",
                    unit.name(),
                    proved.least,
                    plain.least,
                    of_map(|map| map.least),
                    proved.median,
                    plain.median,
                    of_map(|map| map.median),
                );
            }
        }
    }
}

impl Unit {
    fn name(self) -> &'static str {
        match self {
            Unit::Nanoseconds => "ns",
            Unit::Microseconds => "µs",
            Unit::Milliseconds => "ms",
        }
    }

    /// So many nanoseconds in this unit.
    pub fn of(self, nanoseconds: f64) -> f64 {
        match self {
            Unit::Nanoseconds => nanoseconds,
            Unit::Microseconds => nanoseconds / 1000.0,
            Unit::Milliseconds => nanoseconds / 1_000_000.0,
        }
    }
}

/// Three or four digits, with two behind the point at most.
fn short(time: f64) -> String {
    let decimals = match time.abs() {
        time if time < 10.0 => 2,
        time if time < 100.0 => 1,
        _ => 0,
    };
    format!("{time:.decimals$}")
}

/// A number with commas between its thousands.
pub fn grouped(number: u32) -> String {
    match number / 1000 {
        0 => number.to_string(),
        thousands => format!("{},{:03}", grouped(thousands), number % 1000),
    }
}

#[cfg(test)]
mod tests {
    use super::*;

    #[test]
    fn numbers_are_short() {
        assert_eq!(short(0.123), "0.12");
        assert_eq!(short(9.5), "9.50");
        assert_eq!(short(12.34), "12.3");
        assert_eq!(short(1234.5), "1234");
        assert_eq!(short(-0.5), "-0.50");
    }

    #[test]
    fn thousands_are_grouped() {
        assert_eq!(grouped(16), "16");
        assert_eq!(grouped(65000), "65,000");
        assert_eq!(grouped(1002003), "1,002,003");
    }
}
