//! The programs compared, and timed in turns.

use crate::failure::Failure;
use crate::map;
use crate::order::{Order, Work};
use crate::process::Program;
use crate::report::{Cost, Format, Measured};
use crate::rows::{Choice, Row, Timing, TIMINGS};
use std::time::Duration;

/// How long one timed run should take, about.
const RUN_TIME: Duration = Duration::from_millis(100);

/// How many runs of each order are timed with each program.
const RUNS: usize = 11;

/// The same where a call takes seconds.
const SLOW_RUNS: usize = 3;

/// Numbers of keys, with the rounds at which the sums are compared. With 1 key no
/// move begins, with 2 no add falls into one and with 4 no delete, and the calls
/// of the small numbers end some moves.
const COMPARED: [(u32, &[u32]); 7] = [
    (1, &[0, 1, 2]),
    (2, &[0, 1, 2]),
    (4, &[0, 1, 2, 100]),
    (16, &[0, 1, 2, 100]),
    (256, &[1, 100]),
    (4096, &[0, 1, 2, 3, 10, 100]),
    (65536, &[0, 1, 2, 3]),
];

/// The same for numbers of scan chains.
const SPREAD_COMPARED: [(u32, &[u32]); 5] = [
    (1, &[0, 1, 2]),
    (3, &[0, 1]),
    (10, &[0, 1]),
    (100, &[0, 1]),
    (1000, &[1]),
];

/// An order with as many bytes as one can have.
const LONGEST: &str = "W 0000000001 0000000001\n";

/// Orders that both programs refuse.
const BAD: [&str; 22] = [
    "",
    "A",
    "A ",
    "A 1",
    "A 1 ",
    "X 1 1",
    "A  1 1",
    "A 1  1",
    "A 1 1 ",
    "A 1 1 1",
    "A 1 4294967296",
    "A 0 1",
    "A 3 1",
    "A 131072 1",
    "A 4294967296 1",
    "A 1 000000000000000000000000000000000001",
    "F 1 1\n\n",
    "S 0 1",
    "T 65001 1",
    "V 65000 1",
    "C 65000 1",
    "Z 65001 1",
];

/// The proved program, the plain one, and a HashMap.
pub struct Race<'a> {
    pub proved: Program<'a>,
    pub plain: Program<'a>,
    pub map: Program<'a>,
}

/// The times of one order, in turns. There are none of a HashMap that cannot do it.
#[derive(Default)]
struct Times {
    proved: Vec<Duration>,
    plain: Vec<Duration>,
    map: Vec<Duration>,
}

impl Race<'_> {
    /// Times the chosen rows, and prints each when it is known. The whole table
    /// begins with the comparison.
    pub fn run(&self, choice: &Choice, format: Format) -> Result<(), Failure> {
        if choice.takes_all() {
            self.compare()?;
        }
        format.print_head(RUNS, SLOW_RUNS);
        for timing in &TIMINGS {
            for &number in timing.numbers {
                let rows = choice.rows_of(timing, number);
                if rows.is_empty() {
                    continue;
                }
                for row in self.measure(timing, number, &rows)? {
                    format.print(&row);
                }
            }
        }
        Ok(())
    }

    /// The rows of a timing at one number. Both kinds of runs come in turns.
    fn measure(
        &self,
        timing: &Timing,
        number: u32,
        rows: &[&Row],
    ) -> Result<Vec<Measured>, Failure> {
        let rounds = self.rounds_for(timing.work, number)?;
        let timed = Order {
            work: timing.work,
            number,
            rounds,
        };
        let less = match timing.less {
            Some(work) => Order { work, ..timed },
            None => Order { rounds: 0, ..timed },
        };
        let [mut with, mut without] = [Times::default(), Times::default()];
        let runs = if timing.is_slow(number) {
            SLOW_RUNS
        } else {
            RUNS
        };
        for _ in 0..runs {
            self.run_once(timed, &mut with)?;
            self.run_once(less, &mut without)?;
        }
        let measured = rows.iter().map(|row| Measured {
            keys: timing.keys(number),
            name: timing.name(row, number),
            unit: row.unit,
            proved: row.cost(timed, &with.proved, &without.proved),
            plain: row.cost(timed, &with.plain, &without.plain),
            map: map::does(timing.work).then(|| row.cost(timed, &with.map, &without.map)),
        });
        Ok(measured.collect())
    }

    /// As many rounds as take the slower of the two stores about the wanted time.
    fn rounds_for(&self, work: Work, number: u32) -> Result<u32, Failure> {
        let time_of = |rounds| {
            let order = Order {
                work,
                number,
                rounds,
            };
            let mut times = Times::default();
            self.run_once(order, &mut times)?;
            Ok::<f64, Failure>(least(&times.proved).max(least(&times.plain)))
        };
        let wanted = RUN_TIME.as_nanos() as f64;
        let idle = time_of(0)?;
        let mut rounds = 1;
        loop {
            let time = time_of(rounds)? - idle;
            if time * 4.0 >= wanted {
                let share = f64::from(rounds) * wanted / time;
                return Ok((share as u32).max(1));
            }
            rounds *= 4;
        }
    }

    /// Runs the programs on bad orders, on the longest one and on a few rounds of
    /// each kind of work.
    pub fn compare(&self) -> Result<(), Failure> {
        for text in BAD.into_iter().chain([LONGEST]) {
            let (proved, _) = self.proved.run(text)?;
            let (plain, _) = self.plain.run(text)?;
            expect_same(text, ("proved", &proved), ("plain", &plain))?;
        }
        for work in Work::ALL {
            let compared: &[(u32, &[u32])] = if work.is_spread() {
                &SPREAD_COMPARED
            } else {
                &COMPARED
            };
            for &(number, rounds) in compared {
                for &rounds in rounds {
                    let order = Order {
                        work,
                        number,
                        rounds,
                    };
                    self.run_once(order, &mut Times::default())?;
                }
            }
        }
        Ok(())
    }

    /// One run of each. Their answers must be the same.
    fn run_once(&self, order: Order, times: &mut Times) -> Result<(), Failure> {
        let text = order.to_string();
        let (proved, proved_time) = self.proved.run(&text)?;
        let (plain, plain_time) = self.plain.run(&text)?;
        expect_same(&text, ("proved", &proved), ("plain", &plain))?;
        times.proved.push(proved_time);
        times.plain.push(plain_time);
        if map::does(order.work) {
            let (map, map_time) = self.map.run(&text)?;
            if map::has_the_sum_of(order.work) {
                expect_same(&text, ("plain", &plain), ("HashMap", &map))?;
            }
            times.map.push(map_time);
        }
        Ok(())
    }
}

impl Row {
    /// What one of its parts costs, by the times of an order and of what is to be taken
    /// off. Single runs are not subtracted: none belongs to one of the others.
    fn cost(&self, order: Order, with: &[Duration], without: &[Duration]) -> Cost {
        let parts = f64::from(order.rounds) * f64::from((self.in_round)(order.number));
        Cost {
            least: self.unit.of((least(with) - least(without)) / parts),
            median: self.unit.of((median(with) - median(without)) / parts),
        }
    }
}

fn expect_same(order: &str, one: (&str, &str), other: (&str, &str)) -> Result<(), Failure> {
    if one.1 == other.1 {
        return Ok(());
    }
    let difference = format!(
        "at {order:?}: {} {:?}, {} {:?}",
        one.0, one.1, other.0, other.1
    );
    Err(Failure::Differs(difference))
}

/// In nanoseconds, as below.
fn least(times: &[Duration]) -> f64 {
    let least = times.iter().min().copied().unwrap_or_default();
    least.as_nanos() as f64
}

fn median(times: &[Duration]) -> f64 {
    let mut sorted = times.to_vec();
    sorted.sort();
    sorted[sorted.len() / 2].as_nanos() as f64
}

#[cfg(test)]
mod tests {
    use super::*;

    /// The least of each kind and the medians of each kind, and not those of the
    /// differences.
    #[test]
    fn a_cost_is_a_difference_for_each_part() {
        let order = Order {
            work: Work::Adds,
            number: 16,
            rounds: 10,
        };
        let adds = &TIMINGS[0];
        assert_eq!(adds.work, Work::Adds);
        let times = |nanoseconds: [u64; 3]| nanoseconds.map(Duration::from_nanos);
        let (with, without) = (times([2000, 9000, 4000]), times([800, 400, 500]));
        let cost = adds.rows[0].cost(order, &with, &without);
        assert_eq!((cost.least, cost.median), (10.0, 3500.0 / 160.0));
    }

    #[test]
    fn orders_that_are_run_are_taken_and_bad_ones_are_not() {
        for (number, _) in COMPARED {
            assert!(number.is_power_of_two());
        }
        for text in BAD {
            assert_eq!(Order::parse(text), None, "{text:?}");
        }
        assert!(Order::parse(LONGEST).is_some());
        for timing in &TIMINGS {
            for &number in timing.numbers {
                let order = Order {
                    work: timing.work,
                    number,
                    rounds: 1,
                };
                assert_eq!(Order::parse(&order.to_string()), Some(order));
            }
        }
    }
}
