//! Sets the proved settle against the same rules in plain Rust: the same results first, then the times.

mod host;
mod outcome;
mod plain;
mod table;
mod timing;

use host::Host;
use std::hint::black_box;
use table::Family;

const SIZES: [usize; 4] = [8, 16, 32, 64];

/// The times of one settle, in microseconds.
struct Times {
    proved: f64,
    plain: f64,
}

/// Settles one table both ways. Panics where the results differ.
fn measure(family: Family, n: usize, before: Option<Times>) -> Times {
    let table = family.table(n);
    let mut host = Host::new(&table);
    host.settle();
    let outcome = plain::settle(&table);
    assert_eq!(host.outcome(), outcome, "{} of {n} states", family.name());

    let (proved, plain) = timing::best_of_each(&mut || black_box(&mut host).settle(), &mut || {
        black_box(plain::settle(black_box(&table)));
    });
    let growth = before.map_or(String::new(), |before| {
        format!("{:8.1}{:8.1}", proved / before.proved, plain / before.plain)
    });
    println!(
        "{:17}{n:3}{:9}{:8}{proved:13.1}{plain:12.1}{:8.2}{growth}",
        family.name(),
        outcome.strikes.len(),
        outcome.passes,
        proved / plain,
    );
    Times { proved, plain }
}

fn main() {
    println!(
        "family             n  strikes  passes   proved (µs)  plain (µs)  ratio  growth of each"
    );
    for family in Family::ALL {
        let mut before = None;
        for n in SIZES {
            before = Some(measure(family, n, before));
        }
    }
}
