//! Runs the same seeded books through the proved planner and through a plain one, compares what they answer, and
//! prints the ratio of their times.

mod books;
mod engine;
mod placing;
mod plain;

use books::{Book, Random, Shape};
use plain::Plain;
use std::time::{Duration, Instant};

/// What a set of books came to.
#[derive(Default)]
struct Tally {
    books: u32,
    agreed: u32,
    settled: u32,
    held: u32,
    active: u64,
    steps: u64,
    proved: Duration,
    plain: Duration,
}

/// The shortest time of so many repeats, one at least, and what the last one made.
fn timed<T>(repeats: u32, mut work: impl FnMut() -> T) -> (Duration, T) {
    let mut once = || {
        let start = Instant::now();
        let made = std::hint::black_box(work());
        (start.elapsed(), made)
    };
    let mut shortest = once();
    for _ in 1..repeats {
        let (time, made) = once();
        shortest = (shortest.0.min(time), made);
    }
    shortest
}

/// One book through both. Of each time the time with budget 0, which is reading the book in, is taken off.
fn measure(book: &Book, budget: u32, repeats: u32, tally: &mut Tally) {
    let bytes = book.bytes();
    let (reading, _) = timed(repeats, || engine::run(&bytes, 0).is_ok());
    let (proved, answer) = timed(repeats, || engine::run(&bytes, budget));
    let (making, _) = timed(repeats, || Plain::new(book).run(0));
    let (plain, (steps, direct)) = timed(repeats, || {
        let mut direct = Plain::new(book);
        (direct.run(budget), direct)
    });
    tally.books += 1;
    tally.proved += proved.saturating_sub(reading);
    tally.plain += plain.saturating_sub(making);
    let Ok((outcome, plan)) = answer else {
        return;
    };
    let (direct_plan, direct_cost) = direct.best.unwrap_or(([0; 64], 0));
    tally.agreed += (outcome.steps == steps
        && outcome.settled == direct.settled
        && outcome.held == direct.best.is_some()
        && outcome.cost == direct_cost
        && plan == direct_plan) as u32;
    tally.settled += outcome.settled as u32;
    tally.held += outcome.held as u32;
    tally.active += plan.iter().filter(|&&v| v != 0).count() as u64;
    tally.steps += outcome.steps as u64;
}

fn report(name: &str, tally: &Tally) {
    let per = |time: Duration| time.as_secs_f64() * 1e9 / tally.steps.max(1) as f64;
    println!(
        "{name}: {} books, {} agreed, {} settled, {} with a best (mean {:.1} active), {} steps; proved {:.1} ms ({:.0} ns a step), plain {:.1} ms ({:.0} ns a step), ratio {:.2}",
        tally.books,
        tally.agreed,
        tally.settled,
        tally.held,
        tally.active as f64 / tally.held.max(1) as f64,
        tally.steps,
        tally.proved.as_secs_f64() * 1e3,
        per(tally.proved),
        tally.plain.as_secs_f64() * 1e3,
        per(tally.plain),
        tally.proved.as_secs_f64() / tally.plain.as_secs_f64(),
    );
}

/// Whether the proved planner answers damaged books and too large a budget as it says.
fn damaged_are_refused(r: &mut Random) -> bool {
    let shape = Shape {
        decisions: 5,
        most_size: 3,
        rules_of_a_kind: 4,
        off_in: 2,
        fewest_forbidden: 1,
        least_cents: 0,
    };
    let bytes = Book::new(r, &shape).bytes();
    let answers = |budget: u32, edit: &dyn Fn(&mut Vec<u8>)| {
        let mut damaged = bytes.clone();
        edit(&mut damaged);
        engine::run(&damaged, budget).err()
    };
    let first = 1 + 2 * 5;
    (0..bytes.len())
        .filter(|&len| len < first || (len - first) % 16 != 0)
        .all(|len| answers(9, &|b| b.truncate(len)) == Some(255))
        && answers(9, &|b| b[2] = 2) == Some(255)
        && answers(9, &|b| b[first] = 3) == Some(255)
        && answers(9, &|b| b[first + 1] = 5) == Some(255)
        && answers(9, &|b| b[first + 1] = 0) == Some(3)
        && answers(9, &|b| b[first + 2] = 64) == Some(if bytes[first + 1] == 1 { 4 } else { 6 })
        && answers(9, &|b| b[1] = 17) == Some(2)
        && answers(1_000_001, &|_| ()) == Some(10)
        && answers(1_000_000, &|_| ()).is_none()
}

fn main() {
    placing::take_room();
    let words: Vec<String> = std::env::args().skip(1).collect();
    let seed = words.first().and_then(|w| w.parse().ok()).unwrap_or(1);
    let only = words.get(1).cloned();
    let mut r = Random(seed);
    let mut books = 0;
    let mut agreed = 0;
    let mut set = |name: &str,
                   count: u32,
                   budget: u32,
                   repeats: u32,
                   r: &mut Random,
                   shape: &mut dyn FnMut(&mut Random) -> Shape| {
        if only.as_ref().is_some_and(|o| o != name) {
            return;
        }
        let mut tally = Tally::default();
        for _ in 0..count {
            let shape = shape(r);
            measure(&Book::new(r, &shape), budget, repeats, &mut tally);
        }
        report(name, &tally);
        books += tally.books;
        agreed += tally.agreed;
    };
    set("small", 1000, 20_000, 20, &mut r, &mut |r| Shape {
        decisions: r.within(5, 10),
        most_size: r.within(3, 8),
        rules_of_a_kind: r.within(10, 60),
        off_in: r.within(0, 3),
        fewest_forbidden: r.within(2, 3),
        least_cents: 500,
    });
    set("mixed", 200, 5_000, 3, &mut r, &mut |r| Shape {
        decisions: r.within(5, 50),
        most_size: r.within(2, 16),
        rules_of_a_kind: r.within(1, 256),
        off_in: r.within(0, 3),
        fewest_forbidden: r.within(1, 3),
        least_cents: r.within(0, 1000),
    });
    set("large", 20, 20_000, 3, &mut r, &mut |_| Shape {
        decisions: 50,
        most_size: 4,
        rules_of_a_kind: 256,
        off_in: 3,
        fewest_forbidden: 2,
        least_cents: 500,
    });
    set("all-on", 20, 20_000, 3, &mut r, &mut |_| Shape {
        decisions: 50,
        most_size: 4,
        rules_of_a_kind: 256,
        off_in: 0,
        fewest_forbidden: 2,
        least_cents: 500,
    });
    println!("all: {books} books, {agreed} agreed");
    let refused = damaged_are_refused(&mut r);
    println!(
        "damaged books and a budget too large: {}",
        if refused { "refused" } else { "NOT REFUSED" }
    );
    if agreed != books || !refused {
        std::process::exit(1);
    }
}
