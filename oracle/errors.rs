//! `number --errors`: how far T is from the hyperbolic tangent, by decade of |y|, as 01 had it and as 2026-02 mended it.

use super::rules::tanh_before;

/// Below this power of ten every f32 is subnormal.
const LOWEST: i32 = -38;

/// The patterns of a decade, `upto` not among them. The first begins with the smallest f32 above 0.
struct Decade {
    from: u32,
    upto: u32,
}

/// tanh(y) in f64, good to a few units of its last place, 2^29 of which are one of an f32's: by its series, whose next
/// term is below 2^-60 of the first, or by `f64::tanh` of this machine.
fn wide(y: f64) -> f64 {
    let z = y * y;
    if y < 0.01 {
        y * (1.0 + z * (-1.0 / 3.0 + z * (2.0 / 15.0 + z * (-17.0 / 315.0 + z * (62.0 / 2835.0)))))
    } else {
        y.tanh()
    }
}

/// One unit of the last place of the f32 nearest to `v`, which is below 1.
fn unit(v: f64) -> f64 {
    let exponent = ((v.to_bits() >> 52) as i32 - 1023).max(-126);
    2f64.powi(exponent - 23)
}

/// Of the patterns that were taken: the largest error of T of 01 and of T, how often T of 01 is 0, and how often the two
/// have other bits.
#[derive(Default)]
struct Found {
    before: f64,
    now: f64,
    zeros: u64,
    other: u64,
}

impl Found {
    /// Of every second pattern of the decade, from its first or its second on.
    fn of(decade: &Decade, first: u32, tanh: fn(u32) -> u32) -> Found {
        let mut found = Found::default();
        for x in (decade.from + first..decade.upto).step_by(2) {
            let exact = wide(f64::from(f32::from_bits(x)));
            let error = |t: u32| (f64::from(f32::from_bits(t)) - exact).abs() / unit(exact);
            let (before, now) = (tanh_before(f32::from_bits(x)).to_bits(), tanh(x));
            found.before = found.before.max(error(before));
            found.now = found.now.max(error(now));
            found.zeros += u64::from(before == 0);
            found.other += u64::from(before != now);
        }
        found
    }

    fn join(self, other: Found) -> Found {
        Found {
            before: self.before.max(other.before),
            now: self.now.max(other.now),
            zeros: self.zeros + other.zeros,
            other: self.other + other.other,
        }
    }
}

/// The table, over every y above 0 and below 10; decades of which the same is to be said are one row.
pub fn print(tanh: fn(u32) -> u32) {
    println!("| y from | to | T of 01 | gives 0 | T | other bits |");
    println!("|---|---|---|---|---|---|");
    let mut from = 1;
    let (mut start, mut said) = (from, String::new());
    for power in LOWEST..=1 {
        let upto = format!("1e{power}")
            .parse::<f32>()
            .expect("a power of ten")
            .to_bits();
        let decade = Decade { from, upto };
        let found = std::thread::scope(|threads| {
            let second = threads.spawn(|| Found::of(&decade, 1, tanh));
            Found::of(&decade, 0, tanh).join(second.join().expect("the other thread stopped"))
        });
        let share = |n: u64| n as f64 / f64::from(upto - from) * 100.0;
        let (before, now) = (found.before, found.now);
        let says = format!(
            "{before:.3} | {:.1} % | {now:.3} | {:.5} %",
            share(found.zeros),
            share(found.other)
        );
        if says != said {
            row(start, from, &said);
            (start, said) = (from, says);
        }
        from = upto;
    }
    row(start, from, &said);
}

fn row(from: u32, to: u32, said: &str) {
    if from < to {
        println!(
            "| {:e} | {:e} | {said} |",
            f32::from_bits(from),
            f32::from_bits(to)
        );
    }
}
