//! The benchmark of forward: the port and the Rust on the same inputs, in turn, in the processor's seconds.
//!
//! Only whole forwards are timed, so that both columns mean the same: a stage is what a forward without it leaves out.
//! Every bit of every output and scratch is compared.

use super::{bits, forward, left, model, ours, real, sized, Answer, Random, Report, Settings, SEED};

/// The port's, and the Rust's.
type Pair = [f64; 2];

fn pair(f: impl Fn(usize) -> f64) -> Pair {
    [f(0), f(1)]
}

/// What the forwards of a square grid took.
struct Grid {
    side: usize,
    s: Settings,
    whole: Pair,
    /// With no layer.
    bare: Pair,
    /// With a feed-forward that is one place wide.
    thin: Pair,
}

fn bare(s: Settings) -> Settings {
    Settings { num_layers: 0, ..s }
}

fn thin(s: Settings) -> Settings {
    Settings { intermediate_size: 1, ..s }
}

impl Grid {
    fn tokens(&self) -> f64 {
        (self.side * self.side) as f64
    }

    /// What the layers take but for their feed-forward.
    fn attention(&self) -> Pair {
        pair(|k| self.thin[k] - self.bare[k])
    }

    /// The products in the linear layers of a forward of this grid: a token's, and a merged token's.
    fn linear(&self, s: Settings) -> f64 {
        let (h, x, merged) = (s.hidden_size, s.text_hidden_size, s.spatial_merge_size * s.spatial_merge_size);
        let layers = s.num_layers * (4 * h * h + 3 * h * s.intermediate_size);
        let token = 3 * s.patch_size * s.patch_size * h + layers;
        let projected = merged * h * h + h * x + x * x;
        self.tokens() * (token as f64 + projected as f64 / merged as f64)
    }

    /// The products in its scores and weighted sums: each token with each.
    fn squared(&self) -> f64 {
        2.0 * self.tokens() * self.tokens() * (self.s.num_layers * self.s.hidden_size) as f64
    }
}

/// The processor's time that this process took, which other processes lengthen less than the clock's.
fn processor_seconds() -> f64 {
    extern "C" {
        fn clock() -> std::ffi::c_long;
    }
    unsafe { clock() as f64 / 1e6 }
}

/// The fastest forward of each in some rounds; an error where one answer is not the Rust's.
fn fastest(s: Settings, side: usize, rounds: usize) -> Result<Pair, String> {
    let c = sized(&mut Random(SEED), s, [side, side], 0.05);
    let m = model(&c);
    let mut best = [f64::INFINITY; 2];
    for _ in 0..rounds {
        let (mut scratch, mut out) = (c.scratch.clone(), c.out.clone());
        let began = processor_seconds();
        let report = ours(s, &c, &mut scratch, &mut out);
        let between = processor_seconds();
        let rows = forward(&c, &m);
        best = [best[0].min(between - began), best[1].min(processor_seconds() - between)];
        let (tokens, right, work) = left(&c, &Answer { number: 0, stage: None, rows: Some(rows) });
        let same = bits(&out) == bits(&right) && bits(&scratch) == bits(&work);
        if !same || report != (Report { number: 0, tokens }) {
            return Err(format!("{s:?} grid {side}x{side}: {report:?}, and not the Rust's answer"));
        }
    }
    Ok(best)
}

/// The seconds of each, with notes on each, and how many of the port's go into the Rust's.
fn line(name: &str, time: Pair, notes: impl Fn(usize) -> String) {
    let [ours, other] = [0, 1].map(|k| format!("{:10.3}{}", time[k], notes(k)));
    let ratio = match time.iter().all(|seconds| *seconds > 0.0) {
        true => format!("{:.2} times as fast", time[1] / time[0]),
        false => "lost in the noise".into(),
    };
    println!("{name:28}{ours}{other}   {ratio}");
}

fn head(name: &str, notes: &str) {
    println!("{}", format!("{name:28}{:>10}{notes}{:>10}{notes}", "ours", "the Rust").trim_end());
}

/// The forwards of one grid; the line of the whole one is printed as soon as it is known.
fn grid(layers: usize, side: usize, rounds: usize) -> Result<Grid, String> {
    let s = Settings { num_layers: layers, ..real(side) };
    let whole = fastest(s, side, rounds)?;
    line(&format!("forward {side}x{side}"), whole, |_| String::new());
    let bare = fastest(bare(s), side, rounds)?;
    let thin = fastest(thin(s), side, rounds)?;
    Ok(Grid { side, s, whole, bare, thin })
}

/// What grows with the square of the tokens: b·t² of the curve c + a·t + b·t² through the attention of two small grids
/// and of this one. (The port's c is its look for weights that are not finite.)
fn squared(small: &[Grid], g: &Grid) -> Pair {
    let three = [&small[0], &small[1], g];
    let t = three.map(Grid::tokens);
    pair(|k| {
        let d = three.map(|g| g.attention()[k]);
        let slope = |i: usize| (d[i + 1] - d[i]) / (t[i + 1] - t[i]);
        (slope(1) - slope(0)) / (t[2] - t[0]) * t[2] * t[2]
    })
}

/// The parts of a whole forward, what share of it each is, and how many billions of products it makes a second; the
/// attention is parted where its square is known.
fn shares(g: &Grid, squared: Option<Pair>) {
    println!();
    head(&format!("stages of {0}x{0}", g.side), &format!("{:>9}{:>7}", "share", "G/s"));
    let [whole, thin, bare] = [g.s, thin(g.s), bare(g.s)].map(|s| g.linear(s));
    let mut parts = vec![("patch projection, projector", g.bare, bare)];
    match squared {
        Some(squared) => parts.extend([
            ("norms, q, k, v, rotation, o", pair(|k| g.attention()[k] - squared[k]), thin - bare),
            ("scores, softmax, sums", squared, g.squared()),
        ]),
        None => parts.push(("attention", g.attention(), thin - bare + g.squared())),
    }
    parts.push(("gate, up, silu, down", pair(|k| g.whole[k] - g.thin[k]), whole - thin));
    for (name, time, products) in parts {
        line(name, time, |k| {
            let share = format!("{:.1} %", 100.0 * time[k] / g.whole[k]);
            let rate = if time[k] > 0.0 { format!("{:.2}", products / 1e9 / time[k]) } else { "-".into() };
            format!("{share:>9}{rate:>7}")
        });
    }
}

fn growth(grids: &[Grid]) {
    println!();
    head("growth", &format!("{:>11}", "a token"));
    for g in grids {
        line(&format!("{} tokens", g.tokens()), g.whole, |k| format!("{:>8.2} ms", 1e3 * g.whole[k] / g.tokens()));
    }
    let (first, last) = (&grids[0], &grids[grids.len() - 1]);
    let [ours, other] = pair(|k| last.whole[k] / first.whole[k]);
    let times = last.tokens() / first.tokens();
    println!("{times:.0} times the tokens take ours {ours:.1} and the Rust {other:.1} times as long");
}

fn print_settings(layers: usize) {
    let s = real(1);
    println!(
        "hidden {}, {} heads, intermediate {}, {} layers, patch {}, merge {}, text {}; \
         the Rust on one thread, with E and T",
        s.hidden_size, s.num_heads, s.intermediate_size, layers, s.patch_size, s.spatial_merge_size, s.text_hidden_size
    );
}

/// How many layers, and how often each forward runs: of a grid of four tokens, of which the whole alone is timed, and of
/// grids by their sides, the first two of which are 4x4 and 8x8.
pub struct Plan {
    layers: usize,
    few: usize,
    grids: &'static [(usize, usize)],
}

pub const PLAN: Plan = Plan { layers: 2, few: 5, grids: &[(4, 5), (8, 5), (16, 3), (32, 2)] };
pub const QUICK: Plan = Plan { layers: 2, few: 2, grids: &[(4, 2), (8, 2)] };
pub const LARGE: Plan = Plan { layers: 1, few: 5, grids: &[(4, 5), (8, 5), (64, 1)] };

fn all(plan: &Plan) -> Result<(), String> {
    print_settings(plan.layers);
    head("processor seconds", "");
    let few = fastest(Settings { num_layers: plan.layers, ..real(2) }, 2, plan.few)?;
    line("forward 2x2", few, |_| String::new());
    let run = |(side, rounds): &(usize, usize)| grid(plan.layers, *side, *rounds);
    let grids = plan.grids.iter().map(run).collect::<Result<Vec<_>, _>>()?;
    let (small, large) = grids.split_at(2);
    small.iter().for_each(|g| shares(g, None));
    large.iter().for_each(|g| shares(g, Some(squared(small, g))));
    println!(
        "found by whole forwards: patch projection and projector with 0 layers; gate, up, silu and down by what an \
         intermediate size of 1 saves; scores, softmax and sums as b·t² of c + a·t + b·t² through the rest at 16, 64 \
         and t tokens; G/s: billions of products a second, those of the linear layers, the scores and the sums, \
         counted from the sizes"
    );
    growth(if large.is_empty() { small } else { &grids[1..] });
    println!("every answer has the Rust's bits");
    Ok(())
}

/// Whether every answer is the Rust's.
pub fn run(plan: &Plan) -> bool {
    let done = all(plan);
    if let Err(words) = &done {
        println!("encoder: {words}");
    }
    done.is_ok()
}
