//! Synthetic ultrasound-like sweeps: beams over layered tissue, with cysts, a stone and its shadow.

use crate::model::Random;
use crate::netpbm::Picture;

/// Samples along a beam, and beams.
const DEPTH: usize = 520;
const BEAMS: usize = 220;

/// Half the fan's angle, and where its arcs begin and end, in picture heights from the apex.
const ANGLE: f32 = 0.66;
const NEAR: f32 = 0.16;
const FAR: f32 = 1.09;
const APEX: f32 = -0.11;

/// A fan of beams.
pub fn sweep(height: usize, width: usize, seed: u64) -> Picture {
    let part = |i: usize, n: usize| i as f32 / (n - 1) as f32;
    let beams = beams(DEPTH, BEAMS, seed, |i, j| tissue(part(i, DEPTH), part(j, BEAMS)));
    let mut rgb = Vec::with_capacity(height * width * 3);
    for y in 0..height {
        for x in 0..width {
            let down = (y as f32 + 0.5) / height as f32 - APEX;
            let across = (x as f32 + 0.5 - width as f32 / 2.0) / height as f32;
            let (r, angle) = (down.hypot(across), across.atan2(down));
            let grey = match inside(r, angle) {
                Some((d, b)) => between(&beams, d, b),
                None => 0.0,
            };
            rgb.extend([grey.round() as u8; 3]);
        }
    }
    Picture { height, width, rgb }
}

/// A panoramic sweep, a beam a column: the probe was drawn along the skin. Its cysts are circles.
pub fn panorama(height: usize, width: usize, seed: u64) -> Picture {
    let part = |i: usize| (i as f32 + 0.5) / height as f32;
    let beams = beams(height, width, seed, |i, j| along_the_skin(part(i), part(j)));
    let pixels = (0..height * width).map(|k| beams[k % width * height + k / width]);
    Picture { height, width, rgb: pixels.flat_map(|grey| [grey.round() as u8; 3]).collect() }
}

/// Depth and beam of a place, each from 0 to 1.
fn inside(r: f32, angle: f32) -> Option<(f32, f32)> {
    let (d, b) = ((r - NEAR) / (FAR - NEAR), angle / ANGLE / 2.0 + 0.5);
    ((0.0..=1.0).contains(&d) && (0.0..=1.0).contains(&b)).then_some((d, b))
}

fn between(beams: &[f32], d: f32, b: f32) -> f32 {
    let (d, b) = (d * (DEPTH - 1) as f32, b * (BEAMS - 1) as f32);
    let (i, j) = ((d as usize).min(DEPTH - 2), (b as usize).min(BEAMS - 2));
    let (u, v) = (d - i as f32, b - j as f32);
    let at = |i: usize, j: usize| beams[j * DEPTH + i];
    let upper = at(i, j) * (1.0 - v) + at(i, j + 1) * v;
    let lower = at(i + 1, j) * (1.0 - v) + at(i + 1, j + 1) * v;
    upper * (1.0 - u) + lower * u
}

/// The beams' brightness, 0 to 255: speckle, scaled by what the tissue sends back at sample i of beam j, on a
/// logarithmic scale.
fn beams(depth: usize, count: usize, seed: u64, tissue: impl Fn(usize, usize) -> f32) -> Vec<f32> {
    let (real, imaginary) = (field(depth, count, seed), field(depth, count, seed + 1));
    let mut beams = Vec::with_capacity(count * depth);
    for j in 0..count {
        for i in 0..depth {
            let k = j * depth + i;
            let echo = real[k].hypot(imaginary[k]) * tissue(i, j);
            beams.push((168.0 + 82.0 * (echo + 1e-4).log10()).clamp(0.0, 255.0));
        }
    }
    beams
}

/// Noise, spread along and above all across the beams as a lens spreads it; its size is 1 in the mean.
fn field(depth: usize, count: usize, seed: u64) -> Vec<f32> {
    let mut random = Random::new(seed);
    let mut noise: Vec<f32> = (0..count * depth).map(|_| (0..3).map(|_| random.float()).sum()).collect();
    for (step, spread) in [(1, 2), (depth, 2), (1, 1), (depth, 1)] {
        noise = (0..noise.len()).map(|k| near(&noise, k, step, spread)).collect();
    }
    let size = (noise.iter().map(|x| x * x).sum::<f32>() / noise.len() as f32).sqrt();
    noise.iter().map(|x| x / size).collect()
}

/// The mean of the places around k.
fn near(noise: &[f32], k: usize, step: usize, spread: usize) -> f32 {
    let first = k.saturating_sub(spread * step);
    let places = (first..=k + spread * step).step_by(step).filter(|i| *i < noise.len());
    places.map(|i| noise[i]).sum::<f32>() / (2 * spread + 1) as f32
}

/// A dark, round cyst: where it is, and its half-axes along and across the beams.
struct Cyst {
    d: f32,
    b: f32,
    along: f32,
    across: f32,
}

const CYSTS: [Cyst; 3] = [
    Cyst { d: 0.47, b: 0.37, along: 0.115, across: 0.085 },
    Cyst { d: 0.63, b: 0.66, along: 0.060, across: 0.040 },
    Cyst { d: 0.31, b: 0.79, along: 0.040, across: 0.042 },
];

/// How much the tissue sends back at a depth and a beam.
fn tissue(d: f32, b: f32) -> f32 {
    let mut echo = 0.42;
    // Skin, and then arcs between layers, each waved in its own way.
    echo += 3.5 * bump(d, 0.012, 0.010);
    for (depth, wave, phase, thick, bright) in [
        (0.10, 0.006, 0.7, 0.007, 2.2),
        (0.19, 0.010, 2.1, 0.006, 1.4),
        (0.235, 0.012, 2.4, 0.010, 0.8),
        (0.83, 0.022, 4.0, 0.011, 3.0),
    ] {
        let at = depth + wave * (b * 7.0 + phase).sin();
        echo += bright * bump(d, at, thick) * (0.7 + 0.3 * (b * 19.0 + phase * 5.0).sin());
    }
    // The layer below the skin is brighter, the one below the last arc nearly dark.
    echo *= if d < 0.10 { 1.5 } else { 1.0 };
    echo *= 1.0 - 0.75 * rise(d, 0.87, 0.02);
    for cyst in &CYSTS {
        echo = cystic(echo, (d - cyst.d) / cyst.along, (b - cyst.b) / cyst.across);
    }
    stony(echo, (d - 0.40) / 0.020, (b - 0.60) / 0.030) * (-0.55 * d).exp()
}

/// What a cyst makes of the echo at a place, which is counted from its centre in its half-axes along and across.
fn cystic(mut echo: f32, u: f32, v: f32) -> f32 {
    let edge = u.hypot(v);
    // Fluid sends nothing back; the wall does, most where the beam meets it squarely; more comes from behind.
    echo *= 0.03 + 0.97 * rise(edge, 1.0, 0.05);
    echo += 1.6 * bump(edge, 1.03, 0.05) * (u / edge.max(0.1)).powi(2);
    echo * (1.0 + 0.9 * (1.0 - rise(v.abs(), 0.85, 0.2)) * rise(u, 1.0, 0.1) * (1.0 - rise(u, 4.0, 1.5)))
}

/// What a stone makes of the echo at a place, counted likewise: a bright cap, and a shadow to the end of the beam.
fn stony(mut echo: f32, u: f32, v: f32) -> f32 {
    echo += 7.0 * bump(u - v * v, 0.0, 0.5) * (1.0 - rise(v.abs(), 1.0, 0.1));
    echo * (1.0 - 0.93 * (1.0 - rise(v.abs(), 0.85, 0.12)) * rise(u, 1.2, 0.6))
}

/// The cysts of a panoramic sweep: depth, place along the skin and radius, in heights of the picture.
const ROUND: [(f32, f32, f32); 4] = [(0.54, 0.55, 0.20), (0.44, 1.42, 0.11), (0.53, 2.32, 0.22), (0.49, 3.50, 0.15)];

/// How much the tissue of a panoramic sweep sends back at a depth and a place along the skin, in heights of the picture.
fn along_the_skin(d: f32, x: f32) -> f32 {
    let mut echo = 0.42 * (1.0 + 0.3 * (x * 2.9 + 5.0 * d).sin() * (x * 1.3 - 4.0 * d).sin());
    echo += 3.5 * bump(d, 0.012, 0.012);
    for (depth, wave, phase, thick, bright) in [
        (0.10, 0.008, 0.7, 0.009, 2.2),
        (0.16, 0.012, 1.6, 0.006, 0.9),
        (0.23, 0.016, 2.1, 0.010, 1.6),
        (0.86, 0.030, 4.0, 0.014, 3.0),
    ] {
        let at = depth + wave * (x * 2.3 + phase).sin();
        echo += bright * bump(d, at, thick) * (0.7 + 0.3 * (x * 7.0 + phase * 5.0).sin());
    }
    echo *= if d < 0.10 { 1.5 } else { 1.0 };
    echo *= 1.0 - 0.75 * rise(d, 0.91, 0.03);
    for (depth, at, radius) in ROUND {
        echo = cystic(echo, (d - depth) / radius, (x - at) / radius);
    }
    stony(echo, (d - 0.42) / 0.025, (x - 2.98) / 0.075) * (-0.55 * d).exp()
}

/// 1 at a place, falling off within a width.
fn bump(x: f32, at: f32, width: f32) -> f32 {
    (-((x - at) / width).powi(2)).exp()
}

/// From 0 below a place to 1 above it, within a width.
fn rise(x: f32, at: f32, width: f32) -> f32 {
    1.0 / (1.0 + (-4.0 * (x - at) / width).exp())
}
