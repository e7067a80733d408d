//! Doubles of every sort, by their bits; and the reference's products beside the machine's own.
use crate::random::Random;
use reference::doubles::{product, Double};
use std::collections::BTreeMap;
use std::num::FpCategory;

const FRACTION: u64 = (1 << 52) - 1;
const LEAST_NORMAL: u64 = 1 << 52;
const INFINITY: u64 = 0x7ff << 52;
const LARGEST: u64 = INFINITY - 1;

/// The zooms that a clerk picks.
const ZOOMS: [f64; 9] = [0.25, 0.5, 0.9, 1.0, 1.1, 1.25, 1.5, 3.0, 5.0];

/// A fraction with all its bits, or with zeros at its end, so that a product may lie half way between two doubles.
fn fraction(random: &mut Random) -> u64 {
    random.next() & FRACTION & (u64::MAX << random.pick(&[0, 0, 20, 26, 27, 40, 50, 52]))
}

/// Anything that 64 bits can be as a double: zeros, subnormal, usual, the largest, infinite, and NaN of either sort with any payload.
pub fn any(random: &mut Random) -> u64 {
    let sign = random.next() & 1 << 63;
    let payload = random.next() & FRACTION;
    sign | match random.below(14) {
        0 => 0,
        1 => random.pick(&[1, 2, 3, FRACTION, FRACTION - 1]),
        2 => fraction(random),
        3 => random.pick(&[LEAST_NORMAL, LEAST_NORMAL + 1, LARGEST, LARGEST - 1]),
        4 => INFINITY,
        5 => INFINITY | payload.max(1),
        6 => INFINITY | LEAST_NORMAL >> 1 | payload,
        7..=9 => (random.below(1 << 20) as f64 / 8.0).to_bits(),
        _ => (random.below(0x7ff) as u64) << 52 | fraction(random),
    }
}

pub fn finite(random: &mut Random) -> u64 {
    loop {
        let bits = any(random);
        if Double(bits).is_finite() {
            return bits;
        }
    }
}

pub fn not_finite(random: &mut Random) -> u64 {
    let payload = fraction(random);
    random.next() & 1 << 63 | INFINITY | payload
}

/// A finite double to multiply another with: a clerk's zoom, or one by which the product comes near an end of the range, or any.
pub fn factor(random: &mut Random, other: u64) -> u64 {
    match random.below(4) {
        0 => random.pick(&ZOOMS).to_bits(),
        1 => finite(random),
        _ => {
            let wanted = random.pick(&[0, 0, -20, -52, 1023, 2046]) + random.between(-3, 3);
            let exponent = (wanted + 1023 - (other >> 52 & 0x7ff) as i64).clamp(0, 0x7fe) as u64;
            random.next() & 1 << 63 | exponent << 52 | fraction(random)
        }
    }
}

/// What a product came to; of the usual ones also whether it was rounded, and from half way between two doubles.
const SORTS: [&str; 7] = ["zero", "rounded to zero", "subnormal", "exact", "rounded", "rounded from half way", "infinite"];

fn sort(a: f64, b: f64, product: f64) -> &'static str {
    let size = product.abs();
    let place = f64::from_bits(size.to_bits() + 1) - size;
    let error = a.mul_add(b, -product).abs();
    match size.classify() {
        FpCategory::Infinite => "infinite",
        FpCategory::Zero if a == 0.0 || b == 0.0 => "zero",
        FpCategory::Zero => "rounded to zero",
        FpCategory::Subnormal => "subnormal",
        _ if error == 0.0 => "exact",
        _ if 2.0 * error == place => "rounded from half way",
        _ => "rounded",
    }
}

/// So many products by the reference beside the machine's own, bit for bit; true when none differs and every sort occurred.
pub fn run(seed: u64, count: u64) -> bool {
    let mut random = Random::new(seed);
    let mut seen: BTreeMap<&str, u64> = BTreeMap::new();
    let mut differences = 0;
    for _ in 0..count {
        let a = finite(&mut random);
        let b = factor(&mut random, a);
        let machine = f64::from_bits(a) * f64::from_bits(b);
        let reference = product(Double(a), Double(b));
        if reference != machine.into() {
            differences += 1;
            println!("DIFFERENCE: {a:#018x} times {b:#018x} is {:#018x} in the reference, {:#018x} in the machine", reference.0, machine.to_bits());
        }
        *seen.entry(sort(f64::from_bits(a), f64::from_bits(b), machine)).or_default() += 1;
    }
    let missing: Vec<&str> = SORTS.into_iter().filter(|sort| !seen.contains_key(sort)).collect();
    println!("  {}", seen.iter().map(|(sort, count)| format!("{sort}: {count}")).collect::<Vec<_>>().join("  "));
    missing.iter().for_each(|sort| println!("runner: no product was {sort}"));
    println!("runner: {count} products, {differences} differences (seed {seed})");
    differences == 0 && missing.is_empty()
}
