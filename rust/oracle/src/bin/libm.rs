//! Where std's powf, sine and cosine on this machine are not the nearest f32 (docs/DIFFERENCES.md):
//! powf over every finite float above zero, the angles at the rates from 8,000 to 192,000.

use oracle::exact;

fn main() {
    for power in [0.25, 0.5, 1.0, 2.0] {
        powers(power);
    }
    angles("sin", f32::sin, exact::sin);
    angles("cos", f32::cos, exact::cos);
}

fn powers(power: f32) {
    let unit = 1.0f32.to_bits();
    let (mut to_one, mut all, mut shown) = (0, 0, Vec::new());
    for bits in 1..f32::INFINITY.to_bits() {
        let y = f32::from_bits(bits);
        let (ours, theirs) = (nearest_power(y, power), std::hint::black_box(y).powf(power));
        if ours != theirs {
            all += 1;
            to_one += u32::from(bits <= unit);
            // The smallest, the smallest above 1/2, and the smallest above 1.
            if shown.len() < [0, 0.5f32.to_bits(), unit].partition_point(|&from| from < bits) {
                shown.push([bits, theirs.to_bits(), ours.to_bits()]);
            }
        }
    }
    println!(
        "powf {power}: {to_one} of {unit} up to 1, {all} in all; y, std's, nearest: {shown:08x?}"
    );
}

/// `exact::depth_power`, decided in f64 where that is not next to a tie.
fn nearest_power(y: f32, power: f32) -> f32 {
    let wide = f64::from(y);
    let root = match power {
        0.25 => wide.sqrt().sqrt(),
        0.5 => wide.sqrt(),
        _ => return exact::depth_power(y, power),
    };
    let (below, above) = (root * (1.0 - 1e-15), root * (1.0 + 1e-15));
    if below as f32 == above as f32 {
        root as f32
    } else {
        exact::depth_power(y, power)
    }
}

fn angles(name: &str, std: fn(f32) -> f32, nearest: fn(f32) -> f32) {
    let rates: Vec<u32> = (8_000..=192_000)
        .filter(|&rate| {
            let w0 = std::f32::consts::TAU * 120.0 / rate as f32;
            std(std::hint::black_box(w0)) != nearest(w0)
        })
        .collect();
    println!("{name}: {} rates: {rates:?}", rates.len());
}
