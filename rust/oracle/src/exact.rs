//! The nearest f32, ties to even, in integer arithmetic: roots, the power rule of the depth
//! factor, and sine and cosine of the low-pass angle.

/// Document 01, item 2: y to the power 0.25, 0.5, 1 or 2, nearest f32. Any other power, which no
/// accepted frame has, is std's.
pub fn depth_power(y: f32, power: f32) -> f32 {
    if power == 0.25 {
        root(4, y)
    } else if power == 0.5 {
        root(2, y)
    } else if power == 1.0 {
        y
    } else if power == 2.0 {
        y * y
    } else {
        y.powf(power)
    }
}

/// The nearest square (k = 2) or fourth (k = 4) root. Either zero gives +0, an infinity +infinity,
/// other negatives NaN.
pub fn root(k: u32, x: f32) -> f32 {
    if x == 0.0 {
        return 0.0;
    }
    if x.is_infinite() {
        return f32::INFINITY;
    }
    if x.is_nan() || x < 0.0 {
        return f32::NAN;
    }
    // x = m * 2^e with e a multiple of k and m from 2^(25k) up to 2^(26k): its root has 26 bits.
    let (m, e) = parts(x);
    let most = 26 * k - 1 - m.ilog2();
    let up = most - (most as i32 - e).rem_euclid(k as i32) as u32;
    let (m, e) = (u128::from(m) << up, e - up as i32);
    let mut r = 0u128;
    for bit in (0..26).rev() {
        let next = r | 1 << bit;
        if next.pow(k) <= m {
            r = next;
        }
    }
    // The bit below the last says that the root is not r itself, so that the conversion rounds it.
    let rounded = (r << 1 | u128::from(r.pow(k) != m)) as f32;
    rounded * power_of_two(e / k as i32 - 1)
}

/// 2^n for n from -126 to 127.
fn power_of_two(n: i32) -> f32 {
    f32::from_bits(((127 + n) as u32) << 23)
}

/// A finite x above zero as m * 2^e.
fn parts(x: f32) -> (u32, i32) {
    let (exponent, fraction) = (x.to_bits() >> 23, x.to_bits() & 0x7f_ffff);
    match exponent {
        0 => (fraction, -149),
        _ => (fraction | 0x80_0000, exponent as i32 - 150),
    }
}

/// The nearest sine of w, from 2^-16 to 1.
pub fn sin(w: f32) -> f32 {
    series(w, 1)
}

/// The nearest cosine of w, from 2^-16 to 1.
pub fn cos(w: f32) -> f32 {
    series(w, 0)
}

/// The alternating sum of w^n / n! over n = first, first + 2, .., in units of 2^-64: a lower and an
/// upper end that both round to the answer.
fn series(w: f32, first: u32) -> f32 {
    assert!(
        (power_of_two(-16)..=1.0).contains(&w),
        "angle {w} out of range"
    );
    const TERMS: u32 = 10;
    let (m, e) = parts(w);
    let down = -e as u32;
    let square = u128::from(m) * u128::from(m);
    let start = if first == 0 {
        1 << 64
    } else {
        u128::from(m) << (64 - down)
    };
    let (mut low, mut high) = (start, start);
    let (mut sum_low, mut sum_high) = (0, 0);
    for i in 0..TERMS {
        if i % 2 == 0 {
            (sum_low, sum_high) = (sum_low + low, sum_high + high);
        } else {
            (sum_low, sum_high) = (sum_low - high, sum_high - low);
        }
        let n = first + 2 * i;
        let next = |term: u128| ((term * square) >> (2 * down)) / u128::from((n + 1) * (n + 2));
        (low, high) = (next(low), next(high) + 1);
    }
    // What the partial sum leaves out is smaller than its next term.
    let nearest = |sum: u128| sum as f32 * power_of_two(-64);
    let answer = nearest(sum_low - high);
    assert_eq!(
        answer,
        nearest(sum_high + high),
        "sum at {w} too near a tie"
    );
    answer
}
