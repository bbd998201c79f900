//! R-9's 24-bit integers, read from document 02 in whole numbers, from the bits of a sample: "the
//! nearest whole number to sample × 8,388,608, ties to even, and then at most 8,388,607; .. three
//! bytes, two's complement, least first, twelve channels interleaved". No float is computed here; the
//! Rattle code adds two.

const CHANNELS: usize = 12;
const STEPS: u32 = 8_388_608;

/// A sample's whole number; none where it is "NaN or outside -1 to 1".
pub fn code(word: u32) -> Option<i32> {
    let (exponent, fraction) = (word >> 23 & 0xff, word & (STEPS - 1));
    let digits = if exponent == 0 {
        fraction
    } else {
        STEPS + fraction
    };
    // The size × 8,388,608 is the digits / 2^below.
    let below = 127u32.checked_sub(exponent.max(1))?;
    if below == 0 && fraction != 0 {
        return None;
    }
    let nearest = nearest(digits, below) as i32;
    Some(match word >> 31 {
        0 => nearest.min(8_388_607),
        _ => -nearest,
    })
}

/// The whole number nearest to digits / 2^below, of two the even one.
fn nearest(digits: u32, below: u32) -> u32 {
    if below > 25 {
        return 0; // the digits are fewer than 2^24
    }
    let (whole, rest) = (digits >> below, digits & ((1 << below) - 1));
    match (2 * rest).cmp(&(1 << below)) {
        std::cmp::Ordering::Less => whole,
        std::cmp::Ordering::Equal => whole + whole % 2,
        std::cmp::Ordering::Greater => whole + 1,
    }
}

/// The word of code / 8,388,608.
pub fn word(code: i32) -> u32 {
    let size = code.unsigned_abs();
    let sign = u32::from(code < 0) << 31;
    match size.checked_ilog2() {
        None => 0,
        Some(top) => sign | (127 - 23 + top) << 23 | (size << (23 - top)) & (STEPS - 1),
    }
}

/// The place of sample i of channel c, as a sample's word.
fn sample(out: &[u8], place: usize) -> u32 {
    u32::from_le_bytes(out[4 * place..4 * place + 4].try_into().unwrap())
}

/// The bytes of the first `count` samples of each channel; none where one is refused.
pub fn bytes(out: &[u8], stride: usize, count: usize) -> Option<Vec<u8>> {
    let mut bytes = Vec::new();
    for i in 0..count {
        for c in 0..CHANNELS {
            let code = code(sample(out, c * stride + i))?;
            bytes.extend(&code.to_le_bytes()[..3]);
        }
    }
    Some(bytes)
}

/// "one channel after another"
pub fn samples(bytes: &[u8]) -> Vec<u8> {
    let codes = bytes.as_chunks().0.iter().map(|[a, b, c]| {
        let top = i32::from(*c as i8); // two's complement
        i32::from(*a) + 256 * i32::from(*b) + 65_536 * top
    });
    let codes: Vec<i32> = codes.collect();
    let channel = |c: usize| codes.iter().skip(c).step_by(CHANNELS);
    let words = (0..CHANNELS).flat_map(|c| channel(c).map(|code| word(*code).to_le_bytes()));
    words.flatten().collect()
}

/// The refusal of writing, 0 where there is none: "a bad stride or a short slice is 1, a count above
/// the stride is 2, both first", "20 for a destination that is too short", "21 .. checked last".
pub fn write_refusal(out: &[u8], stride: u32, count: u32, dest: usize) -> u32 {
    let is_stride = stride.is_multiple_of(64) && (64..=1_536).contains(&stride);
    match () {
        () if !is_stride || out.len() < 48 * stride as usize => 1,
        () if count > stride => 2,
        () if dest < 36 * count as usize => 20,
        () if bytes(out, stride as usize, count as usize).is_none() => 21,
        () => 0,
    }
}

/// Of reading: "19 for a length that is not a multiple of 36 when reading, 20 for a destination that
/// is too short, in that order".
pub fn read_refusal(source: usize, dest: usize) -> u32 {
    match () {
        () if !source.is_multiple_of(36) => 19,
        () if dest < source / 36 * 48 => 20,
        () => 0,
    }
}
