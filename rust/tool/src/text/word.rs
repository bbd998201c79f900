// SPDX-License-Identifier: Apache-2.0
//! Numbers, bytes and bed names as words of a line.

/// By code.
const BEDS: [&str; 18] = [
    "FL", "FR", "FC", "LFE", "SL", "SR", "BC", "BL", "BR", "TFL", "TFR", "TSL", "TSR", "TBL",
    "TBR", "WL", "WR", "LFE2",
];

/// Codes by name, and above 17 by number: "FC,LFE,200".
pub fn beds(codes: &[u8]) -> String {
    let names: Vec<String> = codes
        .iter()
        .map(|c| match BEDS.get(usize::from(*c)) {
            Some(name) => (*name).to_owned(),
            None => c.to_string(),
        })
        .collect();
    names.join(",")
}

pub fn read_beds(text: &str) -> Option<Vec<u8>> {
    text.split(',')
        .map(|name| match BEDS.iter().position(|b| *b == name) {
            Some(code) => u8::try_from(code).ok(),
            None => name.parse().ok(),
        })
        .collect()
}

/// The shortest decimal that reads back; a NaN by its bits.
pub fn float(x: f32) -> String {
    let size = x.abs();
    if x.is_nan() {
        format!("nan:{:08x}", x.to_bits())
    } else if size == 0.0 || (1e-5..1e7).contains(&size) {
        format!("{x}")
    } else {
        format!("{x:e}")
    }
}

pub fn read_float(text: &str) -> Option<f32> {
    match text.strip_prefix("nan:") {
        Some(bits) => read_word(bits).map(f32::from_bits).filter(|x| x.is_nan()),
        None => text.parse().ok().filter(|x: &f32| !x.is_nan()),
    }
}

/// Eight hexadecimal digits.
pub fn read_word(text: &str) -> Option<u32> {
    let digits = text.len() == 8 && text.bytes().all(|b| b.is_ascii_hexdigit());
    digits.then(|| u32::from_str_radix(text, 16).ok()).flatten()
}

pub fn bytes(bytes: &[u8]) -> String {
    bytes.iter().map(|b| format!("{b:02x}")).collect()
}

pub fn read_bytes(text: &str) -> Option<Vec<u8>> {
    if !text.is_ascii() || text.len() % 2 != 0 {
        return None;
    }
    (0..text.len() / 2)
        .map(|k| &text[2 * k..2 * k + 2])
        .map(|two| {
            u8::from_str_radix(two, 16)
                .ok()
                .filter(|_| !two.starts_with('+'))
        })
        .collect()
}

#[cfg(test)]
mod tests {
    use super::*;

    #[test]
    fn floats_read_back() {
        let mut bits = 1u32;
        for k in 0..200_000u32 {
            bits = bits.wrapping_mul(1_664_525).wrapping_add(1_013_904_223);
            let x = f32::from_bits(if k % 4 == 0 { bits | 0x7f80_0000 } else { bits });
            let read = read_float(&float(x)).map(f32::to_bits);
            assert_eq!(read, Some(x.to_bits()), "{}", float(x));
        }
        assert_eq!(float(1.0), "1");
        assert_eq!(float(-0.0), "-0");
        assert_eq!(float(0.1), "0.1");
        assert_eq!(float(f32::from_bits(0x7fc0_0001)), "nan:7fc00001");
        assert_eq!(float(f32::NEG_INFINITY), "-inf");
        assert_eq!(read_float("nan"), None);
        assert_eq!(read_float("nan:3f800000"), None);
    }

    #[test]
    fn bytes_and_beds_read_back() {
        let all: Vec<u8> = (0..=255).collect();
        assert_eq!(read_bytes(&bytes(&all)), Some(all.clone()));
        assert_eq!(read_beds(&beds(&all)), Some(all));
        assert_eq!(read_bytes("0"), None);
        assert_eq!(read_bytes("+1"), None);
        assert_eq!(read_beds("FC,XX"), None);
        assert_eq!(read_word("+3f80000"), None);
    }
}
