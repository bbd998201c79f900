// SPDX-License-Identifier: Apache-2.0
//! Numbers for people.

/// 29072 as 29,072.
pub fn grouped(n: u64) -> String {
    let digits = n.to_string();
    let mut text = String::new();
    for (k, digit) in digits.chars().enumerate() {
        if k > 0 && (digits.len() - k) % 3 == 0 {
            text.push(',');
        }
        text.push(digit);
    }
    text
}

/// A size relative to full scale, in dB.
pub fn level(size: f64) -> f64 {
    20.0 * size.log10()
}

/// The same for people: "-0.9 dB", or "silent".
pub fn decibels(size: f32) -> String {
    if size == 0.0 {
        "silent".to_owned()
    } else {
        format!("{:.1} dB", level(size.into()))
    }
}

/// A number and its noun, which takes an s: "1 frame", "2 frames".
pub fn counted(n: u64, noun: &str) -> String {
    format!("{} {noun}{}", grouped(n), if n == 1 { "" } else { "s" })
}

/// 62.5 s as 1:02.5.
pub fn clock(seconds: f64) -> String {
    let tenths = (seconds * 10.0) as u64;
    format!("{}:{:02}.{}", tenths / 600, tenths / 10 % 60, tenths % 10)
}

#[cfg(test)]
mod tests {
    use super::*;

    #[test]
    fn numbers_for_people() {
        assert_eq!(grouped(0), "0");
        assert_eq!(grouped(999), "999");
        assert_eq!(grouped(29_072), "29,072");
        assert_eq!(grouped(1_048_576), "1,048,576");
        assert_eq!(decibels(0.9), "-0.9 dB");
        assert_eq!(decibels(0.0), "silent");
        assert_eq!(counted(1, "frame"), "1 frame");
        assert_eq!(counted(3_750, "frame"), "3,750 frames");
        assert_eq!(clock(62.57), "1:02.5");
    }
}
