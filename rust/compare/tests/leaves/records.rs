//! Metadata records against an independent reading of the same bytes: a cursor that goes forward
//! record by record. 2,000,000 lists: drawn ones, and drawn ones with up to three bytes changed, a
//! record dropped, doubled or swapped, or the end cut off. The refusal of each is compared; of one
//! in four that are laid out also every field of every record but the bed codes, and the order of
//! the updates.
//! And 138 lists with literal answers, sentence by sentence of documents 01 and 02 (`records.txt`).

use compare::probe::records;
use compare::records::read::{Update, read};
use compare::{Generator, drawn};
use oracle::frame::DEPTHS;

const LISTS: usize = 2_000_000;

// ---- drawn lists

fn draw_object(inputs: &mut Generator, rare: bool) -> [u8; 40] {
    let mut r = [0; 40];
    let flags = inputs.below(64) as u8;
    r[0] = 4;
    r[1] = inputs.below(3) as u8;
    r[2] = flags;
    let gain = if rare {
        inputs.float()
    } else {
        inputs.between(0.0, 8.0)
    };
    let size = if rare {
        inputs.float()
    } else {
        inputs.between(0.0, 1.0)
    };
    let mut put = |bit: u8, at: usize, value: f32| {
        if bit == 0 || flags & bit != 0 {
            r[at..at + 4].copy_from_slice(&value.to_le_bytes());
        }
    };
    put(4, 4, gain);
    for at in [8, 12, 16] {
        put(8, at, inputs.float());
    }
    put(16, 20, inputs.float());
    put(32, 24, size);
    put(0, 28, inputs.float());
    let depth = if rare {
        inputs.float()
    } else {
        inputs.pick(&DEPTHS)
    };
    put(0, 32, depth);
    let send = if rare {
        inputs.float()
    } else {
        inputs.pick(&[0.0, -0.0, 1.0, 0.5, 1e-45])
    };
    put(0, 36, send);
    r
}

fn draw_number(inputs: &mut Generator) -> i64 {
    let edges = [0, 1, -1, 1_048_576, -1_048_576];
    if inputs.chance(2) {
        inputs.pick(&edges)
    } else {
        inputs.below(2_097_153) as i64 - 1_048_576
    }
}

fn draw_update(inputs: &mut Generator, list: &mut Vec<u8>) {
    let mut r = [0; 40];
    let objects = inputs.below(4) as u8 * inputs.pick(&[1, 1, 1, 8]);
    let beds = inputs.below(u64::from(objects.min(18)) + 1) as u8;
    r[0] = 1;
    let offset = inputs.below(5) as u16 * inputs.pick(&[0, 64, 300]);
    r[2..4].copy_from_slice(&offset.to_le_bytes());
    r[4] = objects;
    r[5] = objects.saturating_sub(16).max(inputs.pick(&[0, beds, 255]));
    r[6] = beds;
    r[7] = inputs.below(3) as u8;
    for code in &mut r[8..8 + usize::from(beds)] {
        *code = inputs.below(18) as u8;
    }
    list.extend(r);
    for _ in 0..r[7] {
        let blocks = inputs.below(3) as u8 * inputs.pick(&[1, 1, 4]);
        let mut e = [0; 40];
        (e[0], e[1]) = (2, blocks);
        list.extend(e);
        for _ in 0..blocks {
            let mut b = [0; 40];
            b[0] = 3;
            b[8..16].copy_from_slice(&draw_number(inputs).to_le_bytes());
            b[16..24].copy_from_slice(&draw_number(inputs).to_le_bytes());
            list.extend(b);
        }
        for _ in 0..u16::from(objects) * u16::from(blocks) {
            let rare = inputs.chance(500);
            list.extend(draw_object(inputs, rare));
        }
    }
}

fn damage(inputs: &mut Generator, list: &mut Vec<u8>) {
    let records = list.len() / 40;
    let any = |inputs: &mut Generator| 40 * inputs.below(records as u64) as usize;
    match inputs.below(8) {
        0 => list.truncate(inputs.below(list.len() as u64 + 1) as usize),
        1 => {
            let at = any(inputs);
            list.drain(at..at + 40);
        }
        2 => {
            let at = any(inputs);
            list.extend_from_within(at..at + 40);
        }
        3 => {
            let (a, b) = (any(inputs), any(inputs));
            for k in 0..40 {
                list.swap(a + k, b + k);
            }
        }
        _ => {
            for _ in 0..1 + inputs.below(3) {
                let at = any(inputs) + inputs.below(40) as usize;
                list[at] = if inputs.chance(2) {
                    inputs.bits() as u8
                } else {
                    list[at] ^ 1 << inputs.below(8)
                };
            }
        }
    }
}

fn draw(inputs: &mut Generator) -> Vec<u8> {
    let mut list = Vec::new();
    let updates = if inputs.chance(50) {
        15 + inputs.below(3)
    } else {
        inputs.below(4)
    };
    for _ in 0..updates {
        draw_update(inputs, &mut list);
    }
    if !list.is_empty() && !inputs.chance(3) {
        damage(inputs, &mut list);
    }
    list
}

// ---- the comparison

/// Every field of every record but the bed codes, by place.
fn same_meaning(list: &[u8], updates: &[Update]) {
    assert_eq!(records::updates(list), updates.len());
    for (i, update) in updates.iter().enumerate() {
        let u = records::update_place(list, i);
        assert_eq!(u, update.place);
        assert_eq!(records::header(list, u), update.header);
        let mut e = u + 1;
        for element in &update.elements {
            assert_eq!(e, element.place);
            assert_eq!(records::blocks(list, e), element.blocks.len());
            for (b, &block) in element.blocks.iter().enumerate() {
                assert_eq!(records::block(list, e + 1 + b), block);
            }
            for (o, object) in element.objects.iter().enumerate() {
                for (b, &(place, info)) in object.iter().enumerate() {
                    assert_eq!(records::object_place(list, e, o, b), place);
                    assert_eq!(records::info(list, place), info);
                }
            }
            e = records::element_after(list, update.header.objects, e);
            assert_eq!(e, element.end);
        }
    }
}

/// The updates as the Rust sorts them, at or past the end dropped but for offset 0, against the
/// walk from time to time.
fn same_order(list: &[u8], updates: &[Update], samples: u32) {
    let mut sorted: Vec<usize> = (0..updates.len()).collect();
    sorted.sort_by_key(|&i| updates[i].header.offset);
    sorted.retain(|&i| updates[i].header.offset == 0 || updates[i].header.offset < samples);
    let mut walked = Vec::new();
    let mut t = 0;
    while t == 0 || t < samples {
        let mut from = 0;
        loop {
            let i = records::sent_at(list, t, from);
            if i == updates.len() {
                break;
            }
            walked.push(i);
            from = i + 1;
        }
        t = records::next_offset(list, t, samples.max(1));
    }
    assert_eq!(walked, sorted);
}

#[test]
fn records_as_an_independent_reading_has_them() {
    let mut inputs = drawn!(6);
    let mut answers = [0u64; 7];
    for _ in 0..LISTS {
        let list = draw(&mut inputs);
        let reading = read(&list);
        let expected = reading.as_ref().map_or(5, |reading| reading.1);
        assert_eq!(records::refusal(&list), expected, "{list:02x?}");
        answers[expected as usize] += 1;
        if let Ok((updates, _)) = reading
            && inputs.chance(4)
        {
            let samples = inputs.below(1_537) as u32;
            same_meaning(&list, &updates);
            same_order(&list, &updates, samples);
        }
    }
    println!(
        "accepted {}, refused 5: {}, refused 6: {}",
        answers[0], answers[5], answers[6]
    );
    assert!(answers[0] > 100_000 && answers[5] > 100_000 && answers[6] > 10_000);
}

// ---- the documents' format, sentence by sentence

/// The bytes of a list in hexadecimal; `/` fills up a record of 40.
fn bytes(text: &str) -> Vec<u8> {
    let mut list = Vec::new();
    for word in text.split_whitespace() {
        if word == "/" {
            list.resize(list.len().next_multiple_of(40), 0);
            continue;
        }
        assert!(word.len().is_multiple_of(2), "{word}");
        for at in (0..word.len()).step_by(2) {
            list.push(u8::from_str_radix(&word[at..at + 2], 16).unwrap());
        }
    }
    list
}

#[test]
fn records_as_the_documents_have_them() {
    let lines = include_str!("records.txt").lines();
    let mut answers = [0; 7];
    for line in lines.filter(|line| !line.starts_with('#')) {
        let (answer, text) = line.split_once(':').unwrap();
        let answer = answer.parse().unwrap();
        let list = bytes(text);
        assert_eq!(records::refusal(&list), answer, "{line}");
        let reading = read(&list).as_ref().map_or(5, |reading| reading.1);
        assert_eq!(reading, answer, "the reading: {line}");
        answers[answer as usize] += 1;
    }
    assert_eq!((answers[0], answers[5], answers[6]), (50, 55, 33));
}
