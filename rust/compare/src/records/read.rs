//! Records read by a cursor that goes forward record by record: document 01's refusals 5 and 6, with
//! document 02's send.

use super::zero;
use crate::probe::records::{Block, Header, Info};
use oracle::frame::{self, ANCHORS, DEPTHS, Object};

pub struct Update {
    pub place: usize,
    /// The record behind its last one.
    pub end: usize,
    /// It may lie far ahead: kind 9 (document 02, R-12).
    pub far: bool,
    pub header: Header,
    pub codes: Vec<usize>,
    pub elements: Vec<Element>,
}

pub struct Element {
    pub place: usize,
    pub end: usize,
    pub blocks: Vec<Block>,
    /// Object after object, each in all blocks, with its record.
    pub objects: Vec<Vec<(usize, Info)>>,
}

impl Update {
    /// In document 01's terms, at that offset.
    pub fn update(&self, offset: u16) -> frame::Update {
        frame::Update {
            offset,
            objects: self.header.objects as u8,
            bed_or_isf_objects: self.header.bed_or_isf as u8,
            beds: self.codes.iter().map(|&code| code as u8).collect(),
            elements: self.elements.iter().map(Element::element).collect(),
        }
    }
}

impl Element {
    fn element(&self) -> frame::Element {
        let block = |&Block { offset, ramp }: &Block| frame::Block { offset, ramp };
        let object =
            |blocks: &Vec<(usize, Info)>| blocks.iter().map(|(_, info)| object(info)).collect();
        frame::Element {
            blocks: self.blocks.iter().map(block).collect(),
            objects: self.objects.iter().map(object).collect(),
        }
    }
}

fn object(info: &Info) -> Object {
    let [flags, anchor, depth, _] = info.head.to_le_bytes();
    let present = |bit: u8, bits: u32| (flags & bit != 0).then_some(f32::from_bits(bits));
    Object {
        anchor: ANCHORS[usize::from(anchor)],
        position_valid: flags & 1 != 0,
        differential: flags & 2 != 0,
        gain: present(4, info.gain),
        position: (flags & 8 != 0).then_some([info.x, info.y, info.z].map(f32::from_bits)),
        distance: present(16, info.distance),
        size: present(32, info.size),
        screen: f32::from_bits(info.screen),
        depth: DEPTHS[usize::from(depth)],
        send: f32::from_bits(info.send),
    }
}

/// What stops a reading: refusal 5.
pub struct Broken;

struct Cursor<'a> {
    bytes: &'a [u8],
    place: usize,
    /// A value outside its range was met: refusal 6, unless a 5 follows.
    outside: bool,
    /// One of these was a block's offset or ramp, or a depth factor.
    unfit: bool,
}

impl<'a> Cursor<'a> {
    fn record(&mut self, kind: u8) -> Result<&'a [u8; 40], Broken> {
        let bytes = self
            .bytes
            .get(40 * self.place..40 * self.place + 40)
            .ok_or(Broken)?;
        let record: &[u8; 40] = bytes.try_into().unwrap();
        if record[0] != kind {
            return Err(Broken);
        }
        self.place += 1;
        Ok(record)
    }

    fn update(&mut self) -> Result<Update, Broken> {
        let place = self.place;
        let far = self.bytes.get(40 * place) == Some(&9);
        let r = self.record(if far { 9 } else { 1 })?;
        let half = u16::from_le_bytes([r[2], r[3]]);
        let word = u32::from_le_bytes(r[28..32].try_into().unwrap());
        // "Kind 9 is kind 1 with the offset in bytes 28 to 31, unsigned 32-bit, bytes 2 and 3 zero"
        let (offset, misplaced) = match far {
            true => (word, half != 0 || !zero(&r[32..])),
            false => (half.into(), !zero(&r[28..])),
        };
        let header = Header {
            offset,
            objects: r[4].into(),
            bed_or_isf: r[5].into(),
            beds: r[6].into(),
            elements: r[7].into(),
        };
        let dynamic = header.objects.saturating_sub(header.bed_or_isf);
        if r[1] != 0
            || misplaced
            || header.objects > 32
            || dynamic > 16
            || header.beds > 18.min(header.objects)
            || header.elements > 2
            || r[8..8 + header.beds].iter().any(|&code| code > 17)
            || !zero(&r[8 + header.beds..28])
        {
            return Err(Broken);
        }
        let codes = r[8..8 + header.beds]
            .iter()
            .map(|&code| code.into())
            .collect();
        let elements = (0..header.elements)
            .map(|_| self.element(header.objects))
            .collect::<Result<_, _>>()?;
        Ok(Update {
            place,
            end: self.place,
            far,
            header,
            codes,
            elements,
        })
    }

    fn element(&mut self, objects: usize) -> Result<Element, Broken> {
        let place = self.place;
        let r = self.record(2)?;
        let count = r[1];
        if count > 8 || !zero(&r[2..]) {
            return Err(Broken);
        }
        let blocks = (0..count).map(|_| self.block()).collect::<Result<_, _>>()?;
        let objects = (0..objects)
            .map(|_| (0..count).map(|_| self.object()).collect())
            .collect::<Result<_, _>>()?;
        Ok(Element {
            place,
            end: self.place,
            blocks,
            objects,
        })
    }

    fn block(&mut self) -> Result<Block, Broken> {
        let r = self.record(3)?;
        if !zero(&r[1..8]) || !zero(&r[24..]) {
            return Err(Broken);
        }
        let [offset, ramp] =
            [8, 16].map(|at| i64::from_le_bytes(r[at..at + 8].try_into().unwrap()));
        self.unfit |= offset.unsigned_abs() > 1_048_576 || ramp.unsigned_abs() > 1_048_576;
        Ok(Block { offset, ramp })
    }

    fn object(&mut self) -> Result<(usize, Info), Broken> {
        let place = self.place;
        let r = self.record(4)?;
        let [anchor, flags] = [r[1], r[2]];
        let absent = |bit: u8, from: usize, to: usize| flags & bit == 0 && !zero(&r[from..to]);
        if anchor > 2
            || flags > 63
            || r[3] != 0
            || absent(4, 4, 8)
            || absent(8, 8, 20)
            || absent(16, 20, 24)
            || absent(32, 24, 28)
        {
            return Err(Broken);
        }
        let word = |at: usize| u32::from_le_bytes(r[at..at + 4].try_into().unwrap());
        let float = |at: usize| f32::from_bits(word(at));
        let depth = DEPTHS.iter().position(|&factor| factor == float(32));
        let over = |at: usize, most: f32| !(0.0..=most).contains(&float(at));
        self.unfit |= depth.is_none();
        self.outside |=
            flags & 4 != 0 && over(4, 8.0) || flags & 32 != 0 && over(24, 1.0) || over(36, 1.0);
        let info = Info {
            head: u32::from(flags) | u32::from(anchor) << 8 | (depth.unwrap_or(4) as u32) << 16,
            gain: word(4),
            size: word(24),
            distance: word(20),
            screen: word(28),
            x: word(8),
            y: word(12),
            z: word(16),
            send: word(36),
        };
        Ok((place, info))
    }
}

/// The updates with refusal 0 or 6, or refusal 5.
pub fn read(bytes: &[u8]) -> Result<(Vec<Update>, u32), Broken> {
    let (updates, outside, unfit) = parsed(bytes)?;
    Ok((updates, if outside || unfit { 6 } else { 0 }))
}

/// The updates of records that wait: of kind 9, their blocks and depth factors in range, their
/// floats of any bits.
pub fn read_waiting(bytes: &[u8]) -> Option<Vec<Update>> {
    let (updates, _, unfit) = parsed(bytes).ok()?;
    let holds = !unfit && updates.iter().all(|update| update.far);
    holds.then_some(updates)
}

/// The updates, whether a value is outside its range, and whether a block's or a depth factor is.
fn parsed(bytes: &[u8]) -> Result<(Vec<Update>, bool, bool), Broken> {
    let mut cursor = Cursor {
        bytes,
        place: 0,
        outside: false,
        unfit: false,
    };
    let mut updates = Vec::new();
    while 40 * cursor.place < bytes.len() {
        if updates.len() == 16 {
            return Err(Broken);
        }
        updates.push(cursor.update()?);
    }
    Ok((updates, cursor.outside, cursor.unfit))
}
