//! What stays alike from update to update, and how it changes.

use crate::Generator;

/// What stays alike from update to update, so that sources and elements are kept.
#[derive(Clone)]
pub struct Layout {
    pub beds: Vec<u8>,
    pub objects: u8,
    pub bed_or_isf_objects: u8,
    /// Blocks of each element.
    pub blocks: Vec<u64>,
}

impl Layout {
    pub fn dynamic(&self) -> usize {
        self.objects.saturating_sub(self.bed_or_isf_objects).into()
    }

    /// Metadata records of an update.
    pub fn records(&self) -> u64 {
        let objects = u64::from(self.objects);
        1 + self.blocks.iter().map(|b| 1 + b + b * objects).sum::<u64>()
    }
}

/// Mostly small, one time in twelve up to the limits.
pub fn layout(inputs: &mut Generator) -> Layout {
    let large = inputs.chance(12);
    layout_up_to(inputs, if large { [18, 16, 8] } else { [4, 3, 3] })
}

/// Up to so many beds, dynamic objects and blocks.
pub fn layout_up_to(
    inputs: &mut Generator,
    [most_beds, most_dynamic, most_blocks]: [u64; 3],
) -> Layout {
    let beds: Vec<u8> = (0..inputs.below(most_beds + 1))
        .map(|_| match inputs.below(18) as u8 {
            6 if !inputs.chance(8) => 2,
            code => code,
        })
        .collect();
    let dynamic = inputs.below(most_dynamic + 1).min(32 - beds.len() as u64) as u8;
    let mut objects = beds.len() as u8 + dynamic;
    let mut bed_or_isf_objects = beds.len() as u8;
    match inputs.below(20) {
        // Objects that are neither beds nor dynamic.
        0 if objects < 30 => {
            objects += 2;
            bed_or_isf_objects += 2;
        }
        // Dynamic objects among those of the beds.
        1 => bed_or_isf_objects = objects.saturating_sub(16).max(bed_or_isf_objects / 2),
        2 => bed_or_isf_objects = 255,
        _ => {}
    }
    Layout {
        beds,
        objects,
        bed_or_isf_objects,
        blocks: (0..inputs.below(3))
            .map(|_| inputs.below(most_blocks + 1))
            .collect(),
    }
}

/// Another layout; often with as many objects as before, so that elements are kept.
pub fn changed(inputs: &mut Generator, old: &Layout) -> Layout {
    if inputs.chance(2) {
        return layout(inputs);
    }
    let least = u64::from(old.objects.saturating_sub(16));
    let isf = least + inputs.below(u64::from(old.objects) + 1 - least);
    Layout {
        bed_or_isf_objects: isf as u8,
        ..old.clone()
    }
}

/// Of as many objects one more or one less is dynamic, often with its bed channel, and now and then
/// with other blocks in the first element. One time in eight one object more that is not dynamic, or
/// `bed_or_isf_objects` at or above the objects.
pub fn lifted(inputs: &mut Generator, old: &Layout) -> Layout {
    let mut new = old.clone();
    let isf = old.bed_or_isf_objects.min(old.objects);
    match inputs.below(16) {
        0 if old.objects < 32 => {
            new.objects += 1;
            new.bed_or_isf_objects = old.bed_or_isf_objects.saturating_add(1);
        }
        1 => new.bed_or_isf_objects = old.objects + inputs.below(4) as u8,
        2..9 if isf > 0 && old.dynamic() < 16 => {
            new.bed_or_isf_objects = isf - 1;
            if inputs.chance(2) {
                new.beds.pop();
            }
        }
        _ if isf < old.objects => {
            new.bed_or_isf_objects = isf + 1;
            if inputs.chance(2) && new.beds.len() < usize::from(old.objects.min(18)) {
                new.beds.push(inputs.pick(&[0, 1, 2, 3, 4, 9, 15, 17]));
            }
        }
        _ => {}
    }
    if let Some(blocks) = new.blocks.first_mut()
        && inputs.chance(8)
    {
        *blocks = *blocks % 3 + 1;
    }
    new
}
