// SPDX-License-Identifier: Apache-2.0
//! The order of records: an update; for each of its elements the element's record, its blocks, then
//! for each object all blocks.

use super::Record;
use core::fmt;

/// What a record belongs to, each counted from 0.
#[derive(Clone, Copy, Debug, PartialEq, Eq)]
#[allow(missing_docs)]
pub enum Place {
    /// An update of the frame.
    Update { update: usize },
    /// An element of an update.
    Element { update: usize, element: usize },
    /// A block of an element.
    Block {
        update: usize,
        element: usize,
        block: usize,
    },
    /// An object in a block.
    Object {
        update: usize,
        element: usize,
        object: usize,
        block: usize,
    },
}

/// What the present update and element announce.
#[derive(Clone, Copy, Debug)]
pub(super) struct Counts {
    objects: usize,
    elements: usize,
    blocks: usize,
}

impl Counts {
    pub(super) const NONE: Self = Self {
        objects: 0,
        elements: 0,
        blocks: 0,
    };

    pub(super) fn note(&mut self, record: &Record<'_>) {
        match *record {
            Record::Update {
                objects, elements, ..
            } => {
                (self.objects, self.elements) = (objects.into(), elements.into());
            }
            Record::Element { blocks } => self.blocks = blocks.into(),
            Record::Block(_) | Record::Object(_) => {}
        }
    }
}

impl Place {
    pub(super) const FIRST: Self = Self::Update { update: 0 };

    /// The kind of a record at this place; for an update 9 will do, too.
    pub const fn kind(self) -> u8 {
        match self {
            Self::Update { .. } => 1,
            Self::Element { .. } => 2,
            Self::Block { .. } => 3,
            Self::Object { .. } => 4,
        }
    }

    /// The place of the record behind this one.
    pub(super) fn next(self, counts: &Counts) -> Self {
        let below = |n: usize, count: usize| Some(n.saturating_add(1)).filter(|&n| n < count);
        match self {
            Self::Update { update } => Self::element(update, 0, counts),
            Self::Element { update, element } if counts.blocks > 0 => Self::Block {
                update,
                element,
                block: 0,
            },
            Self::Block {
                update,
                element,
                block,
            } => match below(block, counts.blocks) {
                Some(block) => Self::Block {
                    update,
                    element,
                    block,
                },
                None => Self::object(update, element, 0, counts),
            },
            Self::Object {
                update,
                element,
                object,
                block,
            } => match below(block, counts.blocks) {
                Some(block) => Self::Object {
                    update,
                    element,
                    object,
                    block,
                },
                None => Self::object(update, element, object.saturating_add(1), counts),
            },
            Self::Element { update, element } => {
                Self::element(update, element.saturating_add(1), counts)
            }
        }
    }

    /// The object's first block, or what follows where there is no such object.
    fn object(update: usize, element: usize, object: usize, counts: &Counts) -> Self {
        if object < counts.objects {
            Self::Object {
                update,
                element,
                object,
                block: 0,
            }
        } else {
            Self::element(update, element.saturating_add(1), counts)
        }
    }

    /// The element, or the next update where there is no such element.
    fn element(update: usize, element: usize, counts: &Counts) -> Self {
        if element < counts.elements {
            Self::Element { update, element }
        } else {
            Self::Update {
                update: update.saturating_add(1),
            }
        }
    }
}

impl fmt::Display for Place {
    fn fmt(&self, f: &mut fmt::Formatter<'_>) -> fmt::Result {
        match *self {
            Self::Update { update } => write!(f, "update {update}"),
            Self::Element { update, element } => write!(f, "update {update}, element {element}"),
            Self::Block {
                update,
                element,
                block,
            } => write!(f, "update {update}, element {element}, block {block}"),
            Self::Object {
                update,
                element,
                object,
                block,
            } => {
                write!(
                    f,
                    "update {update}, element {element}, object {object}, block {block}"
                )
            }
        }
    }
}
