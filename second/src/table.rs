//! The table as frames: "Frames of 12 bytes: kind, flag, then five 16-bit
//! numbers a, b, c, d, e, high byte first. Frames count from 0, ids from 0
//! within a kind."

/// "Frames of 12 bytes".
pub const FRAME_BYTES: usize = 12;
/// "At most 4,096 frames".
pub const MOST_FRAMES: usize = 4096;
/// "FFFF means none, only where shown."
pub const NONE: u16 = 0xFFFF;

/// The kind bytes of the document's first table.
pub mod kind {
    pub const ELEMENT: u8 = 0x01;
    pub const EVENT_INPUT: u8 = 0x02;
    pub const EVENT_OUTPUT: u8 = 0x03;
    pub const VARIABLE: u8 = 0x04;
    pub const ASSOCIATION: u8 = 0x05;
    pub const STATE: u8 = 0x06;
    pub const TRANSITION: u8 = 0x07;
    pub const ACTION: u8 = 0x08;
    pub const STEP: u8 = 0x09;
    pub const EVENT_CONNECTION: u8 = 0x0A;
    pub const DATA_CONNECTION: u8 = 0x0B;
    pub const LAST: u8 = DATA_CONNECTION;
}

/// The flags of kind 01.
pub mod element_flag {
    pub const BASIC: u8 = 0;
    pub const INTERFACE: u8 = 1;
    pub const DELAY: u8 = 2;
    pub const SOURCE: u8 = 3;
    pub const SINK: u8 = 4;
}

/// The flags of kind 04; those of kind 05 are the first two of them.
pub mod role {
    pub const INPUT: u8 = 0;
    pub const OUTPUT: u8 = 1;
    pub const INTERNAL: u8 = 2;
}

/// The flags of kind 09.
pub mod operation {
    pub const COPY: u8 = 0;
    pub const ADD: u8 = 1;
    pub const SUBTRACT: u8 = 2;
    pub const NEGATE: u8 = 3;
    pub const MULTIPLY: u8 = 4;
    pub const DIVIDE: u8 = 5;
    pub const MINIMUM: u8 = 6;
    pub const MAXIMUM: u8 = 7;
    pub const AGE: u8 = 8;
}

/// One frame, of any kind byte.
#[derive(Clone, Copy, PartialEq, Eq, Debug)]
pub struct Frame {
    pub kind: u8,
    pub flag: u8,
    pub fields: [u16; 5],
}

impl Frame {
    /// A frame whose fields after those given are zero.
    pub fn new(kind: u8, flag: u8, leading: &[u16]) -> Frame {
        let mut fields = [0; 5];
        fields[..leading.len()].copy_from_slice(leading);
        Frame { kind, flag, fields }
    }

    pub fn from_bytes(bytes: &[u8; FRAME_BYTES]) -> Frame {
        let field = |k: usize| u16::from_be_bytes([bytes[2 + 2 * k], bytes[3 + 2 * k]]);
        Frame {
            kind: bytes[0],
            flag: bytes[1],
            fields: [field(0), field(1), field(2), field(3), field(4)],
        }
    }

    pub fn to_bytes(self) -> [u8; FRAME_BYTES] {
        let mut bytes = [0; FRAME_BYTES];
        bytes[0] = self.kind;
        bytes[1] = self.flag;
        for (pair, field) in bytes[2..].chunks_exact_mut(2).zip(self.fields) {
            pair.copy_from_slice(&field.to_be_bytes());
        }
        bytes
    }

    pub fn a(&self) -> u16 {
        self.fields[0]
    }
    pub fn b(&self) -> u16 {
        self.fields[1]
    }
    pub fn c(&self) -> u16 {
        self.fields[2]
    }
    pub fn d(&self) -> u16 {
        self.fields[3]
    }
    pub fn e(&self) -> u16 {
        self.fields[4]
    }

    /// The 32-bit number whose high half is field `high` (0 for a) and whose
    /// low half is the field after it.
    pub fn long(&self, high: usize) -> u32 {
        u32::from(self.fields[high]) << 16 | u32::from(self.fields[high + 1])
    }
}

/// The two halves of a 32-bit number, "high first".
pub fn halves(number: u32) -> [u16; 2] {
    [(number >> 16) as u16, (number & 0xFFFF) as u16]
}

/// A table cut into frames, with the positions of the frames of each kind:
/// "frames are counted by their kind byte, also in a table with other faults".
pub struct Frames {
    all: Vec<Frame>,
    positions: [Vec<usize>; kind::LAST as usize + 1],
}

impl Frames {
    /// `None` is refusal 1: "length is 0, no multiple of 12, or above 49,152".
    pub fn cut(table: &[u8]) -> Option<Frames> {
        let (pieces, rest) = table.as_chunks::<FRAME_BYTES>();
        if pieces.is_empty() || !rest.is_empty() || pieces.len() > MOST_FRAMES {
            return None;
        }
        let all: Vec<Frame> = pieces.iter().map(Frame::from_bytes).collect();
        let mut positions: [Vec<usize>; kind::LAST as usize + 1] = Default::default();
        for (position, frame) in all.iter().enumerate() {
            if let Some(list) = positions.get_mut(usize::from(frame.kind)) {
                list.push(position);
            }
        }
        Some(Frames { all, positions })
    }

    pub fn all(&self) -> &[Frame] {
        &self.all
    }

    /// The positions of the frames of one kind; none for an unknown kind.
    pub fn positions(&self, kind: u8) -> &[usize] {
        self.positions.get(usize::from(kind)).map_or(&[], |list| list)
    }

    pub fn count(&self, kind: u8) -> usize {
        self.positions(kind).len()
    }

    /// The frames of one kind in the order of their ids.
    pub fn of(&self, kind: u8) -> impl Iterator<Item = &Frame> {
        self.positions(kind).iter().map(|&p| &self.all[p])
    }

    /// The frame with this id within its kind, if "the id exists".
    pub fn get(&self, kind: u8, id: u16) -> Option<&Frame> {
        self.positions(kind).get(usize::from(id)).map(|&p| &self.all[p])
    }

    /// The element number that an event, a variable or a state names as its
    /// own, if the event, variable or state exists.
    ///
    /// Open point: in a table out of order a frame can refer to a later frame
    /// whose element does not exist. "Of one element" is then judged by the
    /// numbers alone; the missing element is the later frame's own fault.
    pub fn owner(&self, kind: u8, id: u16) -> Option<u16> {
        self.get(kind, id).map(Frame::a)
    }
}
