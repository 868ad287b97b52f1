//! Whole TIFF files for the tests, in either byte order, and what reading them is charged.

use chelmesut::{ByteOrder, Limits, BLOCK_LEN};

pub const BOTH: [ByteOrder; 2] = [ByteOrder::Little, ByteOrder::Big];

/// What lent buffers hold before a call.
pub const STALE: u8 = 0xA5;

/// Enough units for every file here.
pub const PLENTY: u64 = 1_000_000;

/// Limits that no file here reaches.
pub const WIDE: Limits = Limits {
    max_input: 1 << 24,
    max_output: 1 << 20,
    max_dimension: 1 << 14,
    max_directories: 4,
    max_tags: 64,
    max_segments: 1000,
};

/// The packets of rule 10.1: two pixels, one run for each plane.
pub const CASE_1: [u8; 8] = [0x80, 0x07, 0x80, 0x01, 0x80, 0x02, 0x80, 0x03];

/// One pixel of rule 10.1.
pub const PIXEL_1: [u8; 6] = [0x01, 0x07, 0xC7, 0x00, 0x17, 0x01];

/// A head of the camera (rule 3.9): what its pages say in tags 262 and 277, the planes of a row, and
/// the bytes of a pixel.
#[derive(Clone, Copy, Debug, PartialEq)]
pub struct Head {
    pub photometric: u16,
    pub samples: u16,
    pub planes: usize,
    pub pixel: usize,
}

pub const COLOUR: Head = Head {
    photometric: 32845,
    samples: 3,
    planes: 4,
    pixel: 6,
};

pub const MONOCHROME: Head = Head {
    photometric: 32844,
    samples: 1,
    planes: 2,
    pixel: 2,
};

/// Both heads in both byte orders.
pub fn heads_and_orders() -> Vec<(Head, ByteOrder)> {
    let with_orders = |head| BOTH.map(|order| (head, order));
    [COLOUR, MONOCHROME]
        .into_iter()
        .flat_map(with_orders)
        .collect()
}

impl Head {
    /// The scratch that a block needs.
    pub fn scratch(&self, width: u64, rows: u64) -> usize {
        (self.planes + self.pixel) * (width * rows) as usize
    }

    /// What a segment is charged.
    pub fn fee(&self, stored: usize, width: u64, rows: u64) -> u64 {
        let each = if self.samples == 3 { 20 } else { 8 };
        stored as u64 + each * width * rows + 1
    }
}

/// The entries of a directory of strips here, and what it charges.
pub const ENTRIES: u64 = 10;
pub const DIRECTORY: u64 = ENTRIES + 1;

/// What the profile charges.
pub const PROFILE: u64 = 128;

/// How a picture is cut into segments.
enum Cut {
    Strips { rows: u16 },
    Tiles { width: u16, height: u16 },
}

/// The segments' offsets or their counts, as an entry has them (rules 2.12 and 2.13).
enum Values {
    /// A single one of four bytes, in the field.
    Long(usize),
    /// Two of two bytes, in the field.
    Shorts([usize; 2]),
    /// So many of four bytes, from a place on.
    LongsAt(usize, usize),
}

/// The directory of a picture.
struct Directory {
    head: Head,
    width: u16,
    height: u16,
    cut: Cut,
    offsets: Values,
    counts: Values,
}

/// Bytes of a file whose numbers are in an order.
struct Bytes {
    order: ByteOrder,
    bytes: Vec<u8>,
}

impl Bytes {
    /// A header, with the place of the first directory.
    fn new(order: ByteOrder, directory: usize) -> Bytes {
        let mut file = Bytes {
            order,
            bytes: Vec::new(),
        };
        file.bytes.extend(match order {
            ByteOrder::Little => *b"II",
            ByteOrder::Big => *b"MM",
        });
        file.put2(42);
        file.put4(directory as u32);
        file
    }

    fn put2(&mut self, value: u16) {
        match self.order {
            ByteOrder::Little => self.bytes.extend(value.to_le_bytes()),
            ByteOrder::Big => self.bytes.extend(value.to_be_bytes()),
        }
    }

    fn put4(&mut self, value: u32) {
        match self.order {
            ByteOrder::Little => self.bytes.extend(value.to_le_bytes()),
            ByteOrder::Big => self.bytes.extend(value.to_be_bytes()),
        }
    }

    /// An entry whose field is a number of four bytes.
    fn entry4(&mut self, tag: u16, kind: u16, count: usize, field: usize) {
        self.put2(tag);
        self.put2(kind);
        self.put4(count as u32);
        self.put4(field as u32);
    }

    /// An entry with a single value of two bytes, left-justified in its field.
    fn entry2(&mut self, tag: u16, value: u16) {
        self.put2(tag);
        self.put2(3);
        self.put4(1);
        self.put2(value);
        self.put2(0);
    }

    /// An entry with the same value of two bytes for each sample: one alone in the field, or three
    /// from a place on.
    fn entry_for_each(&mut self, tag: u16, head: Head, value: u16, place: usize) {
        match head.samples {
            1 => self.entry2(tag, value),
            samples => self.entry4(tag, 3, samples.into(), place),
        }
    }

    fn entry_of(&mut self, tag: u16, values: &Values) {
        match *values {
            Values::Long(value) => self.entry4(tag, 4, 1, value),
            Values::LongsAt(count, place) => self.entry4(tag, 4, count, place),
            Values::Shorts(values) => {
                self.put2(tag);
                self.put2(3);
                self.put4(2);
                for value in values {
                    self.put2(value as u16);
                }
            }
        }
    }

    /// A directory, and behind it bits and formats, three each. A monochrome picture has its single
    /// ones in the entries, and these are not its own.
    fn directory(&mut self, of: &Directory) {
        let entries = match of.cut {
            Cut::Strips { .. } => ENTRIES,
            Cut::Tiles { .. } => ENTRIES + 1,
        };
        let arrays = self.bytes.len() + 2 + 12 * entries as usize + 4;
        self.put2(entries as u16);
        self.entry2(256, of.width);
        self.entry2(257, of.height);
        self.entry_for_each(258, of.head, 16, arrays);
        self.entry2(259, 34676);
        self.entry2(262, of.head.photometric);
        match of.cut {
            Cut::Strips { rows } => {
                self.entry_of(273, &of.offsets);
                self.entry2(277, of.head.samples);
                self.entry2(278, rows);
                self.entry_of(279, &of.counts);
            }
            Cut::Tiles { width, height } => {
                self.entry2(277, of.head.samples);
                self.entry2(322, width);
                self.entry2(323, height);
                self.entry_of(324, &of.offsets);
                self.entry_of(325, &of.counts);
            }
        }
        self.entry_for_each(339, of.head, 2, arrays + 6);
        self.put4(0);
        for value in [16, 16, 16, 2, 2, 2] {
            self.put2(value);
        }
    }

    fn pad_to(&mut self, multiple: usize) {
        let len = self.bytes.len().next_multiple_of(multiple);
        self.bytes.resize(len, 0);
    }
}

/// A picture in strips. Every strip begins at a multiple of `align`.
pub struct Picture<'a> {
    pub head: Head,
    pub order: ByteOrder,
    pub width: u16,
    pub height: u16,
    pub rows_per_strip: u16,
    pub strips: &'a [Vec<u8>],
    pub align: usize,
}

impl Picture<'_> {
    /// The file: header, directory, arrays, then the strips.
    pub fn file(&self) -> Vec<u8> {
        let count = self.strips.len();
        let offsets = 8 + 2 + 12 * ENTRIES as usize + 4 + 12;
        let counts = offsets + 4 * count;
        let mut places = Vec::new();
        let mut place = (counts + 4 * count).next_multiple_of(self.align);
        for strip in self.strips {
            places.push(place);
            place = (place + strip.len()).next_multiple_of(self.align);
        }
        let values = |first, array| match count {
            1 => Values::Long(first),
            _ => Values::LongsAt(count, array),
        };
        let mut file = Bytes::new(self.order, 8);
        file.directory(&Directory {
            head: self.head,
            width: self.width,
            height: self.height,
            cut: Cut::Strips {
                rows: self.rows_per_strip,
            },
            offsets: values(places[0], offsets),
            counts: values(self.strips[0].len(), counts),
        });
        for place in &places {
            file.put4(*place as u32);
        }
        for strip in self.strips {
            file.put4(strip.len() as u32);
        }
        for strip in self.strips {
            file.pad_to(self.align);
            file.bytes.extend(strip);
        }
        file.bytes
    }
}

/// A picture of two segments, one above the other, or of two tiles beside each other. Its offsets and
/// counts stand in the fields of their entries or in arrays. Blocks 0 and 1 have the segments, behind
/// the header and alone; block 2 has the directory, and block 3 the arrays.
pub struct Pair {
    pub head: Head,
    pub order: ByteOrder,
    pub tiled: bool,
    pub beside: bool,
    pub inline_offsets: bool,
    pub inline_counts: bool,
    /// What the file says of the segments' places.
    pub offsets: [usize; 2],
    pub stored: [Vec<u8>; 2],
}

impl Pair {
    pub const WIDTH: u16 = 16;

    pub fn new(
        head: Head,
        order: ByteOrder,
        tiled: bool,
        inline_offsets: bool,
        inline_counts: bool,
    ) -> Pair {
        let mut pair = Pair {
            head,
            order,
            tiled,
            beside: false,
            inline_offsets,
            inline_counts,
            offsets: [BLOCK_LEN; 2],
            stored: [Vec::new(), Vec::new()],
        };
        let segment = |bytes: [u8; 4]| {
            let bytes = &bytes[..head.planes];
            flat_strip(Pair::WIDTH as u8, pair.rows() as usize, bytes)
        };
        pair.stored = [segment([7, 1, 2, 3]), segment([8, 9, 0, 255])];
        let near = pair.near();
        pair.offsets[near] = 8;
        // An empty literal, so that the counts differ.
        pair.stored[1 - near].push(0);
        pair
    }

    /// The segment in block 0: the one whose offset and count are the higher halves of the fields.
    pub fn near(&self) -> usize {
        match self.order {
            ByteOrder::Little => 1,
            ByteOrder::Big => 0,
        }
    }

    /// The rows of a segment.
    pub fn rows(&self) -> u16 {
        if self.tiled {
            16
        } else {
            1
        }
    }

    fn counts(&self) -> [usize; 2] {
        [self.stored[0].len(), self.stored[1].len()]
    }

    /// What the fields with two values would be as places.
    pub fn places(&self) -> Vec<usize> {
        let near = self.near();
        let place = |values: [usize; 2]| 65536 * values[near] + values[1 - near];
        let mut places = Vec::new();
        if self.inline_offsets {
            places.push(place(self.offsets));
        }
        if self.inline_counts {
            places.push(place(self.counts()));
        }
        places
    }

    pub fn file(&self) -> Vec<u8> {
        let arrays = 3 * BLOCK_LEN;
        let (width, rows) = (Pair::WIDTH, self.rows());
        let values = |inline, pair, place| match inline {
            true => Values::Shorts(pair),
            false => Values::LongsAt(2, place),
        };
        let mut file = Bytes::new(self.order, 2 * BLOCK_LEN);
        for segment in [self.near(), 1 - self.near()] {
            file.bytes.extend(&self.stored[segment]);
            file.pad_to(BLOCK_LEN);
        }
        file.directory(&Directory {
            head: self.head,
            width: if self.beside { 2 * width } else { width },
            height: if self.beside { rows } else { 2 * rows },
            cut: match self.tiled {
                true => Cut::Tiles {
                    width,
                    height: rows,
                },
                false => Cut::Strips { rows },
            },
            offsets: values(self.inline_offsets, self.offsets, arrays),
            counts: values(self.inline_counts, self.counts(), arrays + 8),
        });
        file.pad_to(BLOCK_LEN);
        for (inline, pair) in [
            (self.inline_offsets, self.offsets),
            (self.inline_counts, self.counts()),
        ] {
            for value in pair {
                file.put4(if inline { u32::MAX } else { value as u32 });
            }
        }
        file.bytes
    }
}

/// A file of two pixels with these packets, such as those of rule 10.1.
pub fn two_pixels(order: ByteOrder, packets: &[u8]) -> Vec<u8> {
    two_pixels_of(COLOUR, order, packets)
}

/// The same of either head.
pub fn two_pixels_of(head: Head, order: ByteOrder, packets: &[u8]) -> Vec<u8> {
    Picture {
        head,
        order,
        width: 2,
        height: 1,
        rows_per_strip: 1,
        strips: &[packets.to_vec()],
        align: 1,
    }
    .file()
}

/// A strip whose pixels all have these stored bytes: a run for each plane of each row.
pub fn flat_strip(width: u8, rows: usize, planes: &[u8]) -> Vec<u8> {
    let run = |byte: &u8| [width + 126, *byte];
    let row: Vec<u8> = planes.iter().flat_map(run).collect();
    row.repeat(rows)
}

/// A file of 7 by 5 pixels in strips of 2, 2 and 1 rows.
pub fn three_strips(order: ByteOrder) -> Vec<u8> {
    let strips = [
        flat_strip(7, 2, &[1, 2, 3, 4]),
        flat_strip(7, 2, &[5, 6, 7, 8]),
        flat_strip(7, 1, &[9, 10, 11, 12]),
    ];
    Picture {
        head: COLOUR,
        order,
        width: 7,
        height: 5,
        rows_per_strip: 2,
        strips: &strips,
        align: 1,
    }
    .file()
}

/// What a segment of a colour picture is charged.
pub fn fee(stored: usize, width: u64, rows: u64) -> u64 {
    COLOUR.fee(stored, width, rows)
}

/// What is left of `granted` units after these charges, taken in order up to the first that cannot
/// be met.
pub fn left_after(granted: u64, charges: &[u64]) -> u64 {
    let mut left = granted;
    for charge in charges {
        if left < *charge {
            break;
        }
        left -= charge;
    }
    left
}

/// CRC-32, as libtiff's pixels are recorded.
pub fn crc32(bytes: &[u8]) -> u32 {
    let mut crc = !0u32;
    for byte in bytes {
        crc ^= u32::from(*byte);
        for _ in 0..8 {
            crc = (crc >> 1) ^ (0xEDB8_8320 & (crc & 1).wrapping_neg());
        }
    }
    !crc
}
