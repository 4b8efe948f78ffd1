//! Random streams: valid, damaged, raw, at the limits, and now and then huge.

use crate::random::Random;

const SPECIAL_BYTES: [u8; 18] = [
    0x00, 0x01, 0x01, 0x02, 0x02, 0x03, 0x03, 0x04, 0x0F, 0x10, 0x20, 0x7F, 0x80, 0xBF, 0xC0, 0xC1,
    0xC2, 0xFF,
];
pub const ARRAY_SIZES: [usize; 10] = [0, 1, 62, 63, 64, 65, 255, 256, 257, 300];
const HUGE_SIZES: [usize; 4] = [65_535, 65_536, 65_537, 70_000];
const HUGE_CONTENTS: usize = 9;

/// A stream, with what its making tells of it: exact for a valid stream, a guess for
/// any other.
#[derive(Default)]
pub struct Stream {
    pub bytes: Vec<u8>,
    pub rows: usize,
    /// At top level.
    pub items: usize,
    /// Of the canonical stream.
    pub length: usize,
}

pub fn random_stream(random: &mut Random) -> Stream {
    match random.below(100) {
        0..=44 => valid(random),
        45..=66 => damaged(random),
        67..=82 => raw(random),
        _ => at_a_limit(random),
    }
}

/// A stream about as long as a stream may be.
pub fn huge_stream(random: &mut Random) -> Stream {
    let size = random.pick(&HUGE_SIZES);
    let bytes = match random.below(HUGE_CONTENTS + 1) {
        HUGE_CONTENTS => {
            let unit = [valid(random).bytes, vec![0x00]].concat();
            unit.into_iter().cycle().take(size).collect()
        }
        content => huge_bytes(size, content),
    };
    guessed(bytes)
}

/// Every huge size with every content.
pub fn huge_streams() -> impl Iterator<Item = Vec<u8>> {
    let contents = |size| (0..HUGE_CONTENTS).map(move |content| huge_bytes(size, content));
    HUGE_SIZES.into_iter().flat_map(contents)
}

/// Streams at and past three limits: the rows of a listing, bytes 03 in a row, markers.
pub fn limit_streams() -> Vec<Vec<u8>> {
    let nils = [4_095, 4_096, 4_097].map(|rows| vec![0x00; rows]);
    let forms = [4_096, 4_097].map(|rows| [0x01, 0x02].repeat(rows));
    let marks = [8, 9].map(|count| [vec![0x03; count], vec![0x81], vec![0x01; count]].concat());
    // 256 bytes FF and 80 add up to 65,535.
    let markers = [0x80, 0x81].map(|last| [vec![0x7F], vec![0xFF; 256], vec![last, 0x00]].concat());
    [&nils[..], &forms, &marks, &markers].concat()
}

/// That many bytes of one kind of content.
fn huge_bytes(size: usize, content: usize) -> Vec<u8> {
    let unit: &[u8] = match content {
        0 => &[0x00],
        1 => &[0xFF],
        2 => &[0x03],
        3 => &[0x01, 0x02],
        4 => &[0x01],
        5 => &[0x01, 0x85, 0x01, 0xC0, 0x02, 0x02],
        6 => &[0x03, 0x80, 0xBF],
        7 => return one_array(size),
        _ => return [vec![0x7F], vec![0xFF; size - 1]].concat(),
    };
    unit.iter().copied().cycle().take(size).collect()
}

/// One generic array that fills a stream of that size.
fn one_array(size: usize) -> Vec<u8> {
    let length = (size - 5).to_be_bytes();
    let mut bytes = vec![0x03, 0xC3];
    bytes.extend(&length[length.len() - 3..]);
    bytes.resize(size, 0xAB);
    bytes
}

fn guessed(bytes: Vec<u8>) -> Stream {
    Stream {
        rows: bytes.len(),
        items: bytes.len() / 4,
        length: bytes.len(),
        bytes,
    }
}

pub fn valid(random: &mut Random) -> Stream {
    let mut maker = Maker::new(random);
    let count = maker.random.below(7);
    maker.items(count);
    maker.stream
}

fn damaged(random: &mut Random) -> Stream {
    let mut stream = random_undamaged(random);
    for _ in 0..random.between(1, 3) {
        damage(random, &mut stream.bytes);
    }
    stream
}

fn random_undamaged(random: &mut Random) -> Stream {
    if random.one_in(6) {
        at_a_limit(random)
    } else {
        valid(random)
    }
}

/// One byte changed, inserted or removed, or the end cut off.
pub fn damage(random: &mut Random, bytes: &mut Vec<u8>) {
    let at = random.below(bytes.len() + 1);
    let byte = random_byte(random);
    match random.below(4) {
        0 => bytes.insert(at, byte),
        1 => bytes.truncate(at),
        _ if at == bytes.len() => bytes.push(byte),
        2 => bytes[at] = byte,
        _ => drop(bytes.remove(at)),
    }
}

fn random_byte(random: &mut Random) -> u8 {
    if random.one_in(2) {
        random.pick(&SPECIAL_BYTES)
    } else {
        random.byte()
    }
}

/// Bytes that follow no grammar: of all values alike, or mostly special ones.
fn raw(random: &mut Random) -> Stream {
    let size = random.below(40);
    let uniform = random.one_in(3);
    let byte = |random: &mut Random| match uniform {
        true => random.byte(),
        false => random.pick(&SPECIAL_BYTES),
    };
    guessed((0..size).map(|_| byte(random)).collect())
}

/// A few ordinary items, one at some limit, and a few more; sometimes the end is cut off.
pub fn at_a_limit(random: &mut Random) -> Stream {
    let mut maker = Maker::new(random);
    let before = maker.random.below(3);
    maker.items(before);
    maker.stream.items += 1;
    match maker.random.below(7) {
        0 => maker.nested_forms(),
        1 => maker.large_marker(),
        2 => maker.array_of_limit_size(),
        3 => maker.many_marks(),
        4 => maker.length_beyond_any_stream(),
        5 => maker.many_rows(),
        _ => maker.unfinished_form(),
    }
    let after = maker.random.below(3);
    maker.items(after);
    let mut stream = maker.stream;
    if random.one_in(4) {
        let cut = random.between(1, 2);
        stream
            .bytes
            .truncate(stream.bytes.len().saturating_sub(cut));
    }
    stream
}

/// Writes expressions by the grammar and keeps count of them.
struct Maker<'r> {
    random: &'r mut Random,
    stream: Stream,
}

impl<'r> Maker<'r> {
    fn new(random: &'r mut Random) -> Maker<'r> {
        Maker {
            random,
            stream: Stream::default(),
        }
    }

    fn items(&mut self, count: usize) {
        self.stream.items += count;
        for _ in 0..count {
            self.expression(5);
        }
    }

    /// An expression with at most so many forms one inside another.
    fn expression(&mut self, depth: usize) {
        match self.random.below(12) {
            0 => self.one_byte(0x00),
            1 | 2 => self.small_integer(),
            3..=5 => self.array(),
            6 | 7 => self.reference(),
            _ if depth == 0 => self.one_byte(0x00),
            _ => self.form(depth - 1),
        }
    }

    fn one_byte(&mut self, byte: u8) {
        self.stream.bytes.push(byte);
        self.stream.rows += 1;
        self.stream.length += 1;
    }

    fn small_integer(&mut self) {
        let value = self.random.below(64) as u8;
        self.one_byte(0x80 | value);
    }

    fn form(&mut self, depth: usize) {
        let count = self.random.below(5);
        self.open_form();
        for _ in 0..count {
            self.expression(depth);
        }
        self.stream.bytes.push(0x02);
    }

    /// The 01 of a form, whose 02 is counted with it.
    fn open_form(&mut self) {
        self.stream.bytes.push(0x01);
        self.stream.rows += 1;
        self.stream.length += 2;
    }

    fn reference(&mut self) {
        let name = random_byte(self.random);
        let marker = match self.random.below(4) {
            0 => vec![0x20],
            1 => vec![0x7F, random_byte(self.random)],
            _ => vec![self.random.between(0x10, 0x7E) as u8],
        };
        if marker == [0x7F, 0xFF] {
            let more = self.random.below(4);
            self.long_marker(more, 0x05, name);
        } else {
            self.add_reference(marker, name);
        }
    }

    fn add_reference(&mut self, marker: Vec<u8>, name: u8) {
        self.stream.rows += 1;
        self.stream.length += marker.len() + 1;
        self.stream.bytes.extend(marker);
        self.stream.bytes.push(name);
    }

    fn long_marker(&mut self, full: usize, last: u8, name: u8) {
        self.add_reference([vec![0x7F], vec![0xFF; full], vec![last]].concat(), name);
    }

    /// 256 bytes FF and 80 add up to 65,535.
    fn large_marker(&mut self) {
        let full = self
            .random
            .pick(&[1, 2, 255, 256, 256, 256, 256, 257, 258, 300]);
        let last = self
            .random
            .pick(&[0x00, 0x01, 0x7F, 0x80, 0x81, 0x82, 0xFE]);
        let name = random_byte(self.random);
        self.long_marker(full, last, name);
    }

    fn array(&mut self) {
        let size = match self.random.below(40) {
            0 => self.random.pick(&ARRAY_SIZES),
            1..=4 => self.random.below(64),
            _ => self.random.below(9),
        };
        if size < 64 && self.random.one_in(2) {
            self.stream.bytes.push(0xC0 | size as u8);
            self.array_content(size);
        } else {
            let nesting = self.random.pick(&[0, 0, 0, 0, 0, 0, 1, 1, 2, 3]);
            self.generic_array(size, nesting);
        }
    }

    fn array_of_limit_size(&mut self) {
        let size = self.random.pick(&ARRAY_SIZES);
        let nesting = self.random.pick(&[0, 0, 0, 1, 7]);
        self.generic_array(size, nesting);
    }

    /// 8 bytes 03 in a row for one array are allowed.
    fn many_marks(&mut self) {
        let nesting = self.random.between(4, 10);
        let size = self.random.below(5);
        self.generic_array(size, nesting);
    }

    fn generic_array(&mut self, size: usize, nesting: usize) {
        self.stream.bytes.push(0x03);
        self.length(size, nesting);
        self.array_content(size);
    }

    fn array_content(&mut self, size: usize) {
        self.stream.rows += 1;
        self.stream.length += size
            + match size {
                0..=63 => 1,
                64..=255 => 3,
                _ => 4,
            };
        for _ in 0..size {
            let byte = random_byte(self.random);
            self.stream.bytes.push(byte);
        }
    }

    /// A length expression, with so many generic arrays one in another.
    fn length(&mut self, number: usize, nesting: usize) {
        if nesting == 0 && number < 64 && self.random.one_in(2) {
            self.stream.bytes.push(0x80 | number as u8);
            return;
        }
        let bytes = self.big_endian(number);
        if nesting == 0 {
            self.stream.bytes.push(0xC0 | bytes.len() as u8);
        } else {
            self.stream.bytes.push(0x03);
            self.length(bytes.len(), nesting - 1);
        }
        self.stream.bytes.extend(bytes);
    }

    /// The bytes of a number, sometimes with leading zeros.
    fn big_endian(&mut self, number: usize) -> Vec<u8> {
        let bytes = number.to_be_bytes();
        let needed = bytes.iter().skip_while(|byte| **byte == 0).count();
        let zeros = match self.random.below(20) {
            0..=11 => 0,
            12 => 63 - needed,
            _ => self.random.below(10),
        };
        [&vec![0; zeros], &bytes[bytes.len() - needed..]].concat()
    }

    /// A small length with a 1 far in front of it, to be lost in no number.
    fn length_beyond_any_stream(&mut self) {
        let size = self.random.below(4);
        let zeros = self
            .random
            .pick(&[1, 2, 3, 4, 5, 7, 8, 9, 15, 16, 17, 31, 61]);
        let front = self.random.pick(&[0x01, 0x01, 0x80, 0xFF]);
        let length = [vec![front], vec![0; zeros - 1], vec![size as u8]].concat();
        self.stream.bytes.push(0x03);
        if self.random.one_in(3) {
            self.stream.bytes.push(0x03);
            self.stream.bytes.push(0x80 | length.len() as u8);
        } else {
            self.stream.bytes.push(0xC0 | length.len() as u8);
        }
        self.stream.bytes.extend(length);
        self.array_content(size);
    }

    /// 64 forms open are allowed.
    fn nested_forms(&mut self) {
        let count = self
            .random
            .pick(&[60, 62, 63, 63, 64, 64, 64, 64, 65, 65, 66]);
        for _ in 0..count {
            self.open_form();
            if self.random.one_in(20) {
                self.expression(0);
            }
        }
        let inside = self.random.below(3);
        for _ in 0..inside {
            self.expression(0);
        }
        for _ in 0..count {
            self.stream.bytes.push(0x02);
            if self.random.one_in(20) {
                self.expression(1);
            }
        }
    }

    fn unfinished_form(&mut self) {
        for _ in 0..self.random.between(1, 3) {
            self.open_form();
            self.expression(2);
        }
    }

    fn many_rows(&mut self) {
        for _ in 0..self.random.below(300) {
            self.stream.items += 1;
            if self.random.one_in(4) {
                self.form(1);
            } else {
                self.small_integer();
            }
        }
    }
}
