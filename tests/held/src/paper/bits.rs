// Bits of the packed table: a cursor that reads fields, and a row of bits that takes them.
// 01: "Fields follow one another, most significant bit first, with no gaps inside a record."

/// A place in a row of bytes, counted in bits.
#[derive(Clone, Copy)]
pub struct Cursor<'a> {
    bytes: &'a [u8],
    place: usize,
}

impl<'a> Cursor<'a> {
    /// The cursor that stands on the first bit of the byte with this index.
    pub fn at_byte(bytes: &'a [u8], byte: usize) -> Cursor<'a> {
        Cursor { bytes, place: 8 * byte }
    }

    /// 01: "Each read of a field hands on the place where the next begins."
    pub fn read(self, width: usize) -> (u64, Cursor<'a>) {
        let mut value = 0u64;
        for k in 0..width {
            let place = self.place + k;
            let bit = (self.bytes[place / 8] >> (7 - place % 8)) & 1;
            value = 2 * value + u64::from(bit);
        }
        (value, Cursor { bytes: self.bytes, place: self.place + width })
    }

    /// Reads one field after another, one for each width.
    pub fn read_all(self, widths: &[usize]) -> Vec<u64> {
        let mut values = Vec::new();
        let mut cursor = self;
        for &width in widths {
            let (value, next) = cursor.read(width);
            values.push(value);
            cursor = next;
        }
        values
    }
}

/// A row of bits that grows at its end.
#[derive(Default)]
pub struct Bits {
    bits: Vec<bool>,
}

impl Bits {
    /// Appends a field, most significant bit first. The value must fit its width.
    pub fn push(&mut self, value: u64, width: usize) {
        assert!(value < 1 << width, "value {} wider than {} bits", value, width);
        for k in (0..width).rev() {
            self.bits.push((value >> k) & 1 == 1);
        }
    }

    /// Appends one field after another.
    pub fn push_all(&mut self, values: &[u64], widths: &[usize]) {
        assert_eq!(values.len(), widths.len());
        for (&value, &width) in values.iter().zip(widths) {
            self.push(value, width);
        }
    }

    /// The bits as bytes; their count must be a multiple of 8.
    pub fn bytes(&self) -> Vec<u8> {
        assert_eq!(self.bits.len() % 8, 0);
        let mut bytes = Vec::new();
        for eight in self.bits.chunks(8) {
            let mut byte = 0u8;
            for &bit in eight {
                byte = 2 * byte + u8::from(bit);
            }
            bytes.push(byte);
        }
        bytes
    }
}
