//! Document 01, "The plot image": bits in order, the highest of a number first (6.1), for reading
//! and writing.

use crate::plot::{Height, Message};
use crate::refusal::Refusal;

/// 01, 6.8, a height: 32, 5, 1, 16, 32, 5, 5.
const HEIGHT_WIDTHS: [usize; 7] = [32, 5, 1, 16, 32, 5, 5];

/// 01, 6.22: bytes and bit place in one.
pub(crate) struct Reader<'a> {
    image: &'a [u8],
    place: usize,
}

impl<'a> Reader<'a> {
    /// A reader at the image's first bit.
    pub(crate) fn new(image: &'a [u8]) -> Reader<'a> {
        Reader { image, place: 0 }
    }

    /// The bit at a place inside the image, the highest of a byte first (01, 6.1).
    fn bit(&self, place: usize) -> i64 {
        i64::from(self.image[place / 8] >> (7 - place % 8) & 1)
    }

    /// The next `width` bits as a number; 12 where the image has no more (01, 6.13).
    pub(crate) fn take(&mut self, width: usize) -> Result<i64, Refusal> {
        let end = self.place + width;
        if end > self.image.len() * 8 {
            return Err(Refusal::ImageEnd);
        }
        let number = (self.place..end).fold(0, |number, place| number * 2 + self.bit(place));
        self.place = end;
        Ok(number)
    }

    /// 01, 6.8: a height, whatever its numbers are.
    pub(crate) fn take_height(&mut self) -> Result<Height, Refusal> {
        let mut numbers = [0; 7];
        for (number, width) in numbers.iter_mut().zip(HEIGHT_WIDTHS) {
            *number = self.take(width)?;
        }
        if numbers[3] >= 1 << 15 {
            numbers[3] -= 1 << 16;
        }
        numbers[4] = -numbers[4];
        Ok(Height::of(numbers))
    }

    /// 01, 6.5 and 6.6: a message of 128 bits, the stamp behind the height.
    pub(crate) fn take_message(&mut self) -> Result<Message, Refusal> {
        Ok(Message {
            height: self.take_height()?,
            stamp: self.take(32)?,
        })
    }

    /// 01, 6.14 and 6.7: what stands behind the walk, 12.
    pub(crate) fn finish(&self) -> Result<(), Refusal> {
        let end = self.image.len() * 8;
        let whole = end - self.place < 8;
        let zero = whole && (self.place..end).all(|place| self.bit(place) == 0);
        zero.then_some(()).ok_or(Refusal::ImageEnd)
    }
}

/// An image being written: its bytes so far and how many of their bits are used.
pub(crate) struct Writer {
    bytes: Vec<u8>,
    place: usize,
}

impl Writer {
    /// An image with no bit yet.
    pub(crate) fn new() -> Writer {
        Writer {
            bytes: Vec::new(),
            place: 0,
        }
    }

    /// The last `width` bits of the number, the highest first (01, 6.1), in two's complement if
    /// negative.
    pub(crate) fn put(&mut self, number: i64, width: usize) {
        for shift in (0..width).rev() {
            if self.place.is_multiple_of(8) {
                self.bytes.push(0);
            }
            if number >> shift & 1 == 1 {
                self.bytes[self.place / 8] |= 1 << (7 - self.place % 8);
            }
            self.place += 1;
        }
    }

    /// 01, 6.8 and 6.9: a height, or zeros for a view that is not there.
    pub(crate) fn put_height(&mut self, height: Option<&Height>) {
        let numbers = height.map_or([0; 7], numbers_of);
        for (number, width) in numbers.into_iter().zip(HEIGHT_WIDTHS) {
            self.put(number, width);
        }
    }

    /// 01, 6.5 and 6.6: a message of 128 bits, the stamp behind the height.
    pub(crate) fn put_message(&mut self, message: &Message) {
        self.put_height(Some(&message.height));
        self.put(message.stamp, 32);
    }

    /// The bytes, the last one filled with zeros (01, 6.7).
    pub(crate) fn finish(self) -> Vec<u8> {
        self.bytes
    }
}

/// The seven numbers of a height in the image's order, the election time as a positive number.
fn numbers_of(height: &Height) -> [i64; 7] {
    [
        height.level.tau,
        height.level.originator,
        height.level.bit,
        height.depth,
        -height.pair.negated_time,
        height.pair.leader,
        height.station,
    ]
}
