//! Texts of fixed room, and the places of a buffer that are read and written without a check.

use std::ptr::copy_nonoverlapping;

/// What is copied at once: a text is copied in whole blocks, and what stands behind it is written over.
const BLOCK: usize = 32;

/// The most that the line of an event takes, with a block behind it.
pub const LONGEST_LINE: usize = 8192;

/// Why a line is not played.
pub enum Fault {
    /// It is no event.
    Line,
    /// The rule of that number refuses it.
    Rule(u8),
}

impl std::fmt::Display for Fault {
    fn fmt(&self, into: &mut std::fmt::Formatter) -> std::fmt::Result {
        match self {
            Fault::Line => write!(into, "no event"),
            Fault::Rule(rule) => write!(into, "refused by rule {rule}"),
        }
    }
}

/// The digits of 0 to 99, two each.
static PAIRS: [u8; 200] = {
    let mut pairs = [b'0'; 200];
    let mut number = 0;
    while number < 100 {
        pairs[2 * number] += (number / 10) as u8;
        pairs[2 * number + 1] += (number % 10) as u8;
        number += 1;
    }
    pairs
};

/// A text, in whole blocks of room.
pub struct Text<const ROOM: usize> {
    length: usize,
    bytes: [u8; ROOM],
}

/// Decimal digits of a number that goes up by one, at the right of their room.
pub struct Counter {
    first: usize,
    digits: [u8; 20 + BLOCK],
}

/// Where the next byte of a line stands. A line ends with a newline, so a reader that has not passed it may look
/// at one byte; behind the last line stand `LONGEST_LINE` bytes more.
pub struct Reader {
    place: *const u8,
}

/// Where the next byte is written. Behind it there is room for the longest line.
pub struct Writer {
    place: *mut u8,
}

/// The decimal digits of a number, at the right; gives the place of the first.
fn digits(mut number: u64, into: &mut [u8; 20]) -> usize {
    let mut first = into.len();
    while number >= 100 {
        let pair = 2 * (number % 100) as usize;
        number /= 100;
        first -= 2;
        into[first..first + 2].copy_from_slice(&PAIRS[pair..pair + 2]);
    }
    if number < 10 {
        into[first - 1] = b'0' + number as u8;
        return first - 1;
    }
    let pair = 2 * number as usize;
    into[first - 2..first].copy_from_slice(&PAIRS[pair..pair + 2]);
    first - 2
}

impl<const ROOM: usize> Text<ROOM> {
    pub const fn new() -> Self {
        Text {
            length: 0,
            bytes: [0; ROOM],
        }
    }

    /// The digits of a number.
    pub fn of(number: u64) -> Self {
        let mut text = Text::new();
        text.number(number);
        text
    }

    pub fn clear(&mut self) {
        self.length = 0;
    }

    pub fn put(&mut self, text: &[u8]) {
        self.bytes[self.length..self.length + text.len()].copy_from_slice(text);
        self.length += text.len();
    }

    pub fn number(&mut self, number: u64) {
        let mut room = [0; 20];
        let first = digits(number, &mut room);
        self.put(&room[first..]);
    }

    pub fn bytes(&self) -> &[u8] {
        &self.bytes[..self.length]
    }
}

impl Counter {
    pub fn new() -> Counter {
        Counter {
            first: 19,
            digits: [b'0'; 20 + BLOCK],
        }
    }

    #[inline(always)]
    pub fn count(&mut self) {
        let mut place = 19;
        while self.digits[place] == b'9' {
            self.digits[place] = b'0';
            place -= 1;
        }
        self.digits[place] += 1;
        self.first = self.first.min(place);
    }
}

impl Reader {
    /// # Safety
    /// From the place on stand lines, and `LONGEST_LINE` bytes behind the last of them.
    pub unsafe fn at(place: *const u8) -> Reader {
        Reader { place }
    }

    pub fn place(&self) -> *const u8 {
        self.place
    }

    #[inline(always)]
    pub fn byte(&self) -> u8 {
        unsafe { *self.place }
    }

    /// The next four bytes.
    #[inline(always)]
    pub fn word(&self) -> [u8; 4] {
        unsafe { (self.place as *const [u8; 4]).read() }
    }

    #[inline(always)]
    pub fn pass(&mut self, count: usize) {
        self.place = unsafe { self.place.add(count) };
    }

    #[inline(always)]
    pub fn take(&mut self, text: &[u8]) -> Result<(), Fault> {
        for byte in text {
            if self.byte() != *byte {
                return Err(Fault::Line);
            }
            self.pass(1);
        }
        Ok(())
    }

    /// Whether the line goes on with that byte, which is passed then.
    #[inline(always)]
    pub fn goes_on(&mut self, byte: u8) -> bool {
        let is_so = self.byte() == byte;
        if is_so {
            self.pass(1);
        }
        is_so
    }

    /// A number without leading zeros, in a range.
    #[inline(always)]
    pub fn number(&mut self, least: u64, most: u64) -> Result<u64, Fault> {
        let mut value = self.digit().ok_or(Fault::Line)?;
        let mut count = 1;
        while let Some(digit) = self.digit() {
            count += 1;
            if value == 0 || count > 20 {
                return Err(Fault::Line);
            }
            value = if count < 20 {
                value * 10 + digit
            } else {
                let tens = value.checked_mul(10).ok_or(Fault::Line)?;
                tens.checked_add(digit).ok_or(Fault::Line)?
            };
        }
        if value < least || value > most {
            return Err(Fault::Line);
        }
        Ok(value)
    }

    /// A number of one digit, which is passed, where one stands there.
    #[inline(always)]
    pub fn lone_digit(&mut self) -> Option<u8> {
        let [first, second] =
            unsafe { (self.place as *const [u8; 2]).read() }.map(|byte| byte.wrapping_sub(b'0'));
        if first > 9 || second <= 9 {
            return None;
        }
        self.pass(1);
        Some(first)
    }

    #[inline(always)]
    fn digit(&mut self) -> Option<u64> {
        let digit = self.byte().wrapping_sub(b'0');
        if digit > 9 {
            return None;
        }
        self.pass(1);
        Some(u64::from(digit))
    }
}

impl Writer {
    /// # Safety
    /// There is room for the longest line, whenever one is begun.
    pub unsafe fn at(place: *mut u8) -> Writer {
        Writer { place }
    }

    pub fn place(&self) -> *mut u8 {
        self.place
    }

    #[inline(always)]
    pub fn put(&mut self, text: &[u8]) {
        unsafe {
            copy_nonoverlapping(text.as_ptr(), self.place, text.len());
            self.place = self.place.add(text.len());
        }
    }

    /// A text in whole blocks.
    #[inline(always)]
    pub fn text<const ROOM: usize>(&mut self, text: &Text<ROOM>) {
        const { assert!(ROOM % BLOCK == 0) }
        let mut copied = 0;
        loop {
            unsafe {
                copy_nonoverlapping(
                    text.bytes.as_ptr().add(copied),
                    self.place.add(copied),
                    BLOCK,
                )
            };
            copied += BLOCK;
            if copied == ROOM || copied >= text.length {
                break;
            }
        }
        self.place = unsafe { self.place.add(text.length) };
    }

    #[inline(always)]
    pub fn counter(&mut self, counter: &Counter) {
        unsafe {
            copy_nonoverlapping(
                counter.digits.as_ptr().add(counter.first),
                self.place,
                BLOCK,
            );
            self.place = self.place.add(20 - counter.first);
        }
    }

    pub fn number(&mut self, number: u64) {
        let mut room = [0; 20];
        let first = digits(number, &mut room);
        self.put(&room[first..]);
    }

    /// Takes the last byte back.
    #[inline(always)]
    pub fn back(&mut self) {
        self.place = unsafe { self.place.sub(1) };
    }
}
