//! The text of answers.

pub struct Out {
    bytes: Vec<u8>,
}

impl Out {
    pub fn new(room: usize) -> Out {
        Out { bytes: Vec::with_capacity(room) }
    }

    pub fn bytes(&self) -> &[u8] {
        &self.bytes
    }

    pub fn clear(&mut self) {
        self.bytes.clear();
    }

    #[inline(always)]
    pub fn text(&mut self, text: &[u8]) {
        self.bytes.extend_from_slice(text);
    }

    #[inline(always)]
    pub fn end_line(&mut self) {
        self.bytes.push(b'\n');
    }

    pub fn number(&mut self, number: u64) {
        let digit = |number: u64| b'0' + (number % 10) as u8;
        match number {
            0..10 => return self.bytes.push(digit(number)),
            10..100 => return self.text(&[digit(number / 10), digit(number)]),
            100..1000 => return self.text(&[digit(number / 100), digit(number / 10), digit(number)]),
            _ => {}
        }
        let (mut digits, mut at, mut left) = ([0; 20], 20, number);
        while left > 0 {
            at -= 1;
            digits[at] = b'0' + (left % 10) as u8;
            left /= 10;
        }
        self.text(&digits[at..]);
    }

    #[inline(always)]
    pub fn counted(&mut self, text: &[u8], number: u64) {
        self.text(text);
        self.number(number);
    }

    #[inline(always)]
    pub fn counted_line(&mut self, text: &[u8], number: u64) {
        self.counted(text, number);
        self.end_line();
    }
}
