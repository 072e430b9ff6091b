//! The text that a player writes.

#[derive(Default)]
pub struct Text(pub Vec<u8>);

impl Text {
    /// Begins a line.
    pub fn answer(&mut self, answer: u8) {
        self.digits(u32::from(answer));
    }
    pub fn word(&mut self, word: &str) {
        self.0.push(b' ');
        self.0.extend_from_slice(word.as_bytes());
    }
    pub fn number(&mut self, number: u32) {
        self.0.push(b' ');
        self.digits(number);
    }
    pub fn numbers(&mut self, numbers: &[u32]) {
        for &number in numbers {
            self.number(number);
        }
    }
    pub fn rect(&mut self, rect: &original::Rect) {
        self.numbers(&[rect.pos.x, rect.pos.y, rect.dims.w, rect.dims.h]);
    }
    /// Takes the answer back that was just written, and writes the words instead.
    pub fn instead(&mut self, words: &str) {
        self.0.pop();
        self.0.extend_from_slice(words.as_bytes());
    }
    pub fn end(&mut self) {
        self.0.push(b'\n');
    }
    /// A whole line.
    pub fn line(&mut self, line: &str) {
        self.0.extend_from_slice(line.as_bytes());
        self.end();
    }
    fn digits(&mut self, number: u32) {
        let mut digits = [0; 10];
        let mut rest = number;
        let mut first = 10;
        while first == 10 || rest > 0 {
            first -= 1;
            digits[first] = b'0' + (rest % 10) as u8;
            rest /= 10;
        }
        self.0.extend_from_slice(&digits[first..]);
    }
}
