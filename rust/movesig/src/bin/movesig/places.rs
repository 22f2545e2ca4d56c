//! Lines and columns. Both are counted from 1; a column is a character, a tab one, and each byte that
//! is part of no UTF-8 character one.

/// Where each byte of a text stands, and its end.
pub struct Places(Vec<(usize, usize)>);

impl Places {
    pub fn new(text: &[u8]) -> Places {
        let mut places = Vec::with_capacity(text.len() + 1);
        let (mut line, mut column) = (1, 1);
        for chunk in text.utf8_chunks() {
            for character in chunk.valid().chars() {
                places.extend([(line, column)].repeat(character.len_utf8()));
                column += 1;
                if character == '\n' {
                    (line, column) = (line + 1, 1);
                }
            }
            for _ in chunk.invalid() {
                places.push((line, column));
                column += 1;
            }
        }
        places.push((line, column));
        Places(places)
    }

    /// The line and the column of the byte; of the text's end for what is past it.
    pub fn of(&self, byte: usize) -> (usize, usize) {
        let last = self.0.len() - 1;
        self.0[byte.min(last)]
    }

    /// The first byte at the line and the column, or what is wrong with them.
    pub fn byte(&self, line: usize, column: usize) -> Result<usize, String> {
        let at = self.0.partition_point(|&place| place < (line, column));
        match self.0.get(at) {
            Some(&place) if place == (line, column) => Ok(at),
            _ => Err(self.missing(line)),
        }
    }

    fn missing(&self, line: usize) -> String {
        let (last, _) = self.of(usize::MAX);
        if line > last {
            return format!("the text ends in line {last}");
        }
        let behind = self.0.partition_point(|&(of, _)| of <= line);
        let (_, column) = self.of(behind.saturating_sub(1));
        format!("line {line} ends at column {column}")
    }
}
