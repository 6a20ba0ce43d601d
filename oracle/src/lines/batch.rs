/// Some lines, one behind another in a buffer that is used again.
#[derive(Clone, Debug, Default)]
pub struct Batch {
    bytes: Vec<u8>,
    /// Where each line ends.
    ends: Vec<usize>,
}

impl Batch {
    pub fn clear(&mut self) {
        self.bytes.clear();
        self.ends.clear();
    }

    pub fn push(&mut self, line: &[u8]) {
        self.add(|bytes| bytes.extend_from_slice(line));
    }

    /// Adds the line that is written behind the bytes of the others.
    pub fn add(&mut self, write: impl FnOnce(&mut Vec<u8>)) {
        write(&mut self.bytes);
        self.ends.push(self.bytes.len());
    }

    pub fn len(&self) -> usize {
        self.ends.len()
    }

    pub fn is_empty(&self) -> bool {
        self.ends.is_empty()
    }

    /// A line that is there.
    pub fn line(&self, index: usize) -> &[u8] {
        let start = index.checked_sub(1).map_or(0, |before| self.ends[before]);
        &self.bytes[start..self.ends[index]]
    }

    pub fn lines(&self) -> impl Iterator<Item = &[u8]> {
        (0..self.len()).map(|index| self.line(index))
    }
}

impl<Line: AsRef<[u8]>> FromIterator<Line> for Batch {
    fn from_iter<Lines: IntoIterator<Item = Line>>(lines: Lines) -> Self {
        let mut batch = Batch::default();
        for line in lines {
            batch.push(line.as_ref());
        }
        batch
    }
}
