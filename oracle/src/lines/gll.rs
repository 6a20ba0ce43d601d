use super::{draft::Draft, rmc::MODES};

impl Draft {
    /// The data of a GLL sentence.
    pub(super) fn gll(&mut self) {
        self.position();
        self.comma();
        self.time();
        self.comma();
        self.letter(b"AV");
        match self.random.below(8) {
            // The comma behind the status must stand.
            0 if self.random.odd() => {}
            0 | 1 => self.comma(),
            2 => {
                self.comma();
                self.letter(MODES);
                // Nothing behind the mode is read.
                self.one_of(&[",", "A", "B", ",x", "  "]);
            }
            3 if self.random.odd() => self.put(",,"),
            _ => {
                self.comma();
                self.letter(MODES);
            }
        }
    }
}
