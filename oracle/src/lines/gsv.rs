use super::draft::Draft;

impl Draft {
    /// The data of a GSV sentence.
    pub(super) fn gsv(&mut self) {
        self.number(10, 1);
        self.comma();
        self.number(10, 1);
        self.comma();
        self.number(37, 2);
        self.comma();
        let count = match self.random.below(4) {
            0 => self.random.below(6),
            1 => self.random.between(1, 3),
            _ => 4,
        };
        for index in 0..count {
            if index > 0 {
                self.comma();
            }
            self.entry();
        }
        match self.random.below(8) {
            // An identity of the signal, as newer receivers send it.
            0 => self.put(",1"),
            1 => self.put(","),
            2 => self.put(",,,,"),
            3 if self.random.odd() => self.put("x"),
            4 if self.random.odd() => self.drop_last_field(),
            _ => {}
        }
    }

    /// Satellite, elevation, azimuth and signal, where all but the first may be absent.
    fn entry(&mut self) {
        self.number(100, 2);
        for (bound, width) in [(91, 2), (360, 3), (100, 2)] {
            self.comma();
            if !self.random.one_in(8) {
                self.number(bound, width);
            }
        }
    }
}
