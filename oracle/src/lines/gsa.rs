use super::draft::Draft;

/// The end of a sentence behind VDOP, or behind the commas of an empty one.
const ODD_SYSTEMS: [&str; 16] = [
    "0",
    "5",
    "6",
    "255",
    "256",
    "65537",
    "4294967297",
    "01",
    "001",
    "+1",
    "-1",
    "1x",
    "x",
    "1.0",
    "",
    "1,",
];

impl Draft {
    /// The data of a GSA sentence.
    pub(super) fn gsa(&mut self) {
        self.letter(b"MA");
        self.comma();
        self.letter(b"123");
        self.comma();
        if self.random.one_in(5) {
            self.empty_tail();
        } else {
            self.items();
            self.dops();
        }
    }

    /// Commas, and a system or nothing.
    fn empty_tail(&mut self) {
        let commas = match self.random.below(4) {
            0 => self.random.between(0, 3),
            1 => self.random.between(17, 26),
            _ => self.random.between(12, 16),
        };
        self.fill(b',', commas);
        self.system();
    }

    /// Satellites, each with its comma, and empty ones.
    fn items(&mut self) {
        let count = match self.random.below(8) {
            0 => self.random.between(0, 2),
            1 | 2 => self.random.between(16, 20),
            3 => self.random.between(0, 25),
            _ => 12,
        };
        // Many full ones do not fit the longest line.
        let empty_in = self.random.between(2, 5);
        for _ in 0..count {
            if !self.random.one_in(empty_in) {
                self.number(100, 2);
            }
            self.comma();
        }
    }

    fn dops(&mut self) {
        for index in 0..3 {
            if index > 0 {
                self.comma();
            }
            self.dop();
        }
        if !self.random.one_in(3) {
            self.comma();
            self.system();
        }
    }

    /// A DOP has its point; a whole one is odd, unless a sign says that it is
    /// no item.
    fn dop(&mut self) {
        if self.random.odd() {
            return match self.random.below(3) {
                0 => {}
                1 => self.number(10, 1),
                _ => self.short(),
            };
        }
        let is_whole = self.sign() && self.random.one_in(2);
        let (whole, decimals) = (self.random.below(100), self.random.below(100));
        self.whole(whole, 1);
        if !is_whole {
            self.byte(b'.');
            self.whole(decimals, 1);
        }
    }

    fn system(&mut self) {
        if self.random.odd() {
            return self.one_of(&ODD_SYSTEMS);
        }
        match self.random.below(3) {
            0 => {}
            // The system of the talker GP, which most lines have.
            1 => self.put("1"),
            _ => {
                let system = self.random.below(7);
                self.whole(system, 1);
            }
        }
    }
}
