use super::draft::Draft;

/// Counts of satellites at the end of their range, and no counts.
const ODD_COUNTS: [&str; 9] = [
    "4294967294",
    "4294967295",
    "4294967296",
    "4294967297",
    "9999999999",
    "00000000004294967295",
    "00000000004294967296",
    "18446744073709551617",
    "12x",
];

impl Draft {
    /// The data of a GGA sentence.
    pub(super) fn gga(&mut self) {
        self.time();
        self.comma();
        self.position();
        self.comma();
        self.letter(b"012345678");
        self.comma();
        self.satellites();
        self.comma();
        self.short_or_none();
        self.comma();
        self.height();
        self.comma();
        self.unit(b'M');
        self.comma();
        self.height();
        self.comma();
        self.unit(b'M');
        // Behind the second unit nothing is read; before it a comma must stand.
        match self.random.below(8) {
            0 => {}
            1 => self.put(","),
            2 if self.random.odd() => self.drop_last_field(),
            3 => {
                self.comma();
                self.short();
                self.put(",0120");
            }
            _ => self.put(",,"),
        }
    }

    fn satellites(&mut self) {
        if self.random.odd() && self.random.one_in(2) {
            return self.one_of(&ODD_COUNTS);
        }
        if !self.random.one_in(6) {
            self.number(13, 2);
        }
    }

    /// A height in metres, or nothing. Many lie below zero.
    fn height(&mut self) {
        if self.random.odd() {
            return self.short();
        }
        if self.random.one_in(6) {
            return;
        }
        if self.random.one_in(4) {
            self.byte(b'-');
        }
        let (whole, decimals) = (self.random.between(1, 5), self.random.below(3));
        self.decimal(whole, decimals);
    }
}
