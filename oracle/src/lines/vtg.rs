use super::draft::Draft;

/// Texts in the field of the N that are neither that letter nor a speed.
const ODD_UNITS: [&str; 12] = [
    "K", "n", "NK", "NN", "N N", "N ", " N", "NaN", "NNaN", "N-", "1N", "NN1",
];

impl Draft {
    /// The data of a VTG sentence.
    pub(super) fn vtg(&mut self) {
        self.short_or_none();
        self.comma();
        self.unit(b'T');
        self.comma();
        // Most receivers know no magnetic course.
        if self.random.one_in(2) {
            self.short_or_none();
        }
        self.comma();
        self.unit(b'M');
        self.comma();
        // Where there are no knots, the km/h are read.
        if self.random.one_in(2) {
            self.short();
        }
        self.comma();
        self.knots_letter_and_kilometres();
        match self.random.below(8) {
            // The comma behind them must stand.
            0 if self.random.odd() => {}
            0 | 1 => self.comma(),
            2 | 3 => {
                self.comma();
                self.unit(b'K');
            }
            _ => {
                // As receivers write it: the km/h in a field of its own.
                self.comma();
                self.short_or_none();
                self.comma();
                self.unit(b'K');
                self.one_of(&["", ",A", ",D", ",N", ","]);
            }
        }
    }

    /// The field of the N: the letter or none, and directly behind it km/h or
    /// nothing.
    fn knots_letter_and_kilometres(&mut self) {
        if self.random.odd() {
            return self.one_of(&ODD_UNITS);
        }
        if !self.random.one_in(3) {
            self.byte(b'N');
        }
        if self.random.one_in(2) {
            self.short();
        }
    }
}
