use super::draft::Draft;

pub(super) const MODES: &[u8] = b"ACDEFMNPRSU";
const STATUSES: &[u8] = b"ADEMNSV";

/// Times at their limits, and no times.
const ODD_TIMES: [&str; 19] = [
    "235959.999999999",
    "235959.9999999999",
    "235900.000000001",
    "240000",
    "236000",
    "235960",
    "2359059.5",
    "23590059.5",
    "+1+2+3",
    "+1+23",
    "0000",
    "00000",
    "000",
    "000060x",
    "2359-0",
    "2359-59.5",
    "2460-60",
    "2460-1e1",
    "2460--1",
];

/// Days at the ends of months and in leap years, and no days.
const ODD_DATES: [&str; 26] = [
    "290284", "300284", "290283", "280283", "290200", "300200", "290223", "280223", "290224",
    "300224", "290282", "310182", "310183", "311299", "010100", "310424", "300624", "310924",
    "311124", "000124", "320124", "010024", "011324", "+1+2+3", "0101", "01012024",
];

/// Positions that are neither absent nor whole, and minutes that count against
/// the degrees.
const ODD_POSITIONS: [&str; 20] = [
    ",,",
    ",",
    "",
    ",,,,",
    "0000,N,,",
    ",,00000,E",
    "0000,,00000,",
    ",N,,E",
    "0000,N,00000",
    "0000,N",
    "00,N,000,E",
    "0000,N,00000,E,",
    "00-30,N,000-30,E",
    "00-30,S,000-30,W",
    "00-0,N,000-0,W",
    "00-0.0,S,000-0.0,E",
    "01-60,N,016-960,W",
    "16-960,S,001-60,E",
    "00-999.999999999,N,000-999.999999999,W",
    "99-0.000000001,S,255-0.000000001,E",
];

impl Draft {
    /// The data of an RMC sentence.
    pub(super) fn rmc(&mut self) {
        self.time();
        self.comma();
        self.letter(b"ADV");
        self.comma();
        self.position();
        self.comma();
        self.short_or_none();
        self.comma();
        self.short_or_none();
        self.comma();
        self.date();
        self.comma();
        self.variation();
        self.ending();
    }

    pub(super) fn time(&mut self) {
        if self.random.odd() {
            return self.one_of(&ODD_TIMES);
        }
        if self.random.one_in(6) {
            return;
        }
        self.fixed_width(24, 2);
        self.fixed_width(60, 2);
        // Signed seconds are refused, and few lines are to end here.
        if self.random.one_in(4) {
            self.sign();
        }
        self.long();
    }

    pub(super) fn position(&mut self) {
        if self.random.odd() {
            return self.one_of(&ODD_POSITIONS);
        }
        if self.random.one_in(5) {
            return self.put(",,,");
        }
        self.angle(90, 2);
        self.comma();
        self.letter(b"NS");
        self.comma();
        self.angle(256, 3);
        self.comma();
        self.letter(b"EW");
    }

    /// Degrees below the bound, of so many bytes, and minutes.
    fn angle(&mut self, bound: usize, width: usize) {
        // One in eight is near 0, where minutes below zero lead across.
        let bound = if self.random.one_in(8) { 2 } else { bound };
        self.fixed_width(bound, width);
        self.sign();
        self.long();
    }

    fn date(&mut self) {
        if self.random.one_in(8) {
            return self.one_of(&ODD_DATES);
        }
        if self.random.one_in(6) {
            return;
        }
        // Any day of any month, there or not, if it is odd.
        let (day, month) = match self.random.odd() {
            true => (self.random.below(33), self.random.below(14)),
            false => (self.random.between(1, 28), self.random.between(1, 12)),
        };
        self.whole(day, 2);
        self.whole(month, 2);
        self.fixed_width(100, 2);
    }

    /// The variation with its letter; a comma if it is absent.
    fn variation(&mut self) {
        if self.random.odd() {
            return match self.random.below(4) {
                0 => self.short(),
                1 => {
                    self.short();
                    self.comma();
                }
                2 => self.put(",E"),
                _ => {}
            };
        }
        match self.random.below(8) {
            0..=3 => self.comma(),
            4 => {
                self.sign();
                self.put("0,W");
            }
            _ => {
                self.short();
                self.comma();
                self.letter(b"EW");
            }
        }
    }

    /// Mode and navigational status, as far as they are there.
    fn ending(&mut self) {
        match self.random.below(8) {
            0 => {}
            1 => self.put(","),
            2 => self.put(",,"),
            3 => {
                self.put(",,");
                self.letter(STATUSES);
            }
            4 | 5 => {
                self.comma();
                self.letter(MODES);
            }
            6 => self.put("E,A"),
            _ => {
                self.comma();
                self.letter(MODES);
                self.comma();
                self.letter(STATUSES);
                if self.random.odd() {
                    self.put(",1,2");
                }
            }
        }
    }
}
