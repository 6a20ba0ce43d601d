//! What only our answers have.

use std::{array, ops::Neg};

use crate::{fields::Fields, Answer, Entry, F32Bits, F64Bits, Gsv};

/// A short decimal.
#[derive(Clone, Copy, Debug, PartialEq, Eq)]
pub struct Decimal {
    /// Whether its whole number is below zero.
    pub minus: bool,
    /// The size of its digits as a whole number.
    pub digits: u32,
    /// How many of the digits stand after the point.
    pub decimals: u32,
    pub bits: F32Bits,
}

/// A latitude or a longitude.
#[derive(Clone, Copy, Debug, PartialEq, Eq)]
pub struct Coordinate {
    /// Whether its count is below zero.
    pub minus: bool,
    /// The size of its count of billionths of a minute.
    pub count: u64,
    pub letter: char,
    /// In degrees.
    pub bits: F64Bits,
}

/// A speed as VTG writes it.
#[derive(Clone, Copy, Debug, PartialEq, Eq)]
pub struct Speed {
    /// N for knots, K for km/h.
    pub unit: char,
    pub written: Decimal,
    /// The float in knots.
    pub knots: F32Bits,
}

/// An entry of GSV in whole numbers.
#[derive(Clone, Copy, Debug, PartialEq, Eq)]
pub struct WholeEntry {
    pub satellite: u32,
    // Signed as in the crate, whose limit is ours.
    pub elevation: Option<i32>,
    pub azimuth: Option<i32>,
    pub signal: Option<i32>,
}

/// What only our answer to a line has. What its type lacks is absent.
#[derive(Clone, Debug, Default, PartialEq, Eq)]
pub struct Exact {
    pub talker: Option<[u8; 2]>,
    /// Latitude and longitude.
    pub position: Option<[Coordinate; 2]>,
    /// Speed, course and variation; PDOP, HDOP and VDOP; HDOP, altitude and geoid
    /// separation; or the true course alone.
    pub decimals: [Option<Decimal>; 3],
    pub speed: Option<Speed>,
    pub entries: [Option<WholeEntry>; 4],
}

impl Exact {
    /// What an accepted line's own text says of the exact parts, where the
    /// answer says which parts are there. None if the text has no such parts.
    pub(crate) fn expected(line: &[u8], answer: &Answer) -> Option<Self> {
        let exact = match answer {
            Answer::Rmc(record) => {
                let fields = Fields::of(line)?;
                let [speed, course, variation] = fields.short_decimals();
                let is_west = fields.get(10).starts_with('W');
                Exact {
                    position: position(&fields, 2, record.latitude.is_some())?,
                    decimals: [
                        Decimal::expected(speed, false),
                        Decimal::expected(course, false),
                        Decimal::expected(variation, is_west),
                    ],
                    ..Exact::default()
                }
            }
            Answer::Gsa(_) => Exact {
                decimals: decimals(&Fields::of(line)?),
                ..Exact::default()
            },
            Answer::Gga(record) => {
                let fields = Fields::of(line)?;
                Exact {
                    position: position(&fields, 1, record.latitude.is_some())?,
                    decimals: decimals(&fields),
                    ..Exact::default()
                }
            }
            Answer::Gll(record) => Exact {
                position: position(&Fields::of(line)?, 0, record.latitude.is_some())?,
                ..Exact::default()
            },
            Answer::Vtg(_) => {
                let fields = Fields::of(line)?;
                Exact {
                    decimals: decimals(&fields),
                    speed: Speed::expected(fields.get(4), fields.get(5)),
                    ..Exact::default()
                }
            }
            Answer::Gsv(record) => Exact::of_gsv(&Fields::of(line)?, record)?,
            Answer::Other(_) => Exact::default(),
            Answer::Refused(_) => return Some(Exact::default()),
        };
        Some(Exact {
            talker: Some([line[1], line[2]]),
            ..exact
        })
    }

    fn of_gsv(fields: &Fields, record: &Gsv) -> Option<Self> {
        let mut entries = [None; 4];
        for (index, entry) in record.entries.iter().enumerate() {
            if entry.is_some() {
                entries[index] = Some(WholeEntry::expected(fields, 3 + 4 * index)?);
            }
        }
        Some(Exact {
            entries,
            ..Exact::default()
        })
    }
}

/// The decimals of the fields, each with the sign of its text.
fn decimals(fields: &Fields) -> [Option<Decimal>; 3] {
    fields
        .short_decimals()
        .map(|text| Decimal::expected(text, false))
}

/// The position of the four fields from the first on, if it is there. None if
/// they hold none.
fn position(fields: &Fields, first: usize, is_there: bool) -> Option<Option<[Coordinate; 2]>> {
    if !is_there {
        return Some(None);
    }
    let [latitude, north, longitude, east] = array::from_fn(|index| fields.get(first + index));
    Some(Some([
        Coordinate::expected(latitude, 2, north)?,
        Coordinate::expected(longitude, 3, east)?,
    ]))
}

impl Decimal {
    /// The decimal of a plain text, with its sign turned for W. None if it is
    /// absent.
    fn expected(text: &str, is_west: bool) -> Option<Self> {
        let plain = Plain::of(text)?;
        let digits = u32::try_from(plain.digits).ok()?;
        let size = digits as f32 / 10u32.checked_pow(plain.decimals)? as f32;
        let is_negative = plain.minus != is_west;
        Some(Decimal {
            // Minus zero is a float only.
            minus: is_negative && digits > 0,
            digits,
            decimals: plain.decimals,
            bits: negated_if(is_negative, size).to_bits(),
        })
    }
}

impl Speed {
    /// How many km/h a knot is.
    const KNOT: f32 = 1.852;

    /// The speed of a field of knots and of the one behind it, which has km/h
    /// behind its letter or in its place. None if it is absent.
    fn expected(knots: &str, behind: &str) -> Option<Self> {
        let kilometres = behind.strip_prefix('N').unwrap_or(behind);
        let (unit, text) = match knots {
            "" => ('K', kilometres),
            _ => ('N', knots),
        };
        let written = Decimal::expected(text, false)?;
        let knots = match unit {
            'K' => (f32::from_bits(written.bits) / Speed::KNOT).to_bits(),
            _ => written.bits,
        };
        Some(Speed {
            unit,
            written,
            knots,
        })
    }
}

impl Coordinate {
    /// The coordinate of a field that starts with so many bytes of degrees.
    /// Minutes below zero count against them.
    fn expected(field: &str, width: usize, letter: &str) -> Option<Self> {
        let degrees: u8 = field.get(..width)?.parse().ok()?;
        let plain = Plain::of(&field[width..])?;
        let letter = letter.chars().next()?;

        let size = i64::try_from(plain.digits).ok()?;
        let billionths = size * 10i64.pow(9u32.checked_sub(plain.decimals)?);
        let billionths = negated_if(plain.minus, billionths);
        let count = i64::from(degrees) * 60_000_000_000 + billionths;
        let count = negated_if(is_turned(letter), count);

        let minutes = size as f64 / 10u64.pow(plain.decimals) as f64;
        let minutes = negated_if(plain.minus, minutes);
        let value = f64::from(degrees) + minutes / 60.;
        let value = negated_if(is_turned(letter), value);
        Some(Coordinate {
            minus: count < 0,
            count: count.unsigned_abs(),
            letter,
            bits: value.to_bits(),
        })
    }

    /// Whether the float is near the count and has its sign. The sign of a
    /// zero is the letter's.
    pub(crate) fn is_near(&self) -> bool {
        let degrees = f64::from_bits(self.bits);
        let count = negated_if(self.minus, self.count as f64);
        let is_negative = match self.count {
            0 => is_turned(self.letter),
            _ => self.minus,
        };
        (degrees - count / 60e9).abs() < 1e-9
            && degrees.is_sign_negative() == is_negative
            && !(self.minus && self.count == 0)
    }
}

/// Whether a hemisphere's letter turns the sign.
fn is_turned(letter: char) -> bool {
    matches!(letter, 'S' | 'W')
}

fn negated_if<T: Neg<Output = T>>(is_negated: bool, value: T) -> T {
    if is_negated {
        -value
    } else {
        value
    }
}

impl WholeEntry {
    /// The entry of four fields.
    fn expected(fields: &Fields, first: usize) -> Option<Self> {
        let number = |index| fields.get(first + index).parse().ok();
        Some(WholeEntry {
            satellite: fields.get(first).parse().ok()?,
            elevation: number(1),
            azimuth: number(2),
            signal: number(3),
        })
    }
}

impl From<WholeEntry> for Entry {
    /// The crate holds whole numbers as the floats nearest to them.
    fn from(entry: WholeEntry) -> Self {
        let nearest = |number: i32| (number as f32).to_bits();
        Entry {
            satellite: entry.satellite,
            elevation: entry.elevation.map(nearest),
            azimuth: entry.azimuth.map(nearest),
            signal: entry.signal.map(nearest),
        }
    }
}

/// What a plain decimal says.
struct Plain {
    /// Whether it begins with a minus sign, as minus zero does.
    minus: bool,
    /// Its digits as a whole number.
    digits: u64,
    /// How many of the digits stand after the point.
    decimals: u32,
}

impl Plain {
    /// None of an empty text.
    fn of(text: &str) -> Option<Self> {
        let behind_sign = text.strip_prefix('-');
        let mut plain = Plain {
            minus: behind_sign.is_some(),
            digits: 0,
            decimals: 0,
        };
        let mut is_behind_point = false;
        for byte in behind_sign.unwrap_or(text).bytes() {
            if byte == b'.' {
                is_behind_point = true;
                continue;
            }
            let digit = char::from(byte).to_digit(10)?;
            plain.digits = plain.digits.checked_mul(10)?.checked_add(digit.into())?;
            plain.decimals += u32::from(is_behind_point);
        }
        (!text.is_empty()).then_some(plain)
    }
}
