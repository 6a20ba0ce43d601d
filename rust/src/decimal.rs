use std::{
    fmt,
    hash::{Hash, Hasher},
};

use crate::{
    places::{
        DECIMAL_DECIMALS, DECIMAL_SIGN, DECIMAL_SIZE, DECIMAL_VALUE, DOP_DECIMALS, DOP_SIGN,
        DOP_SIZE, DOP_VALUE, SPEED_DECIMALS, SPEED_SIGN, SPEED_SIZE, SPEED_VALUE,
    },
    words::{Unfit, Words},
};

/// A decimal of at most 7 digits: exactly, and as the nearest float. Two are
/// equal if they have the same bits, so that `-0` is not `0`.
#[derive(Clone, Copy, Debug)]
pub struct Decimal {
    /// Its digits as a whole number, with its sign: -45 for `-4.5`.
    pub whole: i32,
    /// How many of the digits stand after the point: 1 for `-4.5`.
    pub decimals: u8,
    /// The whole number divided once by the power of ten. Of minus zero the
    /// whole number is 0, and only this tells its sign.
    pub value: f32,
}

impl Decimal {
    /// One that may be absent by itself, and is there.
    pub(crate) fn of(words: &Words, at: usize) -> Result<Self, Unfit> {
        let places = [DECIMAL_SIGN, DECIMAL_SIZE, DECIMAL_DECIMALS, DECIMAL_VALUE];
        Decimal::at(words, places.map(|place| at + place))
    }

    /// A dilution of precision.
    pub(crate) fn of_dop(words: &Words, at: usize) -> Result<Self, Unfit> {
        let places = [DOP_SIGN, DOP_SIZE, DOP_DECIMALS, DOP_VALUE];
        Decimal::at(words, places.map(|place| at + place))
    }

    /// A speed as it is written.
    pub(crate) fn of_speed(words: &Words, at: usize) -> Result<Self, Unfit> {
        let places = [SPEED_SIGN, SPEED_SIZE, SPEED_DECIMALS, SPEED_VALUE];
        Decimal::at(words, places.map(|place| at + place))
    }

    fn at(words: &Words, [sign, size, decimals, value]: [usize; 4]) -> Result<Self, Unfit> {
        let minus = words.flag(sign)?;
        let size: i32 = words.number(size)?;
        Ok(Decimal {
            whole: if minus { -size } else { size },
            decimals: words.number(decimals)?,
            value: f32::from_bits(words.number(value)?),
        })
    }

    /// The float of 64 bits that is nearest to it: the whole number divided
    /// once by the power of ten, both of which are exact.
    pub fn to_f64(&self) -> f64 {
        let power = (0..self.decimals).fold(1.0, |power, _| power * 10.0);
        // The sign is the float's, since minus zero has none as a whole number.
        let size = f64::from(self.whole.unsigned_abs()) / power;
        size.copysign(self.value.into())
    }

    fn bits(&self) -> (i32, u8, u32) {
        (self.whole, self.decimals, self.value.to_bits())
    }
}

impl PartialEq for Decimal {
    fn eq(&self, other: &Self) -> bool {
        self.bits() == other.bits()
    }
}

impl Eq for Decimal {}

impl Hash for Decimal {
    fn hash<H: Hasher>(&self, state: &mut H) {
        self.bits().hash(state);
    }
}

impl From<Decimal> for f64 {
    fn from(decimal: Decimal) -> Self {
        decimal.to_f64()
    }
}

impl From<Decimal> for f32 {
    fn from(decimal: Decimal) -> Self {
        decimal.value
    }
}

/// The exact decimal, as in `4.5`, `270.0` or `-0`.
impl fmt::Display for Decimal {
    fn fmt(&self, f: &mut fmt::Formatter) -> fmt::Result {
        let decimals = usize::from(self.decimals);
        // At least one digit before the point.
        let digits = format!("{:0>1$}", self.whole.unsigned_abs(), decimals + 1);
        let (before, after) = digits.split_at(digits.len() - decimals);
        let sign = if self.value.is_sign_negative() {
            "-"
        } else {
            ""
        };
        let point = if after.is_empty() { "" } else { "." };
        write!(f, "{sign}{before}{point}{after}")
    }
}
