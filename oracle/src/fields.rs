use std::str::{self, FromStr};

use crate::known::LONGEST;

/// The data of a framed line, cut at every comma.
pub(crate) struct Fields<'a> {
    name: &'a str,
    data: &'a str,
    /// Where each field ends.
    ends: [u8; LONGEST],
    count: usize,
}

impl<'a> Fields<'a> {
    pub(crate) fn of(line: &'a [u8]) -> Option<Self> {
        let line = str::from_utf8(line).ok()?;
        if !line.is_ascii() || line.len() > LONGEST {
            return None;
        }
        let (data, _) = line.get(7..)?.split_once('*')?;
        let mut fields = Fields {
            name: &line[3..6],
            data,
            ends: [0; LONGEST],
            count: 0,
        };
        let commas = data.bytes().enumerate().filter(|&(_, byte)| byte == b',');
        for end in commas.map(|(at, _)| at).chain([data.len()]) {
            fields.ends[fields.count] = end as u8;
            fields.count += 1;
        }
        Some(fields)
    }

    /// A field's text, empty if it is not there.
    pub(crate) fn get(&self, index: usize) -> &'a str {
        if index >= self.count {
            return "";
        }
        let start = match index {
            0 => 0,
            _ => 1 + usize::from(self.ends[index - 1]),
        };
        &self.data[start..self.ends[index].into()]
    }

    /// The texts of [`crate::Exact::decimals`].
    pub(crate) fn short_decimals(&self) -> [&'a str; 3] {
        let indices = match self.name {
            "RMC" => Some([6, 7, 9]),
            "GSA" => self.pdop().map(|pdop| [pdop, pdop + 1, pdop + 2]),
            "GGA" => Some([7, 8, 10]),
            // Behind the true course stand fields that are not kept, and the speed, which has a unit.
            "VTG" => return [self.get(0), "", ""],
            _ => None,
        };
        indices.map_or([""; 3], |indices| indices.map(|index| self.get(index)))
    }

    /// Where PDOP stands in GSA: behind the items. None if there are no DOPs.
    fn pdop(&self) -> Option<usize> {
        // An item has its comma, so that the last field is none.
        let last = self.count - 1;
        let is_empty_tail = last > 2
            && (2..last).all(|index| self.get(index).is_empty())
            && is_number_or_nothing::<u8>(self.get(last));
        let items = (2..last).take_while(|&index| is_number_or_nothing::<u32>(self.get(index)));
        (!is_empty_tail).then(|| 2 + items.count())
    }
}

/// Nothing, or digits whose number is within the range of the type.
fn is_number_or_nothing<T: FromStr>(text: &str) -> bool {
    text.is_empty() || text.bytes().all(|byte| byte.is_ascii_digit()) && text.parse::<T>().is_ok()
}
