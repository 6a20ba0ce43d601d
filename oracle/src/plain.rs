/// How long a plain decimal may be.
#[derive(Clone, Copy, Debug, PartialEq, Eq)]
pub enum Limits {
    /// At most 7 digits in all.
    Short,
    /// 1 to 3 digits before the point, at most 9 after.
    Long,
}

/// Whether a text is a plain decimal within its limits, by document 01. Its
/// minus sign, if it begins with one, is no digit.
pub fn is_plain(text: &str, limits: Limits) -> bool {
    let text = text.strip_prefix('-').unwrap_or(text);
    let (whole, decimals) = match text.split_once('.') {
        Some((whole, decimals)) => (whole, Some(decimals)),
        None => (text, None),
    };
    let digits = |part: &str| !part.is_empty() && part.bytes().all(|byte| byte.is_ascii_digit());
    let count = decimals.map_or(0, str::len);
    let within = match limits {
        Limits::Short => whole.len() + count <= 7,
        Limits::Long => whole.len() <= 3 && count <= 9,
    };
    digits(whole) && decimals.is_none_or(digits) && within
}
