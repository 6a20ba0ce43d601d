/// The XOR of all bytes.
pub fn checksum(body: &[u8]) -> u8 {
    body.iter().fold(0, |sum, byte| sum ^ byte)
}

/// The two digits of a checksum.
pub(crate) fn hexadecimal(sum: u8) -> [u8; 2] {
    [sum >> 4, sum & 15].map(|digit| b"0123456789ABCDEF"[usize::from(digit)])
}

/// The sentence with this body: `$`, the body, `*` and its right checksum.
pub fn with_checksum(body: &str) -> String {
    format!("${body}*{:02X}", checksum(body.as_bytes()))
}

/// Makes the line's two checksum bytes right, if it has a place for them.
pub(crate) fn repair(line: &mut [u8]) -> Option<()> {
    // Behind `$`, the talker, the type and their comma, as the framing looks for it.
    let star = 7 + line.get(7..)?.iter().position(|&byte| byte == b'*')?;
    let sum = checksum(&line[1..star]);
    line.get_mut(star + 1..star + 3)?
        .copy_from_slice(&hexadecimal(sum));
    Some(())
}

/// The line with its two checksum bytes made right, if it has a place for them.
pub fn repaired(line: &[u8]) -> Option<Vec<u8>> {
    let mut line = line.to_vec();
    repair(&mut line).map(|()| line)
}
