use std::io;

use crate::{lines::Batch, repaired};

/// The line with as many bytes dropped as can be while the sides differ.
///
/// `differing` says which of several lines is the first on which they do. All
/// that is tried at once is one batch.
pub(crate) fn shrink(
    line: &[u8],
    mut differing: impl FnMut(&Batch) -> io::Result<Option<usize>>,
) -> io::Result<Vec<u8>> {
    let mut line = line.to_vec();
    let mut size = line.len() / 2;
    while size > 0 {
        let shorter: Batch = (0..=line.len().saturating_sub(size))
            .flat_map(|start| without(&line, start, size))
            .collect();
        match differing(&shorter)? {
            Some(index) => line = shorter.line(index).to_vec(),
            None => size /= 2,
        }
        size = size.min(line.len());
    }
    Ok(line)
}

/// The line without some of its bytes, and the same with a right checksum.
fn without(line: &[u8], start: usize, size: usize) -> impl Iterator<Item = Vec<u8>> {
    let cut = [&line[..start], &line[start + size..]].concat();
    let repaired = repaired(&cut);
    [Some(cut), repaired].into_iter().flatten()
}

#[cfg(test)]
mod tests {
    use super::*;
    use crate::{crate_answer, with_checksum};

    #[test]
    fn bytes_that_do_not_matter_go() {
        let matters = |line: &[u8]| line.starts_with(b"$") && line.contains(&b'x');
        let smallest = shrink(b"$GPTXT,abcxabc*00", |lines| {
            Ok(lines.lines().position(matters))
        });
        assert_eq!(smallest.unwrap(), b"$x");
    }

    #[test]
    fn a_right_checksum_is_kept() {
        let matters = |line: &[u8]| crate_answer(line).number() == 0 && line.contains(&b'x');
        let line = with_checksum("GPTXT,abcxabc");
        let smallest = shrink(line.as_bytes(), |lines| Ok(lines.lines().position(matters)));
        assert_eq!(smallest.unwrap(), with_checksum("GPTXT,x").as_bytes());
    }
}
