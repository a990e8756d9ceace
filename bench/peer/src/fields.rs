//! Fields of a line: decimal numbers and paths.

use std::io::{self, Write};

/// The bytes before the first space and those behind it.
pub fn field(line: &[u8]) -> Option<(&[u8], &[u8])> {
    let space = line.iter().position(|&byte| byte == b' ')?;
    Some((&line[..space], &line[space + 1..]))
}

/// A decimal number without a sign or a leading zero.
pub fn number_of(digits: &[u8]) -> Option<u32> {
    if digits.is_empty() || (digits.len() > 1 && digits[0] == b'0') {
        return None;
    }
    digits.iter().try_fold(0u32, |number, &digit| {
        let digit = char::from(digit).to_digit(10)?;
        number.checked_mul(10)?.checked_add(digit)
    })
}

/// The positions of a path, `/` for none and else as in `/0/12`.
pub fn path_of(text: &[u8]) -> Option<Vec<u32>> {
    if text == b"/" {
        return Some(Vec::new());
    }
    let steps = text.strip_prefix(b"/")?;
    steps.split(|&byte| byte == b'/').map(number_of).collect()
}

pub fn write_path(path: &[u32], out: &mut impl Write) -> io::Result<()> {
    if path.is_empty() {
        return out.write_all(b"/");
    }
    path.iter()
        .try_for_each(|position| write!(out, "/{position}"))
}
