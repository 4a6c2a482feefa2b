//! What the streams of books, events and tables have in common.
use std::io::{self, BufWriter, ErrorKind, Read, Write};

/// Answers items from standard input, each after its byte count, to standard output.
pub fn replay(mut answer: impl FnMut(&[u8]) -> String) -> io::Result<()> {
    let mut input = Vec::new();
    io::stdin().lock().read_to_end(&mut input)?;
    let mut out = BufWriter::new(io::stdout().lock());
    let mut rest = &input[..];
    for k in 0.. {
        if rest.is_empty() {
            break;
        }
        let (item, behind) = split(rest).ok_or(ErrorKind::UnexpectedEof)?;
        write!(out, "== {k}\n{}", answer(item))?;
        rest = behind;
    }
    out.flush()
}

/// The first item and what stands behind it, if the bytes don't end before it does.
fn split(bytes: &[u8]) -> Option<(&[u8], &[u8])> {
    let (count, rest) = bytes.split_first_chunk()?;
    rest.split_at_checked(u32::from_le_bytes(*count) as usize)
}

/// "the 16 hexadecimal digits of its bits, closing zeros dropped, one digit kept"
pub fn digits(x: f64) -> String {
    let all = format!("{:016x}", x.to_bits());
    let kept = all.trim_end_matches('0');
    all[..kept.len().max(1)].to_string()
}
