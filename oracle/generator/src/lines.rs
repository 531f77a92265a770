//! Cases as lines: `mode mask out_len request file`, the form of the vectors.
use crate::cases::Case;

pub fn hex(bytes: &[u8]) -> String {
    if bytes.is_empty() {
        return "-".into();
    }
    bytes.iter().map(|b| format!("{b:02x}")).collect()
}

pub fn line(case: &Case, mode: u8, room: usize) -> String {
    let request = match &case.request {
        None => "*".into(),
        Some(r) if r.is_empty() => "-".into(),
        Some(r) => r.iter().map(u16::to_string).collect::<Vec<_>>().join(","),
    };
    format!("{mode} {} {room} {request} {}", case.mask, hex(&case.file))
}

/// Mode, case and room of a line; what stands from ` => ` on is left out.
pub fn parse(line: &str) -> Option<(u8, Case, usize)> {
    let mut words = line.split_whitespace();
    let (mode, mask, room) = (words.next()?, words.next()?, words.next()?);
    let request = match words.next()? {
        "*" => None,
        "-" => Some(vec![]),
        list => Some(list.split(',').map(|i| i.parse().ok()).collect::<Option<_>>()?),
    };
    let text = words.next()?;
    let byte = |i| u8::from_str_radix(text.get(i..i + 2)?, 16).ok();
    let file = match text {
        "-" => vec![],
        _ => (0..text.len()).step_by(2).map(byte).collect::<Option<_>>()?,
    };
    Some((mode.parse().ok()?, Case { mask: mask.parse().ok()?, request, file }, room.parse().ok()?))
}
