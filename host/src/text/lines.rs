//! The lines of a text, whatever its editor ends them with.

/// Lines end with LF, with CR and LF, or with CR alone.
pub fn lines(text: &[u8]) -> impl Iterator<Item = &[u8]> {
    let mut rest = Some(text);
    std::iter::from_fn(move || {
        let text = rest?;
        // Nearly all bytes are larger than both.
        let end = text
            .iter()
            .position(|byte| *byte <= b'\r' && b"\r\n".contains(byte));
        let (line, behind) = match end {
            None => (text, None),
            Some(end) => {
                let ends = if text[end..].starts_with(b"\r\n") {
                    2
                } else {
                    1
                };
                (&text[..end], Some(&text[end + ends..]))
            }
        };
        rest = behind;
        Some(line)
    })
}
