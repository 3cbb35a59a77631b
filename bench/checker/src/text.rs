//! Image text as `inputs.py` writes it without blanks.

fn digit(byte: u8) -> u8 {
    match byte {
        b'0'..=b'9' => byte - b'0',
        b'a'..=b'f' => byte - b'a' + 10,
        _ => 255,
    }
}

/// The pieces of an image: the address of each, and its bytes. `None` if it is no such text.
pub fn pieces_of(text: &[u8]) -> Option<Vec<(u64, Vec<u8>)>> {
    let digits: Vec<u8> = (0..=255).map(digit).collect();
    let mut pieces: Vec<(u64, Vec<u8>)> = Vec::new();
    for line in text.split(|byte| *byte == b'\n') {
        if let Some(address) = line.strip_prefix(b"@") {
            pieces.push((u64::from_str_radix(std::str::from_utf8(address).ok()?, 16).ok()?, Vec::new()));
        } else if !line.is_empty() {
            let mut wrong = 0;
            pieces.last_mut()?.1.extend(line.chunks_exact(2).map(|pair| {
                let (high, low) = (digits[usize::from(pair[0])], digits[usize::from(pair[1])]);
                wrong |= (high | low) & 0xf0;
                high << 4 | low & 15
            }));
            if wrong != 0 || line.len() % 2 != 0 {
                return None;
            }
        }
    }
    Some(pieces)
}
