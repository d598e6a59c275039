//! Small parts of reading and writing bytes.

/// A number of parts as it stands in a frame. From 255 on it stays 255, which no count of a frame
/// may be: it does not come round to one that the agent would take.
pub(crate) fn count(parts: usize) -> u8 {
    u8::try_from(parts).unwrap_or(u8::MAX)
}

/// The first `N` bytes, which are taken away; `None` if there are not so many.
pub(crate) fn take<const N: usize>(bytes: &mut &[u8]) -> Option<[u8; N]> {
    let (taken, rest) = bytes.split_first_chunk()?;
    *bytes = rest;
    Some(*taken)
}

/// `N` zero bytes on the heap, which a large array in a `Box::new` might pass by way of the stack.
pub(crate) fn zeros<const N: usize>() -> Box<[u8; N]> {
    let bytes = vec![0; N].into_boxed_slice();
    bytes.try_into().expect("it has N bytes")
}

/// Bytes from hexadecimal text; blanks do not count.
#[cfg(test)]
pub(crate) fn unhex(text: &str) -> Vec<u8> {
    let digits: Vec<char> = text.chars().filter(|c| !c.is_whitespace()).collect();
    digits
        .chunks(2)
        .map(|pair| u8::from_str_radix(&String::from_iter(pair), 16).unwrap())
        .collect()
}
