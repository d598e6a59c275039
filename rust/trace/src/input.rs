//! Frames that come as bytes: `play`'s input, and frames written in hex.

use crate::lex::{self, Sign, Token};
use crate::mistake::{quoted, Mistake, Place};

/// The longest frame that `play`'s input can hold.
pub const LONGEST: usize = 0xffff;

/// `play`'s input, cut into frames.
#[derive(Clone, Debug, Default, PartialEq, Eq)]
pub struct Input<'a> {
    pub frames: Vec<&'a [u8]>,
    /// What follows the last whole frame, if the input breaks off.
    pub rest: &'a [u8],
}

/// Cuts `play`'s input: each frame after a length of two bytes.
pub fn cut(mut rest: &[u8]) -> Input<'_> {
    let mut frames = Vec::new();
    while let Some((length, behind)) = rest.split_first_chunk() {
        let length = usize::from(u16::from_be_bytes(*length));
        let Some((frame, behind)) = behind.split_at_checked(length) else {
            break;
        };
        frames.push(frame);
        rest = behind;
    }
    Input { frames, rest }
}

/// A frame as it stands in `play`'s input.
pub fn framed(frame: &[u8]) -> Vec<u8> {
    // None is longer: the script's statements are bounded, and `raw` is checked.
    let length = u16::try_from(frame.len()).unwrap_or(u16::MAX);
    [&length.to_be_bytes(), frame].concat()
}

/// A text of frames in hex, one per line, with comments.
pub fn hex_text(text: &str) -> Result<Vec<Vec<u8>>, Mistake> {
    let lines = lex::lines(text)?;
    lines.iter().map(|line| frame(&line.tokens)).collect()
}

/// A frame in hex. `HH*N` is N times the byte HH; dots do not count.
pub fn frame(words: &[Token]) -> Result<Vec<u8>, Mistake> {
    let mut frame = Vec::new();
    for word in words {
        if word.sign != Sign::Word {
            return Err(Mistake::new(word.place, BYTES, quoted(word.text)));
        }
        hex_word(word, &mut frame)?;
    }
    Ok(frame)
}

const BYTES: &str = "bytes of two hex digits";

/// Appends a word's bytes.
fn hex_word(word: &Token, to: &mut Vec<u8>) -> Result<(), Mistake> {
    let chars: Vec<char> = word.text.chars().collect();
    let mut at = 0;
    while let Some(&first) = chars.get(at) {
        let place = Place {
            column: word.place.column + at,
            ..word.place
        };
        if first == '.' {
            at += 1;
            continue;
        }
        let rest = chars.get(at..).unwrap_or_default();
        let Some(byte) = byte(rest) else {
            let found: String = rest.iter().collect();
            return Err(Mistake::new(place, BYTES, quoted(&found)));
        };
        at += 2;
        let (times, length) = repetition(chars.get(at..).unwrap_or_default());
        at += length;
        if to.len().saturating_add(times) > LONGEST {
            let expected = format!("a frame of at most {LONGEST} bytes");
            return Err(Mistake::new(place, expected, "a longer one"));
        }
        to.extend(std::iter::repeat_n(byte, times));
    }
    Ok(())
}

/// The byte that two digits begin with.
fn byte(chars: &[char]) -> Option<u8> {
    let [high, low, ..] = chars else { return None };
    u8::try_from(high.to_digit(16)? << 4 | low.to_digit(16)?).ok()
}

/// How often the byte before is there, and how many characters say so.
fn repetition(chars: &[char]) -> (usize, usize) {
    let Some((&'*', digits)) = chars.split_first() else {
        return (1, 0);
    };
    let digits: String = digits.iter().take_while(|c| c.is_ascii_digit()).collect();
    // More than fits is more than any frame has.
    let times = match digits.as_str() {
        "" => 1,
        digits => digits.parse().unwrap_or(usize::MAX),
    };
    match digits.is_empty() {
        // The sign alone is left for the next byte, which it is not.
        true => (1, 0),
        false => (times, 1 + digits.len()),
    }
}

#[cfg(test)]
mod tests {
    use super::*;

    #[test]
    fn input_is_cut_and_put_together() {
        let input = [framed(&[1, 3]), framed(&[]), framed(&[2; 300])].concat();
        let cut_up = cut(&input);
        assert_eq!(cut_up.frames, [&[1, 3][..], &[], &[2; 300]]);
        assert!(cut_up.rest.is_empty());
    }

    #[test]
    fn what_breaks_off_is_left() {
        for rest in [&[0][..], &[0, 2], &[0, 2, 1]] {
            let input = [&framed(&[1, 1]), rest].concat();
            assert_eq!(cut(&input).frames, [[1, 1]]);
            assert_eq!(cut(&input).rest, rest);
        }
    }

    #[test]
    fn hex() {
        let text = "# two frames\n 01 03 # the first\n\n03 00*3.01 0A0b\n";
        let frames = hex_text(text).unwrap();
        assert_eq!(frames, [&[1, 3][..], &[3, 0, 0, 0, 1, 10, 11]]);
        assert_eq!(hex_text("ff*65535").unwrap()[0].len(), LONGEST);
    }

    #[test]
    fn what_is_no_hex_is_a_mistake() {
        for (text, column, found) in [
            ("01 0", 4, "'0'"),
            ("01 0g", 4, "'0g'"),
            ("0103x", 5, "'x'"),
            ("01=03", 3, "'='"),
            ("00*", 3, "'*'"),
            ("00*65535 00", 10, "a longer one"),
            ("00*99999999999999999999", 1, "a longer one"),
            ("01 é1", 4, "'é1'"),
        ] {
            let mistake = hex_text(text).unwrap_err();
            assert_eq!(mistake.place, Place { line: 1, column }, "{text}");
            assert!(
                mistake.to_string().ends_with(&format!("found {found}")),
                "{mistake}"
            );
        }
    }
}
