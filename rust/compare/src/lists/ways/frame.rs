//! Ways for a frame to be malformed.

use crate::dice::Dice;

/// A way for a frame to be malformed (reason 1).
pub struct FrameWay {
    pub name: &'static str,
    /// The commands it is for.
    pub commands: &'static [u8],
    /// Spoils a frame of one of the commands that is well formed.
    pub spoil: fn(&mut Dice, &mut Vec<u8>),
}

const ALL: &[u8] = &[1, 2, 3, 4, 5, 6];
const WITH_STREAM: &[u8] = &[1, 2, 3];
const WITH_HEAD: &[u8] = &[3, 4, 5];

const fn way(
    name: &'static str,
    commands: &'static [u8],
    spoil: fn(&mut Dice, &mut Vec<u8>),
) -> FrameWay {
    FrameWay {
        name,
        commands,
        spoil,
    }
}

pub const FRAME_WAYS: &[FrameWay] = &[
    way("an empty frame", ALL, |_, frame| frame.clear()),
    way("an unknown command", ALL, |dice, frame| {
        frame[0] = dice.pick(&[0x00, 0x07, 0x08, 0x10, 0x81, 0xff]);
    }),
    way("another command's length", ALL, |dice, frame| {
        frame[0] = 1 + (frame[0] - 1 + dice.between(1, 5) as u8) % 6;
        if frame.len() == 2 && frame[0] < 3 {
            frame.push(0);
        }
    }),
    way("one byte short", ALL, |_, frame| {
        frame.pop();
    }),
    way("one byte long", ALL, |dice, frame| {
        frame.push(dice.pick(&[0, 0, 1, 0xff]));
    }),
    way("cut off", ALL, |dice, frame| {
        frame.truncate(dice.below(frame.len()));
    }),
    way("extended", ALL, |dice, frame| {
        let more = dice.pick(&[2, 17, 53, 106, 220, 221, 442, 65_536]);
        frame.extend((0..more).map(|_| dice.next() as u8));
    }),
    way("stream over 31", WITH_STREAM, |dice, frame| {
        frame[1] |= dice.pick(&[0x20, 0x40, 0x80, 0xe0]);
    }),
    way("flag over 1", WITH_HEAD, |dice, frame| {
        let at = flag_at(frame);
        frame[at] = dice.pick(&[2, 3, 0x80, 0x81, 0xff]);
    }),
    way("flag 0 with a nonzero id", WITH_HEAD, |dice, frame| {
        let at = flag_at(frame);
        frame[at] = 0;
        if frame[at + 1..at + 17].iter().all(|&byte| byte == 0) {
            frame[at + dice.between(1, 16)] = 1 << dice.below(8);
        }
    }),
    way("flag 1 with id 0", WITH_HEAD, |_, frame| {
        let at = flag_at(frame);
        frame[at] = 1;
        frame[at + 1..at + 17].fill(0);
    }),
    way("t 0", &[4], |dice, frame| {
        frame[27] = 0;
        if dice.percent(70) {
            frame.truncate(28);
        }
    }),
    way("t over 8", &[4], |dice, frame| {
        frame[27] = dice.pick(&[9, 9, 9, 16, 255]);
        let row = frame[28..81].to_vec();
        let rows = usize::from(frame[27]);
        while frame.len() < 28 + 53 * rows {
            frame.extend(&row);
        }
    }),
    way("t is not the rows that follow", &[4], |dice, frame| {
        frame[27] = dice.pick(&[frame[27] + 1, frame[27] - 1, 9]);
    }),
    way("n over 64", &[5], |dice, frame| {
        frame[28] = dice.pick(&[65, 65, 65, 128, 255]);
        let update = match frame.get(29..250) {
            Some(update) => update.to_vec(),
            None => vec![1; 221],
        };
        let updates = usize::from(frame[28]);
        while frame.len() < 29 + 221 * updates {
            frame.extend(&update);
        }
    }),
    way("n is not the updates that follow", &[5], |dice, frame| {
        frame[28] = dice.pick(&[frame[28] + 1, frame[28].wrapping_sub(1), 65]);
    }),
    way("atomicity over 2", &[5], |dice, frame| {
        frame[27] = dice.pick(&[3, 4, 0x80, 0xff]);
    }),
    way("only over 1", &[6], |dice, frame| {
        frame[14] = dice.pick(&[2, 3, 0x80, 0x81, 0xff]);
    }),
    way("only 0 with a nonzero key", &[6], |dice, frame| {
        frame[14] = 0;
        if frame[15..].iter().all(|&byte| byte == 0) {
            let anywhere = dice.between(15, 158);
            frame[dice.pick(&[15, 18, 19, 157, 158, anywhere])] = 1;
        }
    }),
    way("only 1 with table 0", &[6], |_, frame| {
        frame[10..14].fill(0);
        frame[14] = 1;
    }),
];

/// Where the id flag stands in a frame that has a head.
fn flag_at(frame: &[u8]) -> usize {
    if frame[0] == 3 {
        11
    } else {
        10
    }
}
