//! Lines that are no frame. All are answered by refusal 9 and change nothing.

use crate::dice::Dice;

/// Digits that are none: the neighbours of 0 to 9 and a to f, capitals, and what may stray into a line.
const BAD_DIGITS: &[u8] = b"/:`gAFG@ \t\r=-x\0\x7f\x80\xff";

/// A frame's line made into one that is no frame.
pub fn spoiled(dice: &mut Dice, frame: &str) -> Vec<u8> {
    let mut line = frame.as_bytes().to_vec();
    match dice.below(9) {
        0 => line.clear(),
        1 => line.truncate(line.len() - 1),
        2 => line.truncate(line.len() - 2),
        3 => line.extend(b"00"),
        4 => line.push(b'\r'),
        5 => line = unknown_call(dice, frame).into_bytes(),
        6 => line = band_above_2(dice).into_bytes(),
        7 => line = too_long(dice, frame),
        _ => {
            let place = dice.below(line.len() as u64) as usize;
            line[place] = dice.among(BAD_DIGITS);
        }
    }
    line
}

/// A call that document 01 does not have, with the arguments of one that it has.
fn unknown_call(dice: &mut Dice, frame: &str) -> String {
    let number = dice.among(&[0x11, 0x12, 0x20, 0x40, 0x7f, 0x80, 0xff]);
    format!("{number:02x}{}", &frame[2..])
}

fn band_above_2(dice: &mut Dice) -> String {
    let band = dice.among(&[3, 4, 0x7f, 0x80, 0xff]);
    format!("00{:08x}{band:02x}{:048x}", dice.below(64), 0)
}

/// A frame with more digits behind it: more than any frame has, or more than a program reads in one go.
fn too_long(dice: &mut Dice, frame: &str) -> Vec<u8> {
    let longest = dice.among(&[100, 100, 100, 100, 1_000, 10_000, 140_000]);
    let mut line = frame.as_bytes().to_vec();
    line.resize(line.len() + 62 + dice.below(longest) as usize, b'0');
    line
}
