//! Document 01's call frames: a line of lower-case hexadecimal, read as a call and written from one.

pub const CREATE: u8 = 0x00;
pub const AFFINITY: u8 = 0x01;
pub const TERMINATE: u8 = 0x02;
pub const BLOCK: u8 = 0x03;
pub const WAKE: u8 = 0x04;
pub const ENQUEUE: u8 = 0x05;
pub const SCHEDULE: u8 = 0x06;
pub const TICK: u8 = 0x07;
pub const YIELD: u8 = 0x08;
pub const HANDOFF: u8 = 0x09;
pub const PLAN: u8 = 0x0a;
pub const CAN_RUN_ON_CORE: u8 = 0x0b;
pub const TASK_INDEX_FOR_TID: u8 = 0x0c;
pub const TASK: u8 = 0x0d;
pub const CURRENT_TASK_ON_CPU: u8 = 0x0e;
pub const SYSTEM_TICKS_US: u8 = 0x0f;
pub const HOLDER: u8 = 0x10;

/// The calls at their numbers: a name, and the widths of the arguments in bytes.
pub const CALLS: [(&str, &[usize]); 17] = [
    ("create", &[4, 1, 8, 8, 8]),  // tid, band, context, cr3, rsp0
    ("affinity", &[8, 8]),         // slot, mask
    ("terminate", &[8]),           // slot
    ("block", &[8]),               // slot
    ("wake", &[8]),                // slot
    ("enqueue", &[8]),             // slot
    ("schedule", &[8]),            // core
    ("tick", &[8, 4]),             // core, elapsed
    ("yield", &[8]),               // core
    ("handoff", &[8]),             // core
    ("plan", &[8, 4]),             // core, elapsed
    ("can_run_on_core", &[8, 8]),  // slot, core
    ("task_index_for_tid", &[4]),  // tid
    ("task", &[8]),                // slot
    ("current_task_on_cpu", &[8]), // core
    ("system_ticks_us", &[]),
    ("holder", &[8]), // slot
];

/// The largest band of a create.
const LAST_BAND: u64 = 2;

/// A call or query with its arguments, as many as `CALLS` has for it.
#[derive(Clone, Debug, PartialEq, Eq)]
pub struct Call {
    pub number: u8,
    pub arguments: Vec<u64>,
}

impl Call {
    pub fn new(number: u8, arguments: &[u64]) -> Call {
        Call { number, arguments: arguments.to_vec() }
    }

    /// The call that a line asks for. None is refusal 9: bad digit, unknown call, wrong length, band above 2.
    pub fn read(line: &[u8]) -> Option<Call> {
        let bytes = bytes_of(line)?;
        let (&number, mut rest) = bytes.split_first()?;
        let (_, widths) = CALLS.get(usize::from(number))?;
        let mut arguments = Vec::new();
        for &width in *widths {
            let (argument, after) = rest.split_at_checked(width)?;
            arguments.push(argument.iter().fold(0, |sum, &byte| sum << 8 | u64::from(byte)));
            rest = after;
        }
        let band_is_known = number != CREATE || arguments[1] <= LAST_BAND;
        (rest.is_empty() && band_is_known).then_some(Call { number, arguments })
    }

    /// The line that asks for the call.
    pub fn line(&self) -> String {
        let (_, widths) = CALLS[usize::from(self.number)];
        let mut line = format!("{:02x}", self.number);
        for (argument, width) in self.arguments.iter().zip(widths) {
            line += &format!("{argument:0digits$x}", digits = 2 * width);
        }
        line
    }
}

/// The lines of an input: each is closed by a newline or by the end. Nothing after the last newline is no line.
pub fn lines(input: &[u8]) -> impl Iterator<Item = &[u8]> {
    input.split_inclusive(|&byte| byte == b'\n').map(|line| line.strip_suffix(b"\n").unwrap_or(line))
}

/// The bytes that a line's digits stand for, two digits a byte. None for any other digit, or an odd one.
pub fn bytes_of(line: &[u8]) -> Option<Vec<u8>> {
    if line.len() % 2 != 0 {
        return None;
    }
    line.chunks(2).map(|pair| Some(digit(pair[0])? << 4 | digit(pair[1])?)).collect()
}

/// The digits that bytes are written with, two for each.
pub fn digits_of(bytes: &[u8]) -> Vec<u8> {
    let digit = |half: u8| b"0123456789abcdef"[usize::from(half)];
    bytes.iter().flat_map(|byte| [digit(byte >> 4), digit(byte & 0xf)]).collect()
}

fn digit(character: u8) -> Option<u8> {
    match character {
        b'0'..=b'9' => Some(character - b'0'),
        b'a'..=b'f' => Some(character - b'a' + 10),
        _ => None,
    }
}

#[cfg(test)]
mod tests {
    use super::*;

    #[test]
    fn a_call_is_read_back_from_its_line() {
        for (number, (name, widths)) in CALLS.iter().enumerate() {
            let arguments: Vec<u64> = widths.iter().map(|&width| if width == 1 { LAST_BAND } else { 0x0102 }).collect();
            let call = Call::new(number as u8, &arguments);
            assert_eq!(Call::read(call.line().as_bytes()), Some(call), "{name}");
        }
    }

    #[test]
    fn what_is_no_frame_is_not_read() {
        for line in ["", "0", "0f0", "0F", "0g", " 0f", "0f\r", "0f00", "11", "ff", "0600000000000000", "0c0000000"] {
            assert_eq!(Call::read(line.as_bytes()), None, "{line:?}");
        }
        let band_3 = Call::new(CREATE, &[7, 3, 0, 0, 0]).line();
        assert_eq!(Call::read(band_3.as_bytes()), None);
    }

    #[test]
    fn bytes_are_read_back_from_their_digits() {
        let bytes: Vec<u8> = (0..=255).collect();
        assert_eq!(bytes_of(&digits_of(&bytes)), Some(bytes));
    }

    #[test]
    fn nothing_after_the_last_newline_is_no_line() {
        let three: Vec<&[u8]> = lines(b"0f\n\n0f").collect();
        assert_eq!(three, [&b"0f"[..], b"", b"0f"]);
        assert_eq!(lines(b"0f\n").count(), 1);
        assert_eq!(lines(b"").count(), 0);
    }
}
