//! Our answers by field: compared with the Rust's, and written from the Rust's for the stored lists. What our answers
//! gain later, and the Rust has no part in, is a field left aside: an entry of the table below.

use crate::frames::Call;

/// A field of our answers.
#[derive(Clone, Copy)]
pub struct Field {
    name: &'static str,
    /// Its width in bytes.
    width: usize,
    part: Part,
}

#[derive(Clone, Copy, PartialEq, Eq)]
enum Part {
    Compared,
    /// Compared; where it is 00 the answer ends with it.
    Leads,
    /// The Rust's answer does not have it.
    Aside,
}

const fn compared(name: &'static str, width: usize) -> Field {
    Field { name, width, part: Part::Compared }
}

const fn leads(name: &'static str) -> Field {
    Field { name, width: 1, part: Part::Leads }
}

/// For bytes that document 02 adds. None is left aside today.
#[allow(dead_code)]
const fn aside(name: &'static str, width: usize) -> Field {
    Field { name, width, part: Part::Aside }
}

/// What every answer begins with. A refusal ends with it.
const HEAD: [Field; 3] = [compared("status", 1), compared("pick's slot", 1), compared("pick's band", 1)];

/// What stands behind the last field, however much that is. In an answer that is right it is empty.
const END: Field = compared("the answer's end", usize::MAX / 2);

const PLAN: &[Field] = &[leads("plan"), compared("previous", 1), compared("target", 1), compared("cr3", 8)];

const RECORD: &[Field] = &[
    leads("record"),
    compared("tid", 4),
    compared("band", 1),
    compared("state", 1),
    compared("context", 8),
    compared("cr3", 8),
    compared("rsp0", 8),
    compared("mask", 8),
    compared("budget", 4),
    compared("consumed", 4),
    compared("in use", 1),
];

/// The fields of our answer's value, at the call's number.
const VALUES: [&[Field]; 17] = [
    &[compared("slot", 1)],    // create
    &[],                       // affinity
    &[],                       // terminate
    &[],                       // block
    &[],                       // wake
    &[],                       // enqueue
    &[compared("slot", 1)],    // schedule
    &[compared("slot", 1)],    // tick
    PLAN,                      // yield
    PLAN,                      // handoff
    PLAN,                      // plan
    &[compared("permits", 1)], // can_run_on_core
    &[compared("slot", 1)],    // task_index_for_tid
    RECORD,                    // task
    RECORD,                    // current_task_on_cpu
    &[compared("micros", 8)],  // system_ticks_us
    &[compared("core", 1)],    // holder
];

/// The fields of the value that a call is answered with; none for a line that is no frame.
pub fn value_of(call: Option<&Call>) -> &'static [Field] {
    call.map_or(&[], |call| VALUES[usize::from(call.number)])
}

/// The names and widths of a record's fields.
pub fn record_fields() -> impl Iterator<Item = (&'static str, usize)> {
    RECORD.iter().filter(|field| field.part == Part::Compared).map(|field| (field.name, field.width))
}

/// The first field in which ours is not the Rust's, with the Rust's digits and ours.
#[derive(Debug, PartialEq, Eq)]
pub struct Difference {
    pub field: String,
    pub expected: String,
    pub found: String,
}

/// Compares two answers as lines of digits. The value's fields are `value_of` the call.
pub fn difference(value: &[Field], expected: &[u8], found: &[u8]) -> Option<Difference> {
    let mut ours = found;
    for (field, rust_part) in laid_out(value, expected) {
        let our_part = taken(&mut ours, field.width);
        match rust_part {
            Some(rust_part) if our_part != rust_part => return Some(told(field.name, rust_part, our_part)),
            None if !is_bytes(our_part, field.width) => return Some(told(field.name, b"any", our_part)),
            _ => {}
        }
    }
    None
}

/// What is written for a digit that is left aside. No answer has it, so that it can be taken for any digit.
pub const ANY: char = '.';

/// Our answer where the Rust's is this one, with two dots for each byte that is left aside: what it is, the Rust cannot
/// say.
pub fn dotted(value: &[Field], rust: &str) -> String {
    let text = |(field, digits): (Field, Option<&[u8]>)| match digits {
        Some(digits) => String::from_utf8_lossy(digits).into_owned(),
        None => ANY.to_string().repeat(2 * field.width),
    };
    laid_out(value, rust.as_bytes()).into_iter().map(text).collect()
}

/// The fields of our answer where the Rust's is this one, each with the Rust's digits, or none where it is left aside.
fn laid_out<'a>(value: &[Field], mut rust: &'a [u8]) -> Vec<(Field, Option<&'a [u8]>)> {
    let refused = !rust.starts_with(b"00");
    let value = if refused { &[] } else { value };
    let mut parts = Vec::with_capacity(HEAD.len() + value.len() + 1);
    for &field in HEAD.iter().chain(value) {
        let digits = (field.part != Part::Aside).then(|| taken(&mut rust, field.width));
        parts.push((field, digits));
        if field.part == Part::Leads && digits == Some(b"00") {
            break;
        }
    }
    parts.push((END, Some(rust)));
    parts
}

/// Takes a field's digits off the front, or all that is left where the line is too short.
fn taken<'a>(line: &mut &'a [u8], width: usize) -> &'a [u8] {
    let (part, rest) = line.split_at(line.len().min(2 * width));
    *line = rest;
    part
}

fn is_bytes(digits: &[u8], width: usize) -> bool {
    digits.len() == 2 * width && digits.iter().all(|digit| matches!(digit, b'0'..=b'9' | b'a'..=b'f'))
}

fn told(field: &'static str, expected: &[u8], found: &[u8]) -> Difference {
    let text = |digits: &[u8]| digits.escape_ascii().to_string();
    Difference { field: field.into(), expected: text(expected), found: text(found) }
}

#[cfg(test)]
mod tests {
    use super::*;

    /// The field that differs, or nothing.
    fn field_of(value: &[Field], expected: &str, found: &str) -> String {
        difference(value, expected.as_bytes(), found.as_bytes()).map_or(String::new(), |difference| difference.field)
    }

    #[test]
    fn the_same_answer_has_no_difference() {
        for (value, line) in [(VALUES[0], "00ffff05"), (VALUES[2], "03ffff"), (PLAN, "00ffff00"), (&[], "09ffff")] {
            assert_eq!(field_of(value, line, line), "", "{line}");
        }
    }

    #[test]
    fn each_field_is_compared() {
        assert_eq!(field_of(VALUES[6], "00050005", "03050005"), "status");
        assert_eq!(field_of(VALUES[6], "00050005", "00060005"), "pick's slot");
        assert_eq!(field_of(VALUES[6], "00050005", "00050105"), "pick's band");
        assert_eq!(field_of(VALUES[6], "00050005", "00050006"), "slot");
        assert_eq!(field_of(PLAN, "00050001ff050000000000000001", "00050001ff050000000000000002"), "cr3");
        assert_eq!(field_of(PLAN, "00050001ff050000000000000001", "00050000"), "plan");
    }

    #[test]
    fn an_answer_too_short_or_too_long_differs() {
        assert_eq!(field_of(VALUES[6], "00050005", "000500"), "slot");
        assert_eq!(field_of(VALUES[6], "00050005", ""), "status");
        assert_eq!(field_of(VALUES[6], "00050005", "0005000500"), "the answer's end");
        assert_eq!(field_of(PLAN, "00ffff00", "00ffff00ff"), "the answer's end");
        assert_eq!(field_of(&[], "09ffff", "09ffff00"), "the answer's end");
    }

    #[test]
    fn a_field_left_aside_must_be_there_and_no_more() {
        let value = [compared("slot", 1), aside("total", 8), compared("more", 1)];
        assert_eq!(field_of(&value, "00ffff0506", "00ffff05000000000000000906"), "");
        assert_eq!(field_of(&value, "00ffff0506", "00ffff05000000000000000907"), "more");
        assert_eq!(field_of(&value, "00ffff0506", "00ffff0500"), "total");
        assert_eq!(field_of(&value, "00ffff0506", "00ffff05000000000000000G06"), "total");
        assert_eq!(field_of(&[aside("was waiting", 1)], "00ffff", "00ffff"), "was waiting");
        assert_eq!(field_of(&value, "01ffff", "01ffff"), "");
    }
    #[test]
    fn a_field_left_aside_is_written_as_dots() {
        let value = [compared("slot", 1), aside("total", 8), compared("more", 1)];
        assert_eq!(dotted(&value, "00ffff0506"), "00ffff05................06");
        assert_eq!(dotted(&[aside("was waiting", 1)], "00ffff"), "00ffff..");
        assert_eq!(dotted(&value, "01ffff"), "01ffff", "a refusal has no value");
        let led = [leads("plan"), compared("target", 1), aside("more", 1)];
        assert_eq!(dotted(&led, "00ffff0105"), "00ffff0105..");
        assert_eq!(dotted(&led, "00ffff00"), "00ffff00", "it ends there");
    }

    #[test]
    fn an_answer_with_nothing_left_aside_is_written_as_it_is() {
        for (value, line) in [(VALUES[0], "00ffff05"), (VALUES[2], "03ffff"), (PLAN, "00ffff00"), (&[], "09ffff")] {
            assert_eq!(dotted(value, line), line);
        }
    }
}
