//! One long list for the program `calls`, which the gate runs on it: several of the blocks that `calls` reads, so that
//! blocks end inside lines. It goes on from lines that are given, on one scheduler; the end of the input closes its last
//! line.

use crate::aim::Aim;
use crate::dice::Dice;
use crate::draw::{Drawing, Line};
use crate::frames::{self, Call};
use crate::moods::MOODS;

/// How many bytes `calls` reads in one go from a file, and how many its answers have room in. A seam is where one block
/// ends and another begins.
const BLOCK: usize = 65_536;

/// What a program with less room may read in one go.
const PAGE: usize = 4_096;

/// The longest frame's digits: a create's.
const FRAME_MOST: usize = 60;

/// How many digits stand behind a frame in the line that is longer than a block.
const MORE_THAN_A_BLOCK: usize = 72_000;

/// A drawn line that has more bytes is not kept.
const DRAWN_MOST: usize = 200;

/// A round is so many drawn lines of one mood and a picture of the state, whose answers are longer than its frames.
const ROUND: usize = 100;
const PICTURE_MOST: usize = 4_000;
const ROUND_MOST: usize = ROUND * (DRAWN_MOST + 1) + PICTURE_MOST;

const SEED: u64 = 1;

/// The list: the lines given, and drawn ones of every mood. The first and the last seam cut a frame; those between cut one
/// line that is longer than a block, so that one block has no newline. Behind the last seam the queues are emptied, which
/// shows their order.
pub fn list<'a>(opening: impl Iterator<Item = &'a str>) -> Result<Vec<Line>, String> {
    let aim = Aim { dice: Dice::new(SEED, 0), mood: &MOODS[0] };
    let mut long = Long { drawing: Drawing::new(), aim, rounds: 0 };
    for line in opening {
        long.drawing.add(line.into()).map_err(|outside| format!("the line {line}: {outside}"))?;
    }
    long.drawing.make_tasks(&mut long.aim);
    let schedule = Call::new(frames::SCHEDULE, &[0]);
    long.fill(BLOCK - 9);
    long.drawing.make(schedule.clone());
    long.fill(2 * BLOCK - 1_000);
    long.add_refused(schedule.line() + &"0".repeat(MORE_THAN_A_BLOCK));
    long.fill(4 * BLOCK - 1);
    long.drawing.make(schedule);
    long.drawing.picture();
    long.drawing.empty_the_queues();
    check(&long.drawing.lines)?;
    Ok(long.drawing.lines)
}

/// The lines as an input: the last one has no newline.
pub fn text(lines: &[Line]) -> Vec<u8> {
    lines.iter().map(|line| line.text.as_slice()).collect::<Vec<_>>().join(&b'\n')
}

struct Long {
    drawing: Drawing,
    aim: Aim,
    rounds: usize,
}

impl Long {
    /// Draws on until a place is near, then adds a line that is no frame and as long as needed for the next line to begin
    /// at the place.
    fn fill(&mut self, place: usize) {
        while self.len() + ROUND_MOST < place {
            self.aim.mood = &MOODS[self.rounds % MOODS.len()];
            self.rounds += 1;
            (0..ROUND).for_each(|_| self.draw());
            self.drawing.picture();
        }
        while self.len() + DRAWN_MOST + 2 < place {
            self.draw();
        }
        self.add_refused("g".repeat(place - self.len() - 1));
    }

    /// One more drawn line. There is none where it would leave the domain. Where it is too long, or its bytes would make the
    /// stored file no plain text, it is taken out again: it is no frame then, and has changed nothing.
    fn draw(&mut self) {
        let is_drawn = self.drawing.draw(&mut self.aim, true).is_ok();
        let is_kept = |line: &Line| line.text.len() <= DRAWN_MOST && line.text.is_ascii() && !line.text.contains(&0);
        if is_drawn && !self.drawing.lines.last().is_some_and(is_kept) {
            self.drawing.lines.pop();
        }
    }

    fn add_refused(&mut self, line: String) {
        self.drawing.add(line.into()).expect("a line that is no frame leaves no domain");
    }

    /// Where the next line begins.
    fn len(&self) -> usize {
        self.drawing.lines.iter().map(|line| line.text.len() + 1).sum()
    }
}

/// Says what the list does not have of all that it is for.
fn check(lines: &[Line]) -> Result<(), String> {
    let len = text(lines).len();
    let cuts = |size: usize| (1..).map(move |count| count * size).take_while(move |&place| place < len);
    let is_done = |line: &Line| line.call.is_some() && line.answer.status == 0;
    let cut_at_seams: Vec<&Line> = cuts(BLOCK)
        .map(|seam| cut(lines, seam).ok_or_else(|| format!("the list for calls: no line is cut at byte {seam}")))
        .collect::<Result<_, _>>()?;
    let mut at_pages = cuts(PAGE).filter(|place| place % BLOCK != 0).filter_map(|place| cut(lines, place));
    let wanted = [
        ("at least three seams", cut_at_seams.len() >= 3),
        ("a seam that cuts a frame which is not refused", cut_at_seams.iter().any(|line| is_done(line))),
        ("a seam that cuts a line longer than any frame", cut_at_seams.iter().any(|line| line.text.len() > FRAME_MOST)),
        ("a block inside one line", cut_at_seams.windows(2).any(|pair| std::ptr::eq(pair[0], pair[1]))),
        ("a frame that is cut after a multiple of 4,096 bytes between seams", at_pages.any(is_done)),
        (
            "a block whose answers have no room in 65,536 bytes",
            answers_by_block(lines).iter().any(|&size| size > BLOCK),
        ),
        ("a frame as its last line", lines.last().is_some_and(is_done)),
    ];
    match wanted.iter().find(|(_, is_there)| !is_there) {
        Some((what, _)) => Err(format!("the list for calls does not have {what}")),
        None => Ok(()),
    }
}

/// The line that is cut at a place: bytes of it stand on either side.
fn cut(lines: &[Line], place: usize) -> Option<&Line> {
    let mut start = 0;
    lines.iter().find(|line| {
        let end = start + line.text.len();
        let is_cut = start < place && place < end;
        start = end + 1;
        is_cut
    })
}

/// For each block, the bytes of the answers to the lines that end in it.
fn answers_by_block(lines: &[Line]) -> Vec<usize> {
    let mut sizes = Vec::new();
    let mut end = 0;
    for line in lines {
        end += line.text.len() + 1;
        sizes.resize(end / BLOCK + 1, 0);
        sizes[end / BLOCK] += line.answer.line().len() + 1;
    }
    sizes
}

#[cfg(test)]
mod tests {
    use super::*;
    use crate::answers::{Answer, NO_FRAME};

    fn drawn() -> Vec<Line> {
        list(["0f", "060000000000000000"].into_iter()).unwrap()
    }

    fn refused(digits: usize) -> Line {
        Line { text: vec![b'g'; digits], call: None, answer: Answer::refused(NO_FRAME) }
    }

    fn is_long(line: &Line) -> bool {
        line.text.len() > BLOCK
    }

    #[test]
    fn the_list_goes_on_from_the_lines_given_and_is_not_closed() {
        let text = text(&drawn());
        assert!(text.starts_with(b"0f\n060000000000000000\n00"));
        assert!(text.ends_with(b"\n060000000000000000"));
    }

    #[test]
    fn the_seams_stand_where_they_are_meant_to() {
        let lines = drawn();
        let cut_there: Vec<usize> = (1..5).map(|seam| cut(&lines, seam * BLOCK).unwrap().text.len()).collect();
        assert_eq!(cut_there, [18, 18 + MORE_THAN_A_BLOCK, 18 + MORE_THAN_A_BLOCK, 18]);
    }

    #[test]
    fn a_line_is_cut_where_it_has_bytes_on_either_side() {
        let lines = [refused(2), refused(3)];
        let cuts: Vec<usize> = (0..8).filter(|&place| cut(&lines, place).is_some()).collect();
        assert_eq!(cuts, [1, 4, 5], "gg, a newline, ggg");
    }

    #[test]
    fn a_list_that_is_not_cut_at_a_seam_is_refused() {
        let mut lines: Vec<Line> = (0..9).map(|_| refused(0)).collect();
        lines.extend(drawn());
        assert!(check(&lines).unwrap_err().contains("no line is cut at byte 65536"));
    }

    #[test]
    fn a_list_without_what_it_is_for_is_refused() {
        let lacks = |lines: Vec<Line>, what: &str| assert!(check(&lines).unwrap_err().contains(what), "{what}");
        lacks(drawn().into_iter().take_while(|line| !is_long(line)).collect(), "three seams");
        lacks(drawn().iter().map(|line| refused(line.text.len())).collect(), "cuts a frame");
        let mut frames_alone = Drawing::new();
        (0..6_000).for_each(|_| frames_alone.make(Call::new(frames::AFFINITY, &[0, 0])));
        lacks(frames_alone.lines, "longer than any frame");
        // as long together, with a newline between
        let halved = |line| if is_long(&line) { vec![refused(40_000), refused(32_017)] } else { vec![line] };
        lacks(drawn().into_iter().flat_map(halved).collect(), "a block inside one line");
        let mut refused_at_the_end = drawn();
        refused_at_the_end.push(refused(1));
        lacks(refused_at_the_end, "last line");
    }
}
