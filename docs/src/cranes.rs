//! Random texts for the crane: boards that are sound, damaged or melted together, lines that are
//! almost a cut, pieces longer than any table, and every number of pieces around the limit.

use crate::dice::Dice;
use crate::model::{MOST_PIECES, MOST_TASKS, TABLE_TAKES};
use crate::tables::{self, Family, FAMILIES};
use crate::texts;

/// How many boards a crane has.
const BOARDS: [usize; 16] = [1, 1, 1, 1, 2, 2, 2, 3, 5, 5, 12, 31, 32, 32, 33, 40];

/// How many lines a crane of nothing but board lines has: more than 32, and more than a byte or
/// two bytes can count.
const LINES: [usize; 8] = [31, 32, 33, 64, 256, 257, 288, 9_362];
const MOST_LINES: usize = 65_540;

/// Pieces of a line or two that are no tables.
const SHORT_PIECES: [&[u8]; 17] = [
    b"board=\n",
    b"board=\n\n",
    b"board=7\n",
    b"board=07\n",
    b"board=0\n",
    b"board=65536\n",
    b"board=7\r\n",
    b"board=board=\n",
    b"board=7\ntasks=17\n",
    b"board=7\ntasks=1\n",
    b"board=7\ntasks=1\nBoard=7\n",
    b"board=7\ntasks=1\nswitch=1001\n",
    b"board=7\ntasks=1\nswitch=0\n",
    b"board=7\nswitch=0\ntasks=1\n",
    b"board=7\ntasks=1\nswitch=0\npoints=0\n",
    b"board=7\ntasks=1\nswitch=0\ntask=1\nperiod=9\nworst=9\nbest=9\nalpha=1000\nbeta=0\n",
    b"board=7\ntasks=1\nswitch=0\ntask=1\nperiod=9\ndeadline=9\nworst=9\nbest=9\nalpha=1000\nbeta=0\n\
      hold=0\n",
];

/// Bytes ahead of the first board, with a line feed at their end and without.
const AHEAD: [&[u8]; 16] = [
    b"\n",
    b"x\n",
    b"\r\n",
    b"\n\n\n",
    b"tasks=1\n",
    b"boa\n",
    b"board\n",
    b"Board=7\n",
    b" board=7\n",
    b"x",
    b" ",
    b"\r",
    b"\n\r",
    b"\0",
    b"\xef\xbb\xbf",
    b"x\nboard",
];

/// What stands after the last board: often the beginning of another.
const ENDS: [&[u8]; 12] = [
    b"board=",
    b"board=",
    b"board=7",
    b"board",
    b"boa",
    b"b",
    b"\nboard=",
    b"\nboard",
    b"\rboard=",
    b"Board=\n",
    b"\r",
    b"\n",
];

/// What is put in somewhere, and is a cut there or almost one.
const NEARLY_CUTS: [&[u8]; 14] = [
    b"board=",
    b"board=",
    b"\nboard=",
    b"\nboard=",
    b"\rboard=",
    b" board=",
    b"\n board=",
    b"\n\tboard=",
    b"\0board=",
    b"board",
    b"\nboard",
    b"\nBoard=",
    b"\nboard\n=",
    b"board=\n",
];

/// Bytes that end no line, though some readers take them for ends.
const NO_LINE_FEEDS: &[u8] = b"\r\x0b\x0c\0 ;\x1e\x85";

// ---- Pieces -----------------------------------------------------------------------------

/// A table, mostly with few tasks, since the model is slow with many and a crane has many boards.
fn board(dice: &mut Dice) -> Vec<u8> {
    let most = if dice.once_in(100) { MOST_TASKS } else { 3 };
    let (family, tasks) = (dice.pick(&FAMILIES), 1 + dice.below(most));
    tables::text(&tables::any(dice, family, tasks, false))
}

fn damaged_board(dice: &mut Dice) -> Vec<u8> {
    let mut text = board(dice);
    for _ in 0..dice.pick(&[1, 1, 2]) {
        texts::damage(dice, &mut text);
    }
    text
}

/// A board with a number so long that its line feed is at or around the last byte that the
/// planner's program takes, or far past it.
fn stretched_board(dice: &mut Dice) -> Vec<u8> {
    let mut text = board(dice);
    let feeds: Vec<usize> = (0..text.len()).filter(|&at| text[at] == b'\n').collect();
    let feed = if dice.once_in(2) { text.len() - 1 } else { dice.pick(&feeds) };
    let past = dice.any_size(20_000) as usize;
    let to = TABLE_TAKES + dice.pick(&[0, 1, 2, 3, past]) - 2;
    text.splice(feed..feed, vec![dice.pick(b"019"); to - feed]);
    text
}

/// A stretched board, or a board with many bytes or empty lines after it.
fn long_piece(dice: &mut Dice) -> Vec<u8> {
    let mut text = board(dice);
    match dice.below(4) {
        0 => text.extend(texts::garbage(dice)),
        1 => text.extend(vec![b'\n'; dice.any_size(30_000) as usize]),
        _ => text = stretched_board(dice),
    }
    if !text.ends_with(b"\n") {
        text.push(b'\n');
    }
    text
}

/// A piece that is a sound table `sound` times in four.
fn piece(dice: &mut Dice, sound: usize) -> Vec<u8> {
    if dice.below(4) < sound {
        return board(dice);
    }
    match dice.below(3) {
        0 => dice.pick(&SHORT_PIECES).to_vec(),
        _ => damaged_board(dice),
    }
}

// ---- Damage to the whole ----------------------------------------------------------------

/// Takes away the line feed at a piece's end, or puts a byte in its place that is none.
fn melt(dice: &mut Dice, pieces: &mut [Vec<u8>]) {
    let piece = &mut pieces[dice.below(pieces.len())];
    if piece.ends_with(b"\n") {
        piece.pop();
        if dice.once_in(2) {
            piece.push(dice.pick(NO_LINE_FEEDS));
        }
    }
}

fn put_in_nearly_a_cut(dice: &mut Dice, text: &mut Vec<u8>) {
    let feeds: Vec<usize> = (0..text.len()).filter(|&at| text[at] == b'\n').collect();
    let anywhere = dice.below(text.len() + 1);
    let at = match dice.below(3) {
        0 if !feeds.is_empty() => dice.pick(&feeds),
        1 if !feeds.is_empty() => dice.pick(&feeds) + 1,
        _ => anywhere,
    };
    let bytes = dice.pick(&NEARLY_CUTS);
    text.splice(at..at, bytes.iter().copied());
}

fn end_lines_with_cr(text: &[u8]) -> Vec<u8> {
    let ended = |&byte: &u8| if byte == b'\n' { b"\r\n".to_vec() } else { vec![byte] };
    text.iter().flat_map(ended).collect()
}

fn damage(dice: &mut Dice, text: &mut Vec<u8>) {
    match dice.below(8) {
        0 => *text = end_lines_with_cr(text),
        1 => drop(text.pop()),
        2 | 3 => put_in_nearly_a_cut(dice, text),
        4 => text.truncate(dice.below(text.len() + 1)),
        _ => texts::damage(dice, text),
    }
}

// ---- Whole texts ------------------------------------------------------------------------

/// Nothing but short lines, most of them a piece each.
fn lines(dice: &mut Dice) -> Vec<u8> {
    let count = if dice.once_in(20) { MOST_LINES } else { dice.pick(&LINES) };
    let mut text = dice.pick(&["board=\n", "board=1\n", "board="]).repeat(count).into_bytes();
    if dice.once_in(2) {
        damage(dice, &mut text);
    }
    text
}

/// As many boards as there can be, or one more, with many tasks, betas that are no limit, no switch,
/// no holds and no curves: the longest outputs. Seldom with the most tasks, with which the model is slow.
fn full(dice: &mut Dice) -> Vec<u8> {
    let tasks = match dice.below(40) {
        0 => MOST_TASKS,
        1..=8 => 12,
        _ => 7,
    };
    let mut table = tables::simple(dice, Family::Huge, tasks, true);
    let mut text = Vec::new();
    for _ in 0..MOST_PIECES + dice.once_in(8) as usize {
        if dice.once_in(8) {
            table = tables::simple(dice, Family::Huge, tasks, true);
        }
        table.board = dice.between(10_000, 65_535);
        text.extend(tables::text(&table));
    }
    text
}

/// Boards, sound ones mixed with others, and something ahead of them or after them.
fn boards(dice: &mut Dice) -> Vec<u8> {
    let sound = dice.below(5);
    let mut pieces: Vec<_> = (0..dice.pick(&BOARDS)).map(|_| piece(dice, sound)).collect();
    if dice.once_in(30) {
        for _ in 0..dice.pick(&[1, 1, 2, 5]) {
            pieces.insert(dice.below(pieces.len() + 1), long_piece(dice));
        }
    }
    if dice.once_in(8) {
        melt(dice, &mut pieces);
    }
    if dice.once_in(4) {
        pieces.insert(0, dice.pick(&AHEAD).to_vec());
    }
    if dice.once_in(100) {
        let end: &[u8] = dice.pick(&[b"", b"\n"]);
        pieces.insert(0, [&texts::garbage(dice), end].concat());
    }
    if dice.once_in(8) {
        pieces.push(dice.pick(&ENDS).to_vec());
    }
    pieces.concat()
}

/// The next text, sound or damaged.
pub fn any(dice: &mut Dice) -> Vec<u8> {
    match dice.below(400) {
        0 => return Vec::new(),
        1 => return texts::garbage(dice),
        2..=7 => return lines(dice),
        8..=10 => return full(dice),
        _ => {}
    }
    let mut text = boards(dice);
    for _ in 0..dice.pick(&[0, 0, 0, 1, 2]) {
        damage(dice, &mut text);
    }
    text
}
