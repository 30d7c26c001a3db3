//! A text on which the program differs, cut down as far as it still differs.

use crate::account::{answer, lines, Answer};
use crate::frames::{is_hour, NEWEST};
use crate::program::{compare, Difference};
use std::ops::Range;
use std::path::Path;
use std::time::{Duration, Instant};

const LONGEST_CUT: Duration = Duration::from_secs(20);
/// Bytes of a text that is shortened byte by byte.
const SHORT: usize = 4000;
/// The digits of the readings that every hour frame has.
const READINGS: Range<usize> = 8..36;

pub struct Cut<'a> {
    program: &'a Path,
    started: Instant,
    pub text: Vec<u8>,
    pub difference: Difference,
}

pub fn cut_down(program: &Path, text: Vec<u8>, difference: Difference) -> Cut<'_> {
    let mut cut = Cut { program, started: Instant::now(), text, difference };
    if cut.is_season() {
        cut.drop_days();
        cut.still_hours();
        cut.still_readings();
    }
    cut.drop_pieces(lines_of);
    if !cut.is_season() {
        cut.keep_one_line();
        cut.still_hours();
        cut.still_readings();
    }
    if cut.text.len() <= SHORT {
        cut.drop_pieces(bytes_of);
    }
    cut
}

fn lines_of(text: &[u8]) -> Vec<Vec<u8>> {
    text.split_inclusive(|&byte| byte == b'\n').map(<[u8]>::to_vec).collect()
}

fn bytes_of(text: &[u8]) -> Vec<Vec<u8>> {
    text.iter().map(|&byte| vec![byte]).collect()
}

impl Cut<'_> {
    fn is_late(&self) -> bool {
        self.started.elapsed() > LONGEST_CUT
    }

    /// Takes the candidate for the text if the program differs on it.
    fn take(&mut self, candidate: Vec<u8>) -> bool {
        if candidate == self.text || self.is_late() {
            return false;
        }
        match compare(self.program, &candidate) {
            Ok(_) => false,
            Err(difference) => {
                (self.text, self.difference) = (candidate, difference);
                true
            }
        }
    }

    /// Drops pieces of the text: half of them at once, then fewer, at last one by one.
    fn drop_pieces(&mut self, pieces_of: fn(&[u8]) -> Vec<Vec<u8>>) {
        let mut pieces = pieces_of(&self.text);
        let mut size = pieces.len() / 2;
        while size > 0 && !self.is_late() {
            let mut at = 0;
            while at < pieces.len() {
                let end = (at + size).min(pieces.len());
                let fewer = [&pieces[..at], &pieces[end..]].concat();
                if self.take(fewer.concat()) {
                    pieces = fewer;
                } else {
                    at = end;
                }
            }
            size /= 2;
        }
    }

    /// Keeps a single line, or one after the first.
    fn keep_one_line(&mut self) {
        let pieces = lines_of(&self.text);
        if pieces.iter().any(|piece| self.take(piece.clone())) {
            return;
        }
        let _ = pieces.iter().skip(1).any(|piece| self.take([&pieces[0][..], piece].concat()));
    }

    /// Drops days of a whole season at either end, with the header and the count changed to suit.
    fn drop_days(&mut self) {
        while self.is_season() {
            let days = lines(&self.text).len() / 24; // with the two to five other lines no more
            let sizes = std::iter::successors(Some(days / 2), |size| Some(size / 2))
                .take_while(|&size| size > 0);
            let candidates: Vec<Vec<u8>> =
                sizes.flat_map(|size| [self.days(size..days), self.days(0..days - size)]).collect();
            if !candidates.into_iter().any(|candidate| self.take(candidate)) {
                return;
            }
        }
    }

    fn is_season(&self) -> bool {
        matches!(answer(NEWEST, &self.text), Answer::Season(..))
    }

    /// The season's text with these of its days only.
    fn days(&self, kept: Range<usize>) -> Vec<u8> {
        let lines = lines(&self.text);
        let header = lines[0];
        let start = lines.iter().position(|line| is_hour(line)).unwrap_or(1);
        let hours = &lines[start + 24 * kept.start..start + 24 * kept.end];
        let (first, last) = (&hours[0][2..6], &hours[hours.len() - 1][2..6]);
        let mut text = [&header[..8], first, last, &header[16..], b"\n"].concat();
        for line in lines[1..start].iter().chain(hours) {
            text.extend_from_slice(line);
            text.push(b'\n');
        }
        text.extend(format!("03{:04X}\n", hours.len()).bytes());
        text
    }

    /// Puts all readings of hours to 0: of many hours at once, then of fewer.
    fn still_hours(&mut self) {
        let count = lines(&self.text).len();
        let mut size = count;
        while size > 0 && !self.is_late() {
            for at in (0..count).step_by(size) {
                self.put_to_zero(at..(at + size).min(count), READINGS);
            }
            size /= 2;
        }
    }

    /// Puts single readings to 0.
    fn still_readings(&mut self) {
        for line in 0..lines(&self.text).len() {
            for at in READINGS.step_by(4) {
                self.put_to_zero(line..line + 1, at..at + 4);
            }
        }
    }

    fn put_to_zero(&mut self, those: Range<usize>, digits: Range<usize>) {
        let mut pieces = lines_of(&self.text);
        for piece in pieces[those].iter_mut().filter(|piece| is_hour(piece)) {
            piece[digits.clone()].fill(b'0');
        }
        self.take(pieces.concat());
    }
}

/// Whether it is an hour with those readings 0.
pub fn is_still(line: &[u8]) -> bool {
    is_hour(line) && line[READINGS].iter().all(|&digit| digit == b'0')
}
