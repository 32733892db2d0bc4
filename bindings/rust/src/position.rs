//! Lines and columns.

use std::fmt;

/// Where a finding begins in its source, as an editor shows it: its line and its column, both from 1.
///
/// A line ends after byte 10 and nowhere else. A character is a code point: a combining mark, byte 13 and U+FEFF count one each, and
/// so does a code point that is two units of UTF-16.
///
/// [`Finding::position`](crate::Finding::position) gives the position of one finding,
/// [`Report::positions`](crate::Report::positions) those of all. It is shown as line and column in characters.
///
/// ```
/// use harkoxin::{Node, NodeKind, Position, Table, Tape};
///
/// let source = "Ἐν ἀρχῇ\nλόγος \\v 2";
/// let nodes = [
///     Node::new(NodeKind::Root, 0, 0, 0, 2),
///     Node::new(NodeKind::Verse, 0, 28, 4, 0),
/// ];
/// let report = harkoxin::check(&Table::from(""), source, &Tape::from_nodes(&nodes))?;
/// let position = report.get(0).unwrap().position(source);
/// assert_eq!(position, Position { line: 2, column: 7, byte_column: 12 });
/// assert_eq!(position.to_string(), "2:7");
/// # Ok::<(), harkoxin::Refusal>(())
/// ```
#[derive(Clone, Copy, PartialEq, Eq, PartialOrd, Ord, Hash, Debug)]
pub struct Position {
    /// The line.
    pub line: usize,
    /// The column in characters: one more than the characters between the line's start and the finding's. check-exercise prints it.
    pub column: usize,
    /// The column in bytes: one more than the bytes between the line's start and the finding's.
    pub byte_column: usize,
}

/// How many characters begin in a part of a text: every byte but 80 to BF begins one.
fn characters(part: &[u8]) -> usize {
    let begins = |&&byte: &&u8| !matches!(byte, 0x80..=0xBF);
    part.iter().filter(begins).count()
}

impl Position {
    const START: Position = Position {
        line: 1,
        column: 1,
        byte_column: 1,
    };

    /// The position behind a part of the source that begins here.
    fn behind(self, part: &[u8]) -> Position {
        let Some(end) = part.iter().rposition(|&byte| byte == b'\n') else {
            return Position {
                column: self.column + characters(part),
                byte_column: self.byte_column + part.len(),
                ..self
            };
        };
        let (lines, rest) = part.split_at(end + 1);
        let ends = lines.iter().filter(|&&byte| byte == b'\n').count();
        Position {
            line: self.line + ends,
            column: 1 + characters(rest),
            byte_column: 1 + rest.len(),
        }
    }

    /// The position of a place in a source, or of its end where the place is past it.
    pub(crate) fn at(source: &[u8], place: usize) -> Position {
        Position::START.behind(&source[..place.min(source.len())])
    }

    /// The positions of these places, in their order.
    pub(crate) fn at_each(source: &[u8], places: &[usize]) -> Vec<Position> {
        let mut order: Vec<usize> = (0..places.len()).collect();
        order.sort_by_key(|&k| places[k]);
        let mut positions = vec![Position::START; places.len()];
        let (mut read, mut here) = (0, Position::START);
        for k in order {
            let place = places[k].min(source.len());
            here = here.behind(&source[read..place]);
            read = place;
            positions[k] = here;
        }
        positions
    }
}

/// `4:1`
impl fmt::Display for Position {
    fn fmt(&self, f: &mut fmt::Formatter<'_>) -> fmt::Result {
        f.pad(&format!("{}:{}", self.line, self.column))
    }
}

#[cfg(test)]
mod tests {
    use super::*;

    fn position(line: usize, column: usize, byte_column: usize) -> Position {
        Position {
            line,
            column,
            byte_column,
        }
    }

    #[test]
    fn a_place_inside_a_character_is_behind_its_start() {
        let source = "a\nλ😀b".as_bytes();
        let expected = [
            position(1, 1, 1),
            position(1, 2, 2),
            position(2, 1, 1),
            position(2, 2, 2),
            position(2, 2, 3),
            position(2, 3, 4),
            position(2, 3, 5),
            position(2, 3, 6),
            position(2, 3, 7),
            position(2, 4, 8),
        ];
        for (place, expected) in expected.into_iter().enumerate() {
            assert_eq!(Position::at(source, place), expected, "{place}");
        }
        let places: Vec<usize> = (0..expected.len()).collect();
        assert_eq!(Position::at_each(source, &places), expected);
    }

    #[test]
    fn a_place_past_the_end_is_the_end() {
        for place in [3, 4, usize::MAX] {
            assert_eq!(Position::at("λ\n".as_bytes(), place), position(2, 1, 1));
        }
        let places = [usize::MAX, 0, 3, usize::MAX];
        let end = position(2, 1, 1);
        let expected = [end, Position::START, end, end];
        assert_eq!(Position::at_each("λ\n".as_bytes(), &places), expected);
        assert_eq!(Position::at(b"", 7), Position::START);
        assert_eq!(Position::at_each(b"", &[]), []);
    }
}
