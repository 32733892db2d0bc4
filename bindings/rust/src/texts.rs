//! The texts of findings, requested by as few calls as possible and held as one string.

use crate::raw::{DONE, FINDING_WORDS, MESSAGES_WORDS};
use crate::refusal::Refusal;

/// Bytes to begin with for each text: most are shorter.
const GUESS: usize = 96;

/// The number that turns a text back which has no room.
const NO_ROOM: u64 = 13;

/// Makes a list at least so long; what it held is lost.
pub(crate) fn lengthen<T: Clone + Default>(list: &mut Vec<T>, len: usize) {
    if list.len() < len {
        // A new list of zeros costs little until it is written, and one that grows is copied.
        *list = vec![T::default(); len];
    }
}

/// The lists that the library is lent for texts.
#[derive(Clone, Debug, Default)]
pub(crate) struct Room {
    pub(crate) ends: Vec<u64>,
    pub(crate) bytes: Vec<u8>,
}

impl Room {
    /// Makes room for the texts of so many findings, if they are as short as most, within a limit of bytes.
    pub(crate) fn lengthen(&mut self, findings: usize, limit: usize) {
        lengthen(&mut self.ends, findings);
        lengthen(&mut self.bytes, findings.saturating_mul(GUESS).min(limit));
    }
}

/// Texts one behind another.
#[derive(Clone, PartialEq, Eq, Debug, Default)]
pub(crate) struct Texts {
    text: String,
    ends: Vec<usize>,
}

/// The texts that end at these places as one string, if each of them is one.
fn whole<'a>(bytes: &'a [u8], ends: &[u64]) -> Option<&'a str> {
    let used = *ends.last()? as usize;
    let text = std::str::from_utf8(bytes.get(..used)?).ok()?;
    let are_texts = ends.is_sorted() && ends.iter().all(|&end| text.is_char_boundary(end as usize));
    are_texts.then_some(text)
}

impl Texts {
    pub(crate) fn len(&self) -> usize {
        self.ends.len()
    }

    pub(crate) fn get(&self, k: usize) -> Option<&str> {
        let start = match k.checked_sub(1) {
            Some(before) => *self.ends.get(before)?,
            None => 0,
        };
        self.text.get(start..*self.ends.get(k)?)
    }

    /// Adds the texts that end at these places of the bytes. Every text of the library is UTF-8; one that were not would show
    /// replacement characters.
    fn extend(&mut self, bytes: &[u8], ends: &[u64]) {
        self.ends.reserve(ends.len());
        let before = self.text.len();
        if let Some(text) = whole(bytes, ends) {
            self.text.push_str(text);
            self.ends
                .extend(ends.iter().map(|&end| before + end as usize));
            return;
        }
        let mut start = 0;
        for end in ends.iter().map(|&end| end as usize) {
            let text = bytes.get(start..end).unwrap_or_default();
            self.text.push_str(&String::from_utf8_lossy(text));
            self.ends.push(self.text.len());
            start = end;
        }
    }

    /// Adds the texts that one call wrote, and says how many bytes the next one needs, if any is left. So many bytes were lent.
    fn take(
        &mut self,
        room: &Room,
        lent: usize,
        [verdict, number, place, written, _]: [u64; MESSAGES_WORDS],
    ) -> Result<Option<usize>, Refusal> {
        let ends = room.ends.get(..written as usize).unwrap_or_default();
        self.extend(&room.bytes, ends);
        if verdict == DONE {
            return Ok(None);
        }
        let needed = place as usize;
        // A text that had room and isn't written would be requested again without end.
        if number != NO_ROOM || (ends.is_empty() && needed <= lent) {
            return Err(Refusal { number, place });
        }
        Ok(Some(needed))
    }
}

/// The texts of a list's findings, as many as take at most `limit` bytes. The first of them are in the room, with what the
/// library answered, which was lent so many bytes for them. `messages` is the library's call for more: the list, the ends and
/// the bytes that are lent, the answer.
///
/// The bytes that are lent double from call to call, so that there are few calls; each reads the whole document.
pub(crate) fn gather(
    list: &[u64],
    room: &mut Room,
    limit: usize,
    mut lent: usize,
    mut answer: [u64; MESSAGES_WORDS],
    mut messages: impl FnMut(&[u64], &mut [u64], &mut [u8]) -> [u64; MESSAGES_WORDS],
) -> Result<Texts, Refusal> {
    let mut texts = Texts::default();
    let findings = list.len() / FINDING_WORDS;
    loop {
        let needed = texts.take(room, lent, answer)?;
        let left = limit.saturating_sub(texts.text.len());
        let needed = needed.filter(|&needed| needed <= left && texts.len() < findings);
        let Some(needed) = needed else {
            return Ok(texts);
        };
        let more = room.bytes.len().saturating_mul(2).min(limit);
        lengthen(&mut room.bytes, more.max(needed));
        let rest = list.get(FINDING_WORDS * texts.len()..).unwrap_or_default();
        lent = room.bytes.len().min(left);
        answer = messages(rest, &mut room.ends, &mut room.bytes[..lent]);
    }
}

#[cfg(test)]
mod tests {
    use super::*;

    /// A library whose texts are these: the list's words say which.
    fn library(
        texts: &[&[u8]],
        list: &[u64],
        ends: &mut [u64],
        bytes: &mut [u8],
    ) -> [u64; MESSAGES_WORDS] {
        let (mut written, mut used) = (0, 0);
        for record in list.chunks_exact(FINDING_WORDS) {
            let text = texts[record[0] as usize];
            let Some(place) = bytes.get_mut(used..used + text.len()) else {
                return [1, NO_ROOM, text.len() as u64, written as u64, used as u64];
            };
            place.copy_from_slice(text);
            used += text.len();
            ends[written] = used as u64;
            written += 1;
        }
        [DONE, 0, 0, written as u64, used as u64]
    }

    /// What is gathered from a library that is called each time, the first time too.
    fn gather_by_calls(
        list: &[u64],
        limit: usize,
        mut messages: impl FnMut(&[u64], &mut [u64], &mut [u8]) -> [u64; MESSAGES_WORDS],
    ) -> Result<Texts, Refusal> {
        let mut room = Room::default();
        room.lengthen(list.len() / FINDING_WORDS, limit);
        let lent = room.bytes.len();
        let answer = messages(list, &mut room.ends, &mut room.bytes);
        gather(list, &mut room, limit, lent, answer, messages)
    }

    /// What is gathered of these texts within a limit, and the number of calls.
    fn gathered(texts: &[&[u8]], limit: usize) -> (Vec<String>, usize) {
        let list: Vec<u64> = (0..texts.len() as u64)
            .flat_map(|k| [k; FINDING_WORDS])
            .collect();
        let mut calls = 0;
        let found = gather_by_calls(&list, limit, |list, ends, bytes| {
            calls += 1;
            library(texts, list, ends, bytes)
        });
        let found = found.unwrap();
        let strings = (0..found.len()).map(|k| found.get(k).unwrap().to_string());
        (strings.collect(), calls)
    }

    #[test]
    fn short_texts_take_one_call() {
        let (texts, calls) = gathered(&[b"one", b"", b"three"], 1_000);
        assert_eq!(texts, ["one", "", "three"]);
        assert_eq!(calls, 1);
        assert_eq!(gathered(&[], 1_000), (vec![], 1));
    }

    #[test]
    fn a_long_text_is_requested_again_with_room() {
        let long = [b'a'; 700];
        let (texts, calls) = gathered(&[b"one", &long, b"three", &long], 10_000);
        assert_eq!(texts[1], "a".repeat(700));
        assert_eq!((texts[2].as_str(), texts[3].len()), ("three", 700));
        assert_eq!(calls, 3);
    }

    #[test]
    fn calls_are_few_when_all_texts_are_long() {
        let long = [b'a'; 1_000];
        let (texts, calls) = gathered(&[&long[..]; 500], usize::MAX);
        assert_eq!(texts.len(), 500);
        assert!(calls <= 5, "{calls} calls");
    }

    #[test]
    fn texts_past_the_limit_are_left_out() {
        let texts: [&[u8]; 3] = [b"four", b"12345", b"x"];
        assert_eq!(gathered(&texts, 10).0, ["four", "12345", "x"]);
        assert_eq!(gathered(&texts, 9).0, ["four", "12345"]);
        assert_eq!(gathered(&texts, 8).0, ["four"]);
        assert_eq!(gathered(&texts, 0).0, [""; 0]);
    }

    #[test]
    fn the_limit_holds_for_later_calls() {
        let long = [b'a'; 200];
        let (texts, calls) = gathered(&[&long, &long, b"x"], 400);
        assert_eq!((texts.len(), calls), (2, 2));
    }

    #[test]
    fn bytes_that_are_no_utf8_are_replaced() {
        let (texts, _) = gathered(&[b"caf\xE9", "é".as_bytes()], 100);
        assert_eq!(texts, ["caf\u{FFFD}", "é"]);
    }

    #[test]
    fn ends_inside_a_character_or_out_of_order_are_no_whole() {
        assert_eq!(whole(b"ab\xC3\xA9", &[1, 4]), Some("ab\u{E9}"));
        assert_eq!(whole(b"ab\xC3\xA9", &[3, 4]), None);
        assert_eq!(whole(b"abcd", &[3, 2, 4]), None);
        assert_eq!(whole(b"abcd", &[5]), None);
        let (texts, _) = gathered(&[b"\xC3", b"\xA9"], 100);
        assert_eq!(texts, ["\u{FFFD}", "\u{FFFD}"]);
    }

    #[test]
    fn a_list_keeps_its_length_or_grows() {
        let mut list = vec![1u64, 2];
        lengthen(&mut list, 1);
        assert_eq!(list, [1, 2]);
        lengthen(&mut list, 3);
        assert_eq!(list, [0, 0, 0]);
    }

    /// What is gathered for two findings from a library that gives one answer each time, and the number of calls.
    fn from_answer(answer: [u64; MESSAGES_WORDS]) -> (Result<Texts, Refusal>, usize) {
        let list = [0; 2 * FINDING_WORDS];
        let mut calls = 0;
        let found = gather_by_calls(&list, 1_000, |_, _, _| {
            calls += 1;
            answer
        });
        (found, calls)
    }

    #[test]
    fn refusals_are_passed_on() {
        let refused = |number, place| (Err(Refusal { number, place }), 1);
        assert_eq!(from_answer([2, 3, 7, 0, 0]), refused(3, 7));
        assert_eq!(from_answer([1, 12, 0, 0, 0]), refused(12, 0));
        assert_eq!(from_answer([1, 12, 0, 1, 0]), refused(12, 0));
    }

    #[test]
    fn an_answer_that_contradicts_itself_ends_the_calls() {
        // The text has room in the 192 bytes that are lent first.
        let number = NO_ROOM;
        for place in [0, 5, 192] {
            let refused = (Err(Refusal { number, place }), 1);
            assert_eq!(from_answer([1, number, place, 0, 0]), refused);
        }
        let place = 193;
        let refused = (Err(Refusal { number, place }), 2);
        assert_eq!(from_answer([1, number, place, 0, 0]), refused);
        // More texts than findings, at once and one by one.
        let (texts, calls) = from_answer([DONE, 0, 0, 9, 0]);
        assert_eq!((texts.unwrap().len(), calls), (0, 1));
        let (texts, calls) = from_answer([1, number, 5, 1, 0]);
        assert_eq!((texts.unwrap().len(), calls), (2, 2));
    }
}
