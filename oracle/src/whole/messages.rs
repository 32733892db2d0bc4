//! Texts, one by one and together, and tallies.

use harkoxin::raw::{self, CUT, DONE, MESSAGE_WORDS, MESSAGES_WORDS, REFUSED, TALLY_WORDS};

use super::{Comparison, Expected};
use crate::reached::Function;
use crate::requests::{damaged_list, request};
use crate::rng::Rng;
use crate::tallies::{CODES, tally};
use crate::texts::{Request, WrittenTexts, requests, written_texts};

/// The most texts of a document that are requested one by one; of more findings the seed chooses.
const MOST_TEXTS: usize = 40;

impl From<Request> for raw::MessageRequest {
    fn from(request: Request) -> raw::MessageRequest {
        raw::MessageRequest {
            code: request.code,
            form: request.form,
            node: request.node,
            first: request.first,
            second: request.second,
        }
    }
}

/// The length of a list for a text of this length: exact, too short by one or more, or longer.
pub(super) fn room_for(rng: &mut Rng, len: usize) -> usize {
    match rng.below(8) {
        0..3 => len,
        3..5 => len.saturating_sub(1),
        5 => rng.below(len + 1),
        _ => len + rng.from_to(1, 40),
    }
}

/// The answer about texts that are written one behind another.
pub(super) fn messages_answer(texts: &WrittenTexts) -> [u64; MESSAGES_WORDS] {
    let (verdict, (number, place)) = match texts.stopped {
        None => (DONE, (0, 0)),
        Some(stopped) => (CUT, stopped),
    };
    let (written, bytes) = (texts.ends.len() as u64, texts.bytes.len() as u64);
    [verdict, number, place, written, bytes]
}

impl Comparison {
    /// The texts of an accepted document.
    pub(super) fn texts(&mut self, expected: &Expected<'_>, rng: &mut Rng) -> Result<(), String> {
        self.each_text(expected, rng)?;
        for _ in 0..rng.below(3) {
            let request = request(rng, &expected.list, expected.nodes());
            let text = expected.reader.text(request);
            self.one_text(request, text.as_deref(), rng)?;
        }
        self.all_texts(&expected.list, expected.texts.iter().map(Some), rng)?;
        if rng.one_in(3) {
            let list = damaged_list(rng, &expected.list, expected.nodes());
            let texts: Vec<_> = requests(&list)
                .map(|request| expected.reader.text(request))
                .collect();
            self.all_texts(&list, texts.iter().map(Option::as_ref), rng)?;
        }
        Ok(())
    }

    /// The texts of the findings, one by one, since each call reads the whole document: of one document in four as many as
    /// `MOST_TEXTS`, of the others two.
    fn each_text(&mut self, expected: &Expected<'_>, rng: &mut Rng) -> Result<(), String> {
        let requests: Vec<Request> = requests(&expected.list).collect();
        let most = if rng.one_in(4) { MOST_TEXTS } else { 2 };
        for k in 0..requests.len().min(most) {
            let place = match requests.len() <= most {
                true => k,
                false => rng.below(requests.len()),
            };
            self.one_text(requests[place], Some(&expected.texts[place]), rng)?;
        }
        Ok(())
    }

    fn one_text(
        &mut self,
        request: Request,
        text: Option<&str>,
        rng: &mut Rng,
    ) -> Result<(), String> {
        let room = room_for(rng, text.map_or(60, str::len));
        let (written, answer) = match text {
            None => ("", [REFUSED, 12, 0, 0]),
            Some(text) if room < text.len() => ("", [REFUSED, 13, text.len() as u64, 0]),
            Some(text) => (text, [DONE, 0, 0, text.len() as u64]),
        };
        self.compare_message(request, room, written, answer, rng)?;
        if let Some(text) = text {
            let (code, form) = (request.code, request.form);
            self.counts.reached.text(code, form, room.cmp(&text.len()));
        }
        Ok(())
    }

    /// One call for a text: what it writes over a list of so many bytes, and its answer.
    fn compare_message(
        &mut self,
        request: Request,
        room: usize,
        written: &str,
        answer: [u64; MESSAGE_WORDS],
        rng: &mut Rng,
    ) -> Result<(), String> {
        self.slots.text.fill(room, rng);
        self.slots.fill_out(MESSAGE_WORDS, rng);
        self.slots.message(request.into());
        let with_request = |why| format!("{request:?}, a list of {room} bytes: {why}");
        let text = self.slots.text.expect("a text", written.as_bytes());
        text.map_err(with_request)?;
        let out = self.slots.expect_out("a text's answer", &answer);
        out.map_err(with_request)?;
        self.counts.lent(&[room, 8 * self.slots.out.len()]);
        self.counts.reached.answer(Function::Message, answer[1]);
        Ok(())
    }

    /// The texts of a list's findings, which are these, in one call.
    fn all_texts<'a>(
        &mut self,
        list: &[u64],
        texts: impl Iterator<Item = Option<&'a String>> + Clone,
        rng: &mut Rng,
    ) -> Result<(), String> {
        let len = texts.clone().flatten().map(String::len).sum();
        let room = match rng.below(8) {
            0 => 0,
            _ => room_for(rng, len),
        };
        let texts = written_texts(texts, room);
        let answer = messages_answer(&texts);
        self.compare_messages(list, room, (&texts.ends, &texts.bytes), answer, rng)
    }

    /// One call for the texts of a list: the ends and the bytes that it writes, and its answer.
    fn compare_messages(
        &mut self,
        list: &[u64],
        room: usize,
        (ends, bytes): (&[u64], &[u8]),
        answer: [u64; MESSAGES_WORDS],
        rng: &mut Rng,
    ) -> Result<(), String> {
        let rest = if rng.one_in(4) { rng.below(8) } else { 0 };
        let rest: Vec<u64> = (0..rest).map(|_| rng.word()).collect();
        let whole = &list[..list.len() / 8 * 8];
        self.slots.list.put(&[whole, &rest].concat(), rng);
        let ends_room = room_for(rng, list.len() / 8);
        self.slots.ends.fill(ends_room, rng);
        self.slots.text.fill(room, rng);
        self.slots.fill_out(MESSAGES_WORDS, rng);
        self.slots.messages();
        self.expect_texts(ends, bytes)?;
        self.slots.list.expect("the list of texts", &[])?;
        self.slots.expect_out("the answer of texts", &answer)?;
        let words = ends_room + self.slots.list.len() + self.slots.out.len();
        self.counts.lent(&[room, 8 * words]);
        self.counts.reached.answer(Function::Messages, answer[1]);
        Ok(())
    }

    /// The lists after texts were written one behind another.
    pub(super) fn expect_texts(&self, ends: &[u64], bytes: &[u8]) -> Result<(), String> {
        let ends = &ends[..ends.len().min(self.slots.ends.len())];
        self.slots.ends.expect("the ends of texts", ends)?;
        self.slots.text.expect("texts", bytes)
    }

    /// Requests for texts of a document that is turned back.
    pub(super) fn refused_texts(
        &mut self,
        (number, place): (u64, u64),
        n: usize,
        rng: &mut Rng,
    ) -> Result<(), String> {
        let request = request(rng, &[], n as u64);
        let room = room_for(rng, 60);
        self.compare_message(request, room, "", [REFUSED, number, place, 0], rng)?;
        let list = damaged_list(rng, &[], n as u64);
        let room = room_for(rng, 60);
        let answer = [REFUSED, number, place, 0, 0];
        self.compare_messages(&list, room, (&[], &[]), answer, rng)
    }

    /// The tally of a document's findings, and of a list with something changed.
    pub(super) fn tallies(&mut self, list: &[u64], n: u64, rng: &mut Rng) -> Result<(), String> {
        self.one_tally(list, rng)?;
        if rng.one_in(3) {
            let list = damaged_list(rng, list, n);
            self.one_tally(&list, rng)?;
        }
        Ok(())
    }

    fn one_tally(&mut self, list: &[u64], rng: &mut Rng) -> Result<(), String> {
        self.slots.list.put(list, rng);
        let room = room_for(rng, CODES);
        self.slots.counts.fill(room, rng);
        self.slots.fill_out(TALLY_WORDS, rng);
        self.slots.tally();
        let (counts, answer) = match tally(list) {
            Ok(counts) => (counts.to_vec(), [DONE, 0, 0]),
            Err(place) => (Vec::new(), [REFUSED, 11, place]),
        };
        let counts = &counts[..counts.len().min(room)];
        self.slots.counts.expect("the counts of a tally", counts)?;
        self.slots.list.expect("the list of a tally", &[])?;
        self.slots.expect_out("the answer of a tally", &answer)?;
        let words = list.len() + room + self.slots.out.len();
        self.counts.lent(&[8 * words]);
        self.counts.reached.answer(Function::Tally, answer[1]);
        Ok(())
    }
}
