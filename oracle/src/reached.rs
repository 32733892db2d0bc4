//! What a comparison reached: codes, forms, and refusals by function and number.

use std::cmp::Ordering;
use std::fmt::Write;

use crate::coverage::code_name;
use crate::forms::FORMS;
use crate::tallies::CODES;

/// The functions that turn a call back.
#[derive(Clone, Copy, PartialEq, Eq, Debug)]
pub enum Function {
    Check,
    /// The check through the binding's own lists.
    Checker,
    /// The check and its texts; number 13 stops it before a text.
    Report,
    Message,
    /// Numbers 12 and 13 stop it before a text.
    Messages,
    Tally,
    Mark,
    Read,
}

const FUNCTIONS: usize = 8;
const LAST_REFUSAL: usize = 18;
const ROOMS: [&str; 3] = ["too short", "exact", "longer"];

impl Function {
    const ALL: [Function; FUNCTIONS] = {
        use Function::*;
        [Check, Checker, Report, Message, Messages, Tally, Mark, Read]
    };

    fn name(self) -> &'static str {
        match self {
            Function::Check => "check",
            Function::Checker => "check through lists of its own",
            Function::Report => "report",
            Function::Message => "message",
            Function::Messages => "messages",
            Function::Tally => "tally",
            Function::Mark => "mark",
            Function::Read => "read",
        }
    }

    /// The numbers that turn its calls back, as documents 01 and 02 have them.
    fn numbers(self) -> &'static [usize] {
        match self {
            Function::Check => &[1, 2, 3, 4, 5, 6, 7, 8, 9, 10],
            Function::Checker => &[1, 2, 3, 4, 5, 6, 7, 8, 9],
            Function::Report => &[1, 2, 3, 4, 5, 6, 7, 8, 9, 10, 13],
            Function::Message | Function::Messages => &[1, 2, 3, 4, 5, 6, 7, 8, 9, 12, 13],
            Function::Tally => &[11],
            Function::Mark => &[14, 15],
            Function::Read => &[1, 2, 3, 16, 17, 18],
        }
    }
}

#[derive(Clone, Debug, PartialEq, Eq)]
pub struct Reached {
    /// Findings by code.
    codes: [u64; CODES],
    /// Findings, beside `FORMS`.
    forms: [u64; FORMS.len()],
    /// Texts that are there and were requested one by one, beside `FORMS`: into a list that is too short, exact, longer.
    texts: [[u64; ROOMS.len()]; FORMS.len()],
    /// By function and number; number 0 stands for calls that weren't turned back.
    answers: [[u64; LAST_REFUSAL + 1]; FUNCTIONS],
}

impl Default for Reached {
    fn default() -> Reached {
        Reached {
            codes: [0; CODES],
            forms: [0; FORMS.len()],
            texts: [[0; ROOMS.len()]; FORMS.len()],
            answers: [[0; LAST_REFUSAL + 1]; FUNCTIONS],
        }
    }
}

fn form_place(code: u64, form: u64) -> Option<usize> {
    let is_this = |&(c, f): &(u32, u64)| (u64::from(c), f) == (code, form);
    FORMS.iter().position(is_this)
}

fn sum(of: &mut [u64], more: &[u64]) {
    for (count, more) in of.iter_mut().zip(more) {
        *count += more;
    }
}

impl Reached {
    pub fn finding(&mut self, code: u64, form: u64) {
        self.codes[code as usize] += 1;
        if let Some(place) = form_place(code, form) {
            self.forms[place] += 1;
        }
    }

    /// A text of this code and form is there and was requested; its list's length compares so with the text's.
    pub fn text(&mut self, code: u64, form: u64, room: Ordering) {
        if let Some(place) = form_place(code, form) {
            self.texts[place][(room as i8 + 1) as usize] += 1;
        }
    }

    /// An answer of a function: the number of its refusal, or 0.
    pub fn answer(&mut self, function: Function, number: u64) {
        self.answers[function as usize][number as usize] += 1;
    }

    pub fn add(&mut self, other: &Reached) {
        sum(&mut self.codes, &other.codes);
        sum(&mut self.forms, &other.forms);
        for (ours, theirs) in self.texts.iter_mut().zip(&other.texts) {
            sum(ours, theirs);
        }
        for (ours, theirs) in self.answers.iter_mut().zip(&other.answers) {
            sum(ours, theirs);
        }
    }

    /// A table of the counts.
    pub fn report(&self) -> String {
        let mut out = row("code, form", &["findings"].map(String::from));
        out.push_str(&row(
            "  texts one by one, into a list",
            &ROOMS.map(String::from),
        ));
        for code in 0..CODES {
            let name = format!("{code:>2} {}", code_name(code as u32));
            out.push_str(&row(&name, &[self.codes[code].to_string()]));
            for (place, (_, form)) in forms_of(code) {
                let mut counts = vec![self.forms[place].to_string()];
                counts.extend(self.texts[place].iter().map(u64::to_string));
                out.push_str(&row(&format!("     form {form}"), &counts));
            }
        }
        for function in Function::ALL {
            writeln!(out, "{}", self.answers_of(function)).expect(TAKES_ALL);
        }
        out
    }

    /// How often a function answered, and how often each number turned a call back.
    pub fn answers_of(&self, function: Function) -> String {
        let answers = self.answers[function as usize];
        let mut out = format!("{}: {} answered", function.name(), answers[0]);
        for &number in function.numbers() {
            write!(out, ", {number}: {}", answers[number]).expect(TAKES_ALL);
        }
        out
    }

    /// What was never reached though it can be.
    pub fn unreached(&self) -> Vec<String> {
        let mut unreached = Vec::new();
        for (place, (code, form)) in FORMS.iter().enumerate() {
            let name = format!("code {code} {} form {form}", code_name(*code));
            if self.forms[place] == 0 {
                unreached.push(format!("{name} among the findings"));
            }
            for (count, room) in self.texts[place].iter().zip(ROOMS) {
                if *count == 0 {
                    unreached.push(format!("{name}, its text into a list that is {room}"));
                }
            }
        }
        for function in Function::ALL {
            unreached.extend(self.unreached_of(function));
        }
        unreached
    }

    /// The answers of a function that were never reached.
    pub fn unreached_of(&self, function: Function) -> Vec<String> {
        let missing = |&&number: &&usize| self.answers[function as usize][number] == 0;
        let numbers = [0].iter().chain(function.numbers()).filter(missing);
        let named = |number: &usize| format!("{}, number {number}", function.name());
        numbers.map(named).collect()
    }
}

const TAKES_ALL: &str = "a string takes all";

fn row(name: &str, columns: &[String]) -> String {
    let columns = columns.iter().map(|column| format!("{column:>12}"));
    format!("{name:<36}{}\n", columns.collect::<String>())
}

/// The forms of a code, each with its place in `FORMS`.
fn forms_of(code: usize) -> impl Iterator<Item = (usize, (u32, u64))> {
    let all = FORMS.iter().copied().enumerate();
    all.filter(move |(_, (its_code, _))| *its_code as usize == code)
}

#[cfg(test)]
mod tests {
    use super::*;

    #[test]
    fn everything_is_unreached_until_it_is_reached() {
        let mut reached = Reached::default();
        let calls = 1 + 10 + 1 + 9 + 3 * (1 + 11) + 1 + 1 + 1 + 2 + 1 + 6;
        assert_eq!(reached.unreached().len(), 4 * FORMS.len() + calls);
        for (code, form) in FORMS {
            reached.finding(code.into(), form);
        }
        assert_eq!(reached.unreached().len(), 3 * FORMS.len() + calls);
        for (code, form) in FORMS {
            for room in [1, 2, 3] {
                reached.text(code.into(), form, room.cmp(&2));
            }
        }
        assert_eq!(reached.unreached().len(), calls);
        for function in Function::ALL {
            for &number in [0].iter().chain(function.numbers()) {
                reached.answer(function, number as u64);
            }
        }
        assert_eq!(reached.unreached(), [""; 0]);
    }

    #[test]
    fn sums_are_those_of_the_parts() {
        let mut one = Reached::default();
        one.finding(17, 3);
        one.text(34, 0, Ordering::Less);
        one.answer(Function::Tally, 11);
        let mut two = one.clone();
        two.add(&one);
        assert_eq!((two.codes[17], two.texts[31]), (2, [2, 0, 0]));
        assert_eq!(two.unreached(), one.unreached());
        assert!(two.report().contains("tally: 0 answered, 11: 2\n"));
    }
}
