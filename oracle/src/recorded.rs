//! The file of recorded answers; `recorded/README.md` defines its format.

use crate::document::Document;
use crate::forms::form_and_numbers;
use crate::published::Validated;
use crate::refusals::refusal;
use crate::unreadable::owed;

pub const MAGIC: &[u8; 8] = b"USFM3ANS";

/// A finding with its form and numbers.
#[derive(Clone, Debug, PartialEq, Eq)]
pub struct Finding {
    pub severity: u32,
    pub code: u32,
    pub start: u32,
    pub len: u32,
    pub form: u32,
    pub numbers: [u64; 2],
    pub message: String,
}

#[derive(Clone, Debug, PartialEq, Eq)]
pub enum Answer {
    /// Number and place.
    Refused(u32, u32),
    Checked(Vec<Finding>),
}

/// A document with its answer.
#[derive(Clone, Debug, PartialEq, Eq)]
pub struct Recorded {
    pub document: Document,
    pub answer: Answer,
}

/// The answer to a document with working lists that are long enough; `None` where the published
/// code's sums overflow.
pub fn answer(document: &Document) -> Result<Option<Answer>, String> {
    let n = document.node_count();
    if let Some((number, place)) = refusal(document, n, n) {
        let place = u32::try_from(place).map_err(|_| "a place past 32 bits")?;
        return Ok(Some(Answer::Refused(number, place)));
    }
    let Validated::Findings(list) = owed(document)? else {
        return Ok(None);
    };
    let mut findings = Vec::new();
    for found in list {
        let (form, first, second) = form_and_numbers(found.code, &found.message)?;
        findings.push(Finding {
            severity: found.severity,
            code: found.code,
            start: found.start,
            len: found.len,
            form: form as u32,
            numbers: [first, second],
            message: found.message,
        });
    }
    Ok(Some(Answer::Checked(findings)))
}

/// The bytes of the file.
pub fn write(list: &[Recorded]) -> Vec<u8> {
    let mut out = MAGIC.to_vec();
    put(&mut out, list.len());
    for recorded in list {
        write_one(&mut out, recorded);
    }
    out
}

fn put(out: &mut Vec<u8>, number: usize) {
    let word = u32::try_from(number).expect("a length below 32 bits");
    out.extend_from_slice(&word.to_le_bytes());
}

fn write_one(out: &mut Vec<u8>, recorded: &Recorded) {
    let Document {
        table,
        source,
        tape,
    } = &recorded.document;
    let lists = [table, source, tape];
    lists.iter().for_each(|list| put(out, list.len()));
    let (number, place, findings) = match &recorded.answer {
        Answer::Refused(number, place) => (*number, *place, [].as_slice()),
        Answer::Checked(findings) => (0, 0, findings.as_slice()),
    };
    put(out, number as usize);
    put(out, place as usize);
    put(out, findings.len());
    lists.iter().for_each(|list| out.extend_from_slice(list));
    findings
        .iter()
        .for_each(|finding| write_finding(out, finding));
}

fn write_finding(out: &mut Vec<u8>, finding: &Finding) {
    for word in [
        finding.severity,
        finding.code,
        finding.start,
        finding.len,
        finding.form,
    ] {
        out.extend_from_slice(&word.to_le_bytes());
    }
    for number in finding.numbers {
        out.extend_from_slice(&number.to_le_bytes());
    }
    put(out, finding.message.len());
    out.extend_from_slice(finding.message.as_bytes());
}

/// The recorded answers of a file, or what is wrong with it.
pub fn read(file: &[u8]) -> Result<Vec<Recorded>, String> {
    let mut rest = file
        .strip_prefix(MAGIC)
        .ok_or("no file of recorded answers")?;
    let mut list = Vec::new();
    for _ in 0..word(&mut rest)? {
        list.push(read_one(&mut rest)?);
    }
    match rest {
        [] => Ok(list),
        _ => Err(format!("{} bytes too many", rest.len())),
    }
}

fn take<'a>(rest: &mut &'a [u8], len: usize) -> Result<&'a [u8], String> {
    let (taken, after) = rest.split_at_checked(len).ok_or("the file is cut")?;
    *rest = after;
    Ok(taken)
}

fn word(rest: &mut &[u8]) -> Result<u32, String> {
    let bytes = take(rest, 4)?;
    Ok(u32::from_le_bytes(bytes.try_into().expect("four bytes")))
}

fn long_word(rest: &mut &[u8]) -> Result<u64, String> {
    let bytes = take(rest, 8)?;
    Ok(u64::from_le_bytes(bytes.try_into().expect("eight bytes")))
}

fn read_one(rest: &mut &[u8]) -> Result<Recorded, String> {
    let lengths = [word(rest)?, word(rest)?, word(rest)?];
    let (number, place, findings) = (word(rest)?, word(rest)?, word(rest)?);
    let document = Document {
        table: take(rest, lengths[0] as usize)?.to_vec(),
        source: take(rest, lengths[1] as usize)?.to_vec(),
        tape: take(rest, lengths[2] as usize)?.to_vec(),
    };
    let list = (0..findings)
        .map(|_| read_finding(rest))
        .collect::<Result<Vec<_>, _>>()?;
    let answer = match number {
        0 => Answer::Checked(list),
        _ => Answer::Refused(number, place),
    };
    Ok(Recorded { document, answer })
}

fn read_finding(rest: &mut &[u8]) -> Result<Finding, String> {
    Ok(Finding {
        severity: word(rest)?,
        code: word(rest)?,
        start: word(rest)?,
        len: word(rest)?,
        form: word(rest)?,
        numbers: [long_word(rest)?, long_word(rest)?],
        message: {
            let len = word(rest)? as usize;
            let bytes = take(rest, len)?.to_vec();
            String::from_utf8(bytes).map_err(|_| "a message isn't UTF-8")?
        },
    })
}

#[cfg(test)]
mod tests {
    use super::*;
    use crate::generate::generate;
    use crate::samples;

    fn recorded(document: Document) -> Option<Recorded> {
        let answer = answer(&document).unwrap()?;
        Some(Recorded { document, answer })
    }

    #[test]
    fn what_is_written_is_read_back() {
        let list: Vec<Recorded> = (0..300).filter_map(|s| recorded(generate(s))).collect();
        let file = write(&list);
        assert_eq!(read(&file).unwrap(), list);
        assert!(read(&file[..file.len() - 1]).is_err());
        assert!(read(&[&file[..], b"x"].concat()).is_err());
        assert!(read(b"USFM3ANT\0\0\0\0").is_err());
    }

    #[test]
    fn the_listing_example_is_recorded_byte_by_byte() {
        let listing = recorded(samples::listing()).unwrap();
        let file = write(std::slice::from_ref(&listing));
        let message = b"expected verse 1 but found 2";
        let mut expected = MAGIC.to_vec();
        for word in [1, listing.document.table.len() as u32, 25, 144, 0, 0, 1] {
            expected.extend_from_slice(&word.to_le_bytes());
        }
        expected.extend_from_slice(&listing.document.table);
        expected.extend_from_slice(&listing.document.source);
        expected.extend_from_slice(&listing.document.tape);
        for word in [1u32, 11, 16, 5, 0, 1, 0, 0, 0, message.len() as u32] {
            expected.extend_from_slice(&word.to_le_bytes());
        }
        expected.extend_from_slice(message);
        assert_eq!(file, expected);
    }
}
