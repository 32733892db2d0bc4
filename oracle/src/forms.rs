//! Form and numbers of a finding, read back out of its message.

/// Every pair of code and form that the published validate.rs can give, and the two of document 02's code 35.
pub const FORMS: [(u32, u64); 34] = [
    (4, 0),
    (5, 0),
    (5, 1),
    (6, 0),
    (7, 0),
    (8, 0),
    (9, 0),
    (10, 0),
    (11, 0),
    (12, 0),
    (13, 0),
    (14, 0),
    (15, 0),
    (15, 1),
    (16, 0),
    (16, 1),
    (17, 0),
    (17, 1),
    (17, 2),
    (17, 3),
    (18, 0),
    (19, 0),
    (20, 0),
    (21, 0),
    (22, 0),
    (23, 0),
    (24, 0),
    (25, 0),
    (27, 0),
    (32, 0),
    (33, 0),
    (34, 0),
    (35, 0),
    (35, 1),
];

/// The messages without a filling, by code and form.
pub(crate) const CONSTANT: &[(u32, u64, &str)] = &[
    (
        4,
        0,
        r"document has chapters/verses but no \id (book) marker",
    ),
    (6, 0, r"more than one \id marker"),
    (7, 0, r"text appears before the \id marker"),
    (8, 0, r"the document has no \c (chapter) marker"),
    (
        12,
        0,
        r"\v is not inside a body paragraph (e.g. \c or \s directly followed by \v with no \p)",
    ),
    (14, 0, r"\b (blank line) must not contain content"),
    (17, 0, "empty attribute list after `|`"),
    (17, 1, r#"attribute key without a `="value"`"#),
    (17, 2, r#"attribute has an empty value (e.g. `lemma=""`)"#),
    (17, 3, "unterminated quoted attribute value"),
    (18, 0, r"\c is missing its chapter number"),
    (19, 0, r"\v is missing its verse number"),
    (
        20,
        0,
        r"a character marker spans a verse boundary (\v inside a \char span)",
    ),
    (21, 0, r"\fig has no caption content"),
    (22, 0, "attribute value must be quoted"),
    (25, 0, r"\w has no text content or attributes"),
];

/// A finding's form and its two numbers as document 01 defines them.
///
/// DefaultAttributeNotDefined's number is its owner's node, which no message shows: it is given
/// as 0. A message that is no known text of its code is an error.
pub fn form_and_numbers(code: u32, message: &str) -> Result<(u64, u64, u64), String> {
    constant_form(code, message)
        .or_else(|| filled_form(code, message))
        .ok_or_else(|| format!("code {code} has no such message: {message:?}"))
}

fn constant_form(code: u32, message: &str) -> Option<(u64, u64, u64)> {
    let known = |&&(its_code, _, text): &&(u32, u64, &str)| its_code == code && text == message;
    let &(_, form, _) = CONSTANT.iter().find(known)?;
    Some((form, 0, 0))
}

fn filled_form(code: u32, message: &str) -> Option<(u64, u64, u64)> {
    match code {
        5 => Some((book_code_form(message)?, 0, 0)),
        9 => two_numbers(message, "expected chapter ", " but found "),
        10 => duplicate_chapter(message),
        11 => expected_verse(message),
        13 => filled(message, r"\", " is only valid inside a note"),
        15 => Some((leading_zeros_form(message)?, 0, 0)),
        16 => Some((milestone_form(message)?, 0, 0)),
        23 => filled(
            message,
            r"\",
            r#" is missing its required "gloss" attribute"#,
        ),
        24 => filled(
            message,
            r"body paragraph \",
            r" appears before any \c (chapter)",
        ),
        27 => two_numbers(message, "expected table column ", " but found column "),
        32 => filled(
            message,
            r"\",
            " has no default attribute; the value after `|` is invalid",
        ),
        33 => misplaced_number(message),
        34 => glued_number(message),
        35 => Some((unreadable_form(message)?, 0, 0)),
        _ => None,
    }
}

/// Form 0 without numbers, where the message is a filling between these two texts.
fn filled(message: &str, before: &str, after: &str) -> Option<(u64, u64, u64)> {
    message.strip_prefix(before)?.strip_suffix(after)?;
    Some((0, 0, 0))
}

fn two_numbers(message: &str, before: &str, between: &str) -> Option<(u64, u64, u64)> {
    let (expected, found) = message.strip_prefix(before)?.split_once(between)?;
    Some((0, number(expected)?, number(found)?))
}

/// A number as `{}` prints it: digits only.
fn number(text: &str) -> Option<u64> {
    let digits = !text.is_empty() && text.bytes().all(|byte| byte.is_ascii_digit());
    digits.then(|| text.parse().ok())?
}

fn duplicate_chapter(message: &str) -> Option<(u64, u64, u64)> {
    let rest = message.strip_prefix("chapter ")?;
    let chapter = rest.strip_suffix(" appears more than once")?;
    Some((0, number(chapter)?, 0))
}

/// The expected verse is digits with one byte or none after them, which may be `{` after `z`.
fn expected_verse(message: &str) -> Option<(u64, u64, u64)> {
    let rest = message.strip_prefix("expected verse ")?;
    let (expected, _label) = rest.split_once(" but found ")?;
    let end = expected
        .find(|c: char| !c.is_ascii_digit())
        .unwrap_or(expected.len());
    let letter = match expected.as_bytes()[end..] {
        [] => 0,
        [letter @ b'b'..=b'{'] => u64::from(letter),
        _ => return None,
    };
    Some((0, number(&expected[..end])?, letter))
}

fn book_code_form(message: &str) -> Option<u64> {
    if let Some(rest) = message.strip_prefix("book code \"") {
        let (code, upper) = rest.split_once("\" should be uppercase: \"")?;
        let upper = upper.strip_suffix('"')?;
        return (code.to_ascii_uppercase() == upper).then_some(0);
    }
    let rest = message.strip_prefix('"')?;
    rest.strip_suffix("\" is not a valid USFM book code")?;
    Some(1)
}

fn leading_zeros_form(message: &str) -> Option<u64> {
    let rest = message.strip_suffix("` has leading zeros")?;
    if rest.starts_with("chapter number `0") {
        return Some(0);
    }
    rest.starts_with("verse number `0").then_some(1)
}

/// A base holds no blank and no backslash, so the middle text parts the two names.
fn milestone_form(message: &str) -> Option<u64> {
    let rest = message.strip_prefix(r"milestone \")?;
    let (this, other) = rest.split_once(r" has no matching \")?;
    if let Some(base) = this.strip_suffix("-s") {
        return (other.strip_suffix("-e") == Some(base)).then_some(0);
    }
    let base = this.strip_suffix("-e")?;
    (other.strip_suffix("-s") == Some(base)).then_some(1)
}

fn misplaced_number(message: &str) -> Option<(u64, u64, u64)> {
    for (name, anchor, unit) in [
        ("ca", "c", "chapter"),
        ("cp", "c", "chapter"),
        ("va", "v", "verse"),
        ("vp", "v", "verse"),
    ] {
        let text = format!(
            "\\{name} must directly follow its \\{anchor} (at most once per {unit}); it is kept as character text"
        );
        if text == message {
            return Some((0, 0, 0));
        }
    }
    None
}

/// The name is base and label joined, and neither is empty of a backslash or a blank.
fn glued_number(message: &str) -> Option<(u64, u64, u64)> {
    let rest = message.strip_prefix('\\')?;
    let (name, read) = rest.split_once(r" needs a space before its number; read as \")?;
    let (base, label) = read.split_once(' ')?;
    (name.len() == base.len() + label.len() && name.starts_with(base) && name.ends_with(label))
        .then_some((0, 0, 0))
}

/// A label holds no blank, so that the text behind it says which form it is.
fn unreadable_form(message: &str) -> Option<u64> {
    let (label, text) = message.strip_prefix("verse label ")?.split_once(' ')?;
    match text {
        _ if label.is_empty() => None,
        "has no number" => Some(0),
        "is too large" => Some(1),
        _ => None,
    }
}

#[cfg(test)]
mod tests {
    use super::*;

    /// One message of each text with what document 01 says of it.
    const FILLED: &[(u32, &str, (u64, u64, u64))] = &[
        (
            5,
            r#"book code "gen" should be uppercase: "GEN""#,
            (0, 0, 0),
        ),
        (5, r#""XYZ" is not a valid USFM book code"#, (1, 0, 0)),
        (5, r#""book" is not a valid USFM book code"#, (1, 0, 0)),
        (
            9,
            "expected chapter 2 but found 4294967295",
            (0, 2, 4294967295),
        ),
        (10, "chapter 7 appears more than once", (0, 7, 0)),
        (11, "expected verse 10 but found 9", (0, 10, 0)),
        (11, "expected verse 9b but found 9", (0, 9, 98)),
        (11, "expected verse 9{ but found x", (0, 9, 123)),
        (11, "expected verse 1 but found 2 but found 3", (0, 1, 0)),
        (13, r"\fr is only valid inside a note", (0, 0, 0)),
        (15, "chapter number `01` has leading zeros", (0, 0, 0)),
        (15, "verse number `01` has leading zeros", (1, 0, 0)),
        (16, r"milestone \qt-s has no matching \qt-e", (0, 0, 0)),
        (16, r"milestone \qt-e has no matching \qt-s", (1, 0, 0)),
        (16, r"milestone \x-e-s has no matching \x-e-e", (0, 0, 0)),
        (16, r"milestone \-e has no matching \-s", (1, 0, 0)),
        (
            23,
            r#"\rb is missing its required "gloss" attribute"#,
            (0, 0, 0),
        ),
        (
            24,
            r"body paragraph \p appears before any \c (chapter)",
            (0, 0, 0),
        ),
        (27, "expected table column 1 but found column 3", (0, 1, 3)),
        (
            32,
            r"\pn has no default attribute; the value after `|` is invalid",
            (0, 0, 0),
        ),
        (
            33,
            r"\ca must directly follow its \c (at most once per chapter); it is kept as character text",
            (0, 0, 0),
        ),
        (
            33,
            r"\vp must directly follow its \v (at most once per verse); it is kept as character text",
            (0, 0, 0),
        ),
        (
            34,
            r"\v3b needs a space before its number; read as \v 3b",
            (0, 0, 0),
        ),
        (35, "verse label abc has no number", (0, 0, 0)),
        (35, "verse label -3 has no number", (0, 0, 0)),
        (35, "verse label 4294967296-3a is too large", (1, 0, 0)),
    ];

    #[test]
    fn each_filled_text_is_read_back() {
        for &(code, message, expected) in FILLED {
            assert_eq!(form_and_numbers(code, message), Ok(expected), "{message}");
        }
    }

    #[test]
    fn each_constant_text_is_read_back() {
        for &(code, form, message) in CONSTANT {
            assert_eq!(form_and_numbers(code, message), Ok((form, 0, 0)));
        }
    }

    #[test]
    fn the_texts_cover_the_list_of_forms() {
        let mut reached: Vec<(u32, u64)> = CONSTANT.iter().map(|&(c, f, _)| (c, f)).collect();
        reached.extend(FILLED.iter().map(|&(code, _, (form, _, _))| (code, form)));
        reached.sort();
        reached.dedup();
        assert_eq!(reached, FORMS);
    }

    #[test]
    fn other_texts_are_errors() {
        for (code, message) in [
            (4, "more than one \\id marker"),
            (5, "book code \"gen\" should be uppercase: \"EXO\""),
            (9, "expected chapter +1 but found 2"),
            (11, "expected verse 9bc but found 9"),
            (11, "expected verse 9a but found 9"),
            (15, "verse number `10` has leading zeros"),
            (16, r"milestone \qt-s has no matching \qt-s"),
            (17, ""),
            (26, ""),
            (
                33,
                r"\ca must directly follow its \v (at most once per verse); it is kept as character text",
            ),
            (34, r"\v3b needs a space before its number; read as \v 3"),
            (35, "more than one \\id marker"),
            (35, "verse label  has no number"),
            (35, "verse label abc is large"),
            (35, "verse number abc has no number"),
            (36, "verse label abc has no number"),
        ] {
            assert!(form_and_numbers(code, message).is_err(), "{message}");
        }
    }
}
