//! Severities and codes, with the names of the published `Severity` and `DiagnosticCode`; the last code isn't published.

use std::fmt;

/// How grave a finding is.
#[derive(Clone, Copy, PartialEq, Eq, Hash, Debug)]
#[repr(u8)]
pub enum Severity {
    /// Malformed.
    Error,
    /// Well formed enough, but suspicious.
    Warning,
    /// Guidance that changes no meaning.
    Info,
}

impl Severity {
    const ALL: [Severity; 3] = [Severity::Error, Severity::Warning, Severity::Info];

    /// The severity of a number; `None` over 2.
    pub fn from_index(index: usize) -> Option<Severity> {
        Severity::ALL.get(index).copied()
    }

    /// Its number: 0 error, 1 warning, 2 info.
    pub const fn index(self) -> usize {
        self as usize
    }

    /// Its name in small letters.
    pub const fn as_str(self) -> &'static str {
        match self {
            Severity::Error => "error",
            Severity::Warning => "warning",
            Severity::Info => "info",
        }
    }
}

impl fmt::Display for Severity {
    fn fmt(&self, f: &mut fmt::Formatter<'_>) -> fmt::Result {
        f.pad(self.as_str())
    }
}

/// Writes the codes once, for the enum, the list and the names.
macro_rules! codes {
    ($($(#[$doc:meta])* $name:ident,)*) => {
        /// What a finding is about. Its number is its place here, from 0.
        ///
        /// The check gives no finding of a code that is marked as the parser's.
        #[derive(Clone, Copy, PartialEq, Eq, Hash, Debug)]
        #[non_exhaustive]
        #[repr(u8)]
        pub enum Code {
            $($(#[$doc])* $name,)*
        }

        impl Code {
            /// Every code, in the order of the numbers.
            pub const ALL: [Code; Code::COUNT] = [$(Code::$name),*];

            /// How many codes there are.
            pub const COUNT: usize = [$(stringify!($name)),*].len();

            /// Its name, which is stable.
            pub const fn as_str(self) -> &'static str {
                match self {
                    $(Code::$name => stringify!($name),)*
                }
            }
        }
    };
}

codes! {
    /// The parser's.
    UnknownMarker,
    /// The parser's.
    UnclosedMarker,
    /// The parser's.
    StrayCloseMarker,
    /// The parser's.
    StrayBackslash,
    /// Chapters or verses without `\id`.
    MissingIdMarker,
    /// A book code that isn't on the list.
    InvalidBookCode,
    /// A second `\id`.
    DuplicateId,
    /// Text before `\id`.
    TextBeforeId,
    /// A book without a chapter.
    MissingChapterMarker,
    /// A chapter that isn't the next.
    InvalidChapterSequence,
    /// A chapter's number for a second time.
    DuplicateChapter,
    /// A verse that isn't the next.
    InvalidVerseSequence,
    /// A verse outside any body paragraph; reported once.
    VerseOutsideParagraph,
    /// A marker of notes outside any note.
    NoteSubmarkerOutsideNote,
    /// `\b` with content.
    NonEmptyBlankLine,
    /// A chapter's or verse's number that begins with 0.
    LeadingZeros,
    /// A milestone start without its end, or an end without its start.
    MilestoneMismatch,
    /// An empty attribute list, a key without a value, a value whose quote isn't closed; as an info, an empty value.
    InvalidAttributes,
    /// `\c` without a number.
    MissingChapterNumber,
    /// `\v` without a number.
    MissingVerseNumber,
    /// A verse inside a character marker.
    CharCrossesVerseBoundary,
    /// `\fig` without a caption.
    EmptyFigure,
    /// An attribute's value without quotes.
    UnquotedAttributeValue,
    /// A marker without an attribute that it must have.
    MissingRequiredAttribute,
    /// A body paragraph before the first chapter.
    BodyParagraphBeforeChapter,
    /// `\w` without text or attributes.
    EmptyWordMarker,
    /// The parser's.
    MissingMilestoneSelfClose,
    /// A table cell that isn't in the next column.
    InvalidTableColumnSequence,
    /// The parser's.
    DeprecatedMarker,
    /// The parser's.
    ImplicitClose,
    /// The parser's.
    UnclosedNote,
    /// The parser's.
    UnclosedAtEof,
    /// A value without a key at a marker that has no default attribute.
    DefaultAttributeNotDefined,
    /// `\ca`, `\cp`, `\va` or `\vp` that doesn't directly follow its chapter or verse.
    MisplacedNumberMarker,
    /// A number glued to `\c` or `\v`.
    MissingSpaceBeforeNumber,
    /// A verse's label that begins with no digit, or whose number is over 4,294,967,295.
    UnreadableVerseNumber,
}

impl Code {
    /// The code of a number; `None` if there is none.
    ///
    /// ```
    /// use harkoxin::Code;
    ///
    /// assert_eq!(Code::from_index(11), Some(Code::InvalidVerseSequence));
    /// assert_eq!(Code::from_index(Code::COUNT), None);
    /// ```
    pub fn from_index(index: usize) -> Option<Code> {
        Code::ALL.get(index).copied()
    }

    /// Its number.
    pub const fn index(self) -> usize {
        self as usize
    }
}

impl fmt::Display for Code {
    fn fmt(&self, f: &mut fmt::Formatter<'_>) -> fmt::Result {
        f.pad(self.as_str())
    }
}
