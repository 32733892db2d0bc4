/*
 * The check of a USFM document, for C99 and C++. Link with libharkoxin.a, which `bin/build harkoxin` writes; it needs memcpy
 * and memset and nothing else.
 *
 * A document is three lists of bytes:
 *
 *   table   the marker table: for each marker the lines `name=`, `category=`, `role=`, each ended by byte 10
 *   source  UTF-8, at most 1,048,576 bytes
 *   tape    1 to 65,535 nodes of 16 bytes, little-endian: kind (1 byte), flags (1), marker (2), start, len, link (4 each)
 *
 * A parser makes the tape, or harkoxin_read of a text of one's own.
 *
 * Each list is passed as a pointer and the number of its elements. A list that is written must not overlap another one, and
 * each must be aligned as its type is. Nothing else is required: lists may be of any length and hold anything, and the pointer
 * of a list of length 0 isn't read, so that it may be NULL.
 *
 * Each function writes its answer over `out`, as far as that has room. Its first word is the verdict; a refusal says by a number
 * what turned the call back, and by a place where. Nothing is kept between calls, so that threads may call at the same time.
 */
#ifndef HARKOXIN_H
#define HARKOXIN_H

#include <stddef.h>
#include <stdint.h>

#ifdef __cplusplus
extern "C" {
#endif

/* Verdicts. */
enum {
    HARKOXIN_DONE = 0,   /* all that was requested is done */
    HARKOXIN_CUT = 1,    /* the findings list of a check is cut, or the texts stop before one */
    HARKOXIN_REFUSED = 2 /* turned back */
};

/* The numbers of refusals: what each says, and its place. */
enum {
    HARKOXIN_BAD_TABLE = 1,            /* the table breaks its layout: byte of the table */
    HARKOXIN_LONG_SOURCE = 2,          /* the source is too long: 0 */
    HARKOXIN_BAD_SOURCE = 3,           /* the source isn't UTF-8: byte of the source */
    HARKOXIN_BAD_LENGTH = 4,           /* the tape is empty, no whole number of nodes, or over 65,535 nodes: 0 */
    HARKOXIN_BAD_KIND = 5,             /* a kind over 8, or a root missing at node 0 or present elsewhere: node */
    HARKOXIN_BAD_SPAN = 6,             /* a span leaves the source or splits a character: node */
    HARKOXIN_BAD_LINKS = 7,            /* the links don't pair: 0 for the root's, else the close, else the number of nodes */
    HARKOXIN_TOO_DEEP = 8,             /* a node opens inside 64 open ones: node */
    HARKOXIN_BAD_LABEL = 9,            /* a chapter's or verse's number begins inside a character: node */
    HARKOXIN_SHORT_WORKING_LIST = 10,  /* a working list has no entry for each node: the number of nodes */
    HARKOXIN_BAD_LIST = 11,            /* a findings list has a rest, or a severity or code that is unknown: record */
    HARKOXIN_NO_TEXT = 12,             /* the finding has no text in this document: 0 */
    HARKOXIN_SHORT_TEXT_LIST = 13,     /* the list is too short for the text: bytes needed */
    HARKOXIN_LARGE_COUNT = 14,         /* a count of errors, warnings or verses is over 1,000,000: 0 */
    HARKOXIN_NO_VERSES = 15,           /* there are no verses to mark: 0 */
    HARKOXIN_BAD_MARKER = 16,          /* a marker that the table doesn't have, or of category other: byte of its backslash */
    HARKOXIN_UNMATCHED_MARKER = 17,    /* a close without its open innermost, a milestone that isn't closed, or a block marker, a
                                          chapter or the text's end with a character or note open: byte of the backslash, a
                                          milestone's own, or the text's length */
    HARKOXIN_SHORT_NODE_LIST = 18      /* the list is too short for the nodes: nodes needed */
};

/* The bytes of a node on a tape. */
enum {
    HARKOXIN_NODE_BYTES = 16
};

/* The words of a finding in a list. */
enum {
    HARKOXIN_FINDING_SEVERITY = 0,
    HARKOXIN_FINDING_CODE = 1,
    HARKOXIN_FINDING_START = 2,  /* in the source, in bytes */
    HARKOXIN_FINDING_LEN = 3,
    HARKOXIN_FINDING_NODE = 4,   /* the node whose span it has; 0 where it is about the whole document */
    HARKOXIN_FINDING_FORM = 5,   /* which of its code's texts, from 0 */
    HARKOXIN_FINDING_FIRST = 6,  /* two numbers, by the code */
    HARKOXIN_FINDING_SECOND = 7,
    HARKOXIN_FINDING_WORDS = 8
};

/* Severities. */
enum {
    HARKOXIN_ERROR = 0,
    HARKOXIN_WARNING = 1,
    HARKOXIN_INFO = 2
};

/*
 * Codes, named as in the published `DiagnosticCode`, which lacks 35. The check gives no finding of 0 to 3, 26 and 28 to 31, which
 * are a parser's. The two numbers of a finding are 0 but for 9 and 27 (expected, found), 10 (the chapter), 11 (the expected
 * number, the byte of its letter or 0) and 32 (the node of the marker around it). The form of 35 is 0 where a verse's label
 * begins with no digit, 1 where its number is over 4,294,967,295.
 */
enum {
    HARKOXIN_UNKNOWN_MARKER = 0,
    HARKOXIN_UNCLOSED_MARKER = 1,
    HARKOXIN_STRAY_CLOSE_MARKER = 2,
    HARKOXIN_STRAY_BACKSLASH = 3,
    HARKOXIN_MISSING_ID_MARKER = 4,
    HARKOXIN_INVALID_BOOK_CODE = 5,
    HARKOXIN_DUPLICATE_ID = 6,
    HARKOXIN_TEXT_BEFORE_ID = 7,
    HARKOXIN_MISSING_CHAPTER_MARKER = 8,
    HARKOXIN_INVALID_CHAPTER_SEQUENCE = 9,
    HARKOXIN_DUPLICATE_CHAPTER = 10,
    HARKOXIN_INVALID_VERSE_SEQUENCE = 11,
    HARKOXIN_VERSE_OUTSIDE_PARAGRAPH = 12,
    HARKOXIN_NOTE_SUBMARKER_OUTSIDE_NOTE = 13,
    HARKOXIN_NON_EMPTY_BLANK_LINE = 14,
    HARKOXIN_LEADING_ZEROS = 15,
    HARKOXIN_MILESTONE_MISMATCH = 16,
    HARKOXIN_INVALID_ATTRIBUTES = 17,
    HARKOXIN_MISSING_CHAPTER_NUMBER = 18,
    HARKOXIN_MISSING_VERSE_NUMBER = 19,
    HARKOXIN_CHAR_CROSSES_VERSE_BOUNDARY = 20,
    HARKOXIN_EMPTY_FIGURE = 21,
    HARKOXIN_UNQUOTED_ATTRIBUTE_VALUE = 22,
    HARKOXIN_MISSING_REQUIRED_ATTRIBUTE = 23,
    HARKOXIN_BODY_PARAGRAPH_BEFORE_CHAPTER = 24,
    HARKOXIN_EMPTY_WORD_MARKER = 25,
    HARKOXIN_MISSING_MILESTONE_SELF_CLOSE = 26,
    HARKOXIN_INVALID_TABLE_COLUMN_SEQUENCE = 27,
    HARKOXIN_DEPRECATED_MARKER = 28,
    HARKOXIN_IMPLICIT_CLOSE = 29,
    HARKOXIN_UNCLOSED_NOTE = 30,
    HARKOXIN_UNCLOSED_AT_EOF = 31,
    HARKOXIN_DEFAULT_ATTRIBUTE_NOT_DEFINED = 32,
    HARKOXIN_MISPLACED_NUMBER_MARKER = 33,
    HARKOXIN_MISSING_SPACE_BEFORE_NUMBER = 34,
    HARKOXIN_UNREADABLE_VERSE_NUMBER = 35,
    HARKOXIN_CODES = 36
};

/* The answer of harkoxin_check. After a refusal the words from the total on are 0. */
enum {
    HARKOXIN_CHECK_VERDICT = 0, /* done, cut or refused */
    HARKOXIN_CHECK_NUMBER = 1,
    HARKOXIN_CHECK_PLACE = 2,
    HARKOXIN_CHECK_TOTAL = 3,   /* how many findings the document has */
    HARKOXIN_CHECK_WRITTEN = 4, /* how many of them the list holds */
    HARKOXIN_CHECK_VERSES = 5,
    HARKOXIN_CHECK_ERRORS = 6,  /* of all findings, as the next two */
    HARKOXIN_CHECK_WARNINGS = 7,
    HARKOXIN_CHECK_INFOS = 8,
    HARKOXIN_CHECK_WORDS = 9
};

/* An entry of the open starts: a milestone's start that no end has taken yet. */
typedef struct harkoxin_open_start {
    uint32_t node;
    uint32_t base_len; /* the length of its base, in bytes */
} harkoxin_open_start;

/* The library counts on 8 bytes for each; with another size this type is an error. */
typedef char harkoxin_open_start_has_8_bytes[sizeof(harkoxin_open_start) == 8 ? 1 : -1];

/*
 * Checks a document: its findings are written over `list`, as far as that has room for whole ones. Numbers 1 to 10.
 *
 * The working lists `seen` and `opens` need an entry for each node. What they hold doesn't matter. After a checked document the
 * entries of the nodes are zero, both fields of an open start, and the rest of each list is as it was. After a refusal every list
 * is as it was.
 */
void harkoxin_check(
    const uint8_t *table, size_t table_len,
    const uint8_t *source, size_t source_len,
    const uint8_t *tape, size_t tape_len,
    uint32_t *seen, size_t seen_len,
    harkoxin_open_start *opens, size_t opens_len,
    uint64_t *list, size_t list_len,
    uint64_t *out, size_t out_len);

/* The answer of harkoxin_message. */
enum {
    HARKOXIN_MESSAGE_VERDICT = 0, /* done or refused */
    HARKOXIN_MESSAGE_NUMBER = 1,
    HARKOXIN_MESSAGE_PLACE = 2,
    HARKOXIN_MESSAGE_LEN = 3,     /* the text's length in bytes */
    HARKOXIN_MESSAGE_WORDS = 4
};

/*
 * Writes the text of one finding over `text`: UTF-8, without a byte 0 at its end. The finding is given by five of its words.
 * Numbers 1 to 9, 12 and 13; after a refusal `text` is as it was.
 */
void harkoxin_message(
    const uint8_t *table, size_t table_len,
    const uint8_t *source, size_t source_len,
    const uint8_t *tape, size_t tape_len,
    uint64_t code, uint64_t form, uint64_t node, uint64_t first, uint64_t second,
    uint8_t *text, size_t text_len,
    uint64_t *out, size_t out_len);

/* The answer of harkoxin_messages. */
enum {
    HARKOXIN_MESSAGES_VERDICT = 0, /* done, cut or refused */
    HARKOXIN_MESSAGES_NUMBER = 1,  /* cut: what turns the next text back, 12 or 13 */
    HARKOXIN_MESSAGES_PLACE = 2,   /* cut by 13: the bytes that the next text needs */
    HARKOXIN_MESSAGES_WRITTEN = 3, /* how many texts were written */
    HARKOXIN_MESSAGES_LEN = 4,     /* the bytes that they take */
    HARKOXIN_MESSAGES_WORDS = 5
};

/*
 * Writes the texts of a list's findings over `text`, one behind another, up to the first that has none or no room; `ends` says
 * where each ends, as far as it has room. A rest of fewer than HARKOXIN_FINDING_WORDS words isn't looked at. It reads the document
 * once, where harkoxin_message reads it for each text. Refused by numbers 1 to 9, when nothing is written.
 */
void harkoxin_messages(
    const uint8_t *table, size_t table_len,
    const uint8_t *source, size_t source_len,
    const uint8_t *tape, size_t tape_len,
    const uint64_t *list, size_t list_len,
    uint64_t *ends, size_t ends_len,
    uint8_t *text, size_t text_len,
    uint64_t *out, size_t out_len);

/* The answer of harkoxin_report: that of harkoxin_check, then that of harkoxin_messages from this word on. */
enum {
    HARKOXIN_REPORT_MESSAGES = HARKOXIN_CHECK_WORDS,
    HARKOXIN_REPORT_WORDS = HARKOXIN_CHECK_WORDS + HARKOXIN_MESSAGES_WORDS
};

/*
 * Checks a document as harkoxin_check does, and writes the texts of the findings that `list` then holds as harkoxin_messages
 * does, by one reading of the document. Refused by numbers 1 to 10, which both answers say; then every list but `out` is as it
 * was.
 */
void harkoxin_report(
    const uint8_t *table, size_t table_len,
    const uint8_t *source, size_t source_len,
    const uint8_t *tape, size_t tape_len,
    uint32_t *seen, size_t seen_len,
    harkoxin_open_start *opens, size_t opens_len,
    uint64_t *list, size_t list_len,
    uint64_t *ends, size_t ends_len,
    uint8_t *text, size_t text_len,
    uint64_t *out, size_t out_len);

/* The answer of harkoxin_tally. */
enum {
    HARKOXIN_TALLY_VERDICT = 0, /* done or refused */
    HARKOXIN_TALLY_NUMBER = 1,
    HARKOXIN_TALLY_PLACE = 2,
    HARKOXIN_TALLY_WORDS = 3
};

/*
 * Counts the findings of a list by code; the HARKOXIN_CODES counts are written over `counts`, as far as that has room. Number
 * 11; after a refusal `counts` is as it was.
 */
void harkoxin_tally(
    const uint64_t *list, size_t list_len,
    uint64_t *counts, size_t counts_len,
    uint64_t *out, size_t out_len);

/* The answer of harkoxin_mark. After a refusal loss and mark are 0. */
enum {
    HARKOXIN_MARK_VERDICT = 0, /* done or refused */
    HARKOXIN_MARK_NUMBER = 1,
    HARKOXIN_MARK_PLACE = 2,
    HARKOXIN_MARK_LOSS = 3,    /* in hundredths of a mark; it can be over 10,000 */
    HARKOXIN_MARK_MARK = 4,    /* in hundredths: 10,000 less the loss, or 0 where the loss is larger */
    HARKOXIN_MARK_WORDS = 5
};

/*
 * Gives the mark of a document out of one hundred from three of its counts, which may be those of harkoxin_check. The loss is
 * (250 * errors + 75 * warnings) * 10 / verses, rounded down. Numbers 14 and 15.
 */
void harkoxin_mark(
    uint64_t errors, uint64_t warnings, uint64_t verses,
    uint64_t *out, size_t out_len);

/* The answer of harkoxin_read. */
enum {
    HARKOXIN_READ_VERDICT = 0, /* done or refused */
    HARKOXIN_READ_NUMBER = 1,
    HARKOXIN_READ_PLACE = 2,
    HARKOXIN_READ_NODES = 3,   /* how many nodes were written, the root among them; 0 after a refusal */
    HARKOXIN_READ_WORDS = 4
};

/*
 * Reads a text in USFM to a tape: its nodes are written over `tape`, which is a list of bytes with room for tape_len /
 * HARKOXIN_NODE_BYTES nodes; what lies behind the written nodes is as it was. A text of n bytes has at most n + 1 nodes.
 *
 * Characters and notes must be closed by their own name, `\f + \ft text\ft*\f*`, milestones by `\*` behind their name or their
 * attributes. Numbers 1, 2 and 3, then 16 or 17 by the earlier place, then 18; after a refusal `tape` is as it was. A check of the
 * text with its tape is turned back by 8, where more than 64 markers are open, or by 4, where there are over 65,535 nodes, and by
 * no other number of the tape.
 */
void harkoxin_read(
    const uint8_t *table, size_t table_len,
    const uint8_t *text, size_t text_len,
    uint8_t *tape, size_t tape_len,
    uint64_t *out, size_t out_len);

#ifdef __cplusplus
}
#endif

#endif
