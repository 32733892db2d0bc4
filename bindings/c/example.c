/*
 * Prints what is wrong in the documents of some folders, each of which holds table.txt, source.usfm and nodes.bin; or, behind
 * --text and the path of a table, in the texts of some files.
 */
#include "harkoxin.h"

#include <inttypes.h>
#include <stdio.h>
#include <stdlib.h>
#include <string.h>

struct bytes {
    uint8_t *at;
    size_t len;
};

struct document {
    struct bytes table, source, tape;
};

static const char *const severity_names[] = {"error", "warning", "info"};

static const char *const code_names[HARKOXIN_CODES] = {
    "UnknownMarker", "UnclosedMarker", "StrayCloseMarker", "StrayBackslash", "MissingIdMarker", "InvalidBookCode",
    "DuplicateId", "TextBeforeId", "MissingChapterMarker", "InvalidChapterSequence", "DuplicateChapter",
    "InvalidVerseSequence", "VerseOutsideParagraph", "NoteSubmarkerOutsideNote", "NonEmptyBlankLine", "LeadingZeros",
    "MilestoneMismatch", "InvalidAttributes", "MissingChapterNumber", "MissingVerseNumber", "CharCrossesVerseBoundary",
    "EmptyFigure", "UnquotedAttributeValue", "MissingRequiredAttribute", "BodyParagraphBeforeChapter", "EmptyWordMarker",
    "MissingMilestoneSelfClose", "InvalidTableColumnSequence", "DeprecatedMarker", "ImplicitClose", "UnclosedNote",
    "UnclosedAtEof", "DefaultAttributeNotDefined", "MisplacedNumberMarker", "MissingSpaceBeforeNumber",
    "UnreadableVerseNumber"};

static void fail(const char *what, const char *which)
{
    fprintf(stderr, "%s %s\n", what, which);
    exit(EXIT_FAILURE);
}

/* Zeroed memory for so many elements; never NULL. */
static void *room(size_t count, size_t size)
{
    void *list = calloc(count + 1, size);
    if (list == NULL)
        fail("no memory for", "a list");
    return list;
}

static struct bytes read_file(const char *path)
{
    FILE *file = fopen(path, "rb");
    if (file == NULL || fseek(file, 0, SEEK_END) != 0)
        fail("can't read", path);
    long size = ftell(file);
    if (size < 0 || fseek(file, 0, SEEK_SET) != 0)
        fail("can't read", path);
    struct bytes read = {room((size_t)size, 1), (size_t)size};
    if (fread(read.at, 1, read.len, file) != read.len)
        fail("can't read", path);
    fclose(file);
    return read;
}

static struct bytes read_in(const char *folder, const char *name)
{
    char path[4096];
    int len = snprintf(path, sizeof path, "%s/%s", folder, name);
    if (len < 0 || (size_t)len >= sizeof path)
        fail("path too long:", folder);
    return read_file(path);
}

static void release_document(struct document *d)
{
    free(d->table.at);
    free(d->source.at);
    free(d->tape.at);
}

/* What is lent for a report and freed behind it. */
struct lists {
    uint64_t *list, *ends;
    uint8_t *text;
    size_t findings, bytes;
};

static void lend(struct lists *l, size_t findings, size_t bytes)
{
    l->list = room(HARKOXIN_FINDING_WORDS * findings, sizeof *l->list);
    l->ends = room(findings, sizeof *l->ends);
    l->text = room(bytes, sizeof *l->text);
    l->findings = findings;
    l->bytes = bytes;
}

static void release(struct lists *l)
{
    free(l->list);
    free(l->ends);
    free(l->text);
}

/* Reports on a document, once more with longer lists where they were too short. */
static void report(const struct document *d, struct lists *l, uint64_t answer[HARKOXIN_REPORT_WORDS])
{
    const uint64_t *messages = answer + HARKOXIN_REPORT_MESSAGES;
    size_t nodes = d->tape.len / HARKOXIN_NODE_BYTES;
    uint32_t *seen = room(nodes, sizeof *seen);
    harkoxin_open_start *opens = room(nodes, sizeof *opens);
    lend(l, 16, 1024);
    for (;;) {
        harkoxin_report(d->table.at, d->table.len, d->source.at, d->source.len, d->tape.at, d->tape.len,
                        seen, nodes, opens, nodes, l->list, HARKOXIN_FINDING_WORDS * l->findings,
                        l->ends, l->findings, l->text, l->bytes, answer, HARKOXIN_REPORT_WORDS);
        if (answer[HARKOXIN_CHECK_VERDICT] != HARKOXIN_CUT && messages[HARKOXIN_MESSAGES_VERDICT] != HARKOXIN_CUT)
            break;
        if (messages[HARKOXIN_MESSAGES_NUMBER] == HARKOXIN_NO_TEXT)
            fail("no text for", "a finding");
        release(l);
        lend(l, (size_t)answer[HARKOXIN_CHECK_TOTAL], 2 * l->bytes + (size_t)messages[HARKOXIN_MESSAGES_PLACE]);
    }
    free(seen);
    free(opens);
}

static void print_finding(const uint64_t *finding, const uint8_t *text, size_t len)
{
    uint64_t start = finding[HARKOXIN_FINDING_START];
    printf("%s[%s] %" PRIu64 "..%" PRIu64 ": ",
           severity_names[finding[HARKOXIN_FINDING_SEVERITY]],
           code_names[finding[HARKOXIN_FINDING_CODE]],
           start, start + finding[HARKOXIN_FINDING_LEN]);
    fwrite(text, 1, len, stdout);
    putchar('\n');
}

/* Ends the line of counts with the mark. */
static void print_mark(const uint64_t *check)
{
    uint64_t answer[HARKOXIN_MARK_WORDS];
    harkoxin_mark(check[HARKOXIN_CHECK_ERRORS], check[HARKOXIN_CHECK_WARNINGS], check[HARKOXIN_CHECK_VERSES],
                  answer, HARKOXIN_MARK_WORDS);
    uint64_t mark = answer[HARKOXIN_MARK_MARK];
    if (answer[HARKOXIN_MARK_VERDICT] == HARKOXIN_REFUSED)
        printf(", no mark by number %" PRIu64 "\n", answer[HARKOXIN_MARK_NUMBER]);
    else
        printf(", mark %" PRIu64 ".%02" PRIu64 "\n", mark / 100, mark % 100);
}

/* Prints the counts of a checked document, and its mark. */
static void print_counts(const uint64_t *check)
{
    printf("errors %" PRIu64 ", warnings %" PRIu64 ", infos %" PRIu64 ", verses %" PRIu64,
           check[HARKOXIN_CHECK_ERRORS], check[HARKOXIN_CHECK_WARNINGS],
           check[HARKOXIN_CHECK_INFOS], check[HARKOXIN_CHECK_VERSES]);
    print_mark(check);
}

static void print_refusal(uint64_t number, uint64_t place)
{
    printf("refused by number %" PRIu64 ", place %" PRIu64 "\n", number, place);
}

static void print_document(const char *name, const struct document *d)
{
    uint64_t answer[HARKOXIN_REPORT_WORDS];
    struct lists l;
    report(d, &l, answer);
    printf("%s: ", name);
    if (answer[HARKOXIN_CHECK_VERDICT] == HARKOXIN_REFUSED)
        print_refusal(answer[HARKOXIN_CHECK_NUMBER], answer[HARKOXIN_CHECK_PLACE]);
    else
        print_counts(answer);
    size_t start = 0;
    for (size_t k = 0; k < answer[HARKOXIN_CHECK_WRITTEN]; k++) {
        size_t end = (size_t)l.ends[k];
        print_finding(l.list + HARKOXIN_FINDING_WORDS * k, l.text + start, end - start);
        start = end;
    }
    release(&l);
}

/* Has the tape of the document's text made, once more with a longer list where that was too short. */
static void read_text(struct document *d, uint64_t answer[HARKOXIN_READ_WORDS])
{
    size_t nodes = 64;
    for (;;) {
        d->tape.at = room(nodes, HARKOXIN_NODE_BYTES);
        harkoxin_read(d->table.at, d->table.len, d->source.at, d->source.len,
                      d->tape.at, nodes * HARKOXIN_NODE_BYTES, answer, HARKOXIN_READ_WORDS);
        d->tape.len = (size_t)answer[HARKOXIN_READ_NODES] * HARKOXIN_NODE_BYTES;
        if (answer[HARKOXIN_READ_NUMBER] != HARKOXIN_SHORT_NODE_LIST)
            return;
        free(d->tape.at);
        nodes = (size_t)answer[HARKOXIN_READ_PLACE];
    }
}

static void check_text(const char *table, const char *path)
{
    struct document d = {read_file(table), read_file(path), {NULL, 0}};
    uint64_t answer[HARKOXIN_READ_WORDS];
    read_text(&d, answer);
    if (answer[HARKOXIN_READ_VERDICT] == HARKOXIN_REFUSED) {
        printf("%s: ", path);
        print_refusal(answer[HARKOXIN_READ_NUMBER], answer[HARKOXIN_READ_PLACE]);
    } else {
        print_document(path, &d);
    }
    release_document(&d);
}

static void check_folder(const char *folder)
{
    struct document d = {
        read_in(folder, "table.txt"),
        read_in(folder, "source.usfm"),
        read_in(folder, "nodes.bin"),
    };
    print_document(folder, &d);
    release_document(&d);
}

int main(int argc, char **argv)
{
    int is_text = argc > 1 && strcmp(argv[1], "--text") == 0;
    int first = is_text ? 3 : 1;
    if (argc <= first)
        fail("usage:", "example FOLDER..., or example --text TABLE FILE...");
    for (int k = first; k < argc; k++) {
        if (is_text)
            check_text(argv[2], argv[k]);
        else
            check_folder(argv[k]);
    }
    return EXIT_SUCCESS;
}
