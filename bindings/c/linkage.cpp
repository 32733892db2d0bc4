// The header and the library from C++: ends with 0 if an empty list is counted, a verse without findings is marked and an empty
// text is read to its root.
#include "harkoxin.h"

// Where the library finds the fields of an open start.
static_assert(sizeof(harkoxin_open_start) == 8 && alignof(harkoxin_open_start) == 4, "as the library has it");
static_assert(offsetof(harkoxin_open_start, node) == 0, "as the library has it");
static_assert(offsetof(harkoxin_open_start, base_len) == 4, "as the library has it");

int main()
{
    uint64_t tally[HARKOXIN_TALLY_WORDS] = {HARKOXIN_REFUSED};
    harkoxin_tally(nullptr, 0, nullptr, 0, tally, HARKOXIN_TALLY_WORDS);
    uint64_t mark[HARKOXIN_MARK_WORDS] = {HARKOXIN_REFUSED};
    harkoxin_mark(0, 0, 1, mark, HARKOXIN_MARK_WORDS);
    uint8_t root[HARKOXIN_NODE_BYTES];
    uint64_t read[HARKOXIN_READ_WORDS] = {HARKOXIN_REFUSED};
    harkoxin_read(nullptr, 0, nullptr, 0, root, sizeof root, read, HARKOXIN_READ_WORDS);
    return static_cast<int>(tally[HARKOXIN_TALLY_VERDICT] + mark[HARKOXIN_MARK_VERDICT] + read[HARKOXIN_READ_VERDICT]);
}
