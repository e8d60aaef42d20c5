/*
 * No call leaves the bytes that it was lent. The archive is not built with a sanitizer, so the buffers stand where the machine sees an access outside
 * (pages.h), or, where it has no pages, between guard bytes (guards.h). Either ends this with 1. Refusals by size are checked for their number, and
 * that they touch nothing. With the word "outside" a call is lent one byte too many, to see the fault.
 */
#define _DEFAULT_SOURCE
#include "bounded.h"
#include "lines.h"

static void commit_at(int at_end, const Message *said, size_t store_length, size_t reply_length)
{
    commit_to(at_end, said, filled, store_length, reply_length);
}

static void start_sizes(void)
{
    static const size_t sizes[] = {0, 1, OTAP_STORE_BYTES - 1, OTAP_STORE_BYTES, OTAP_STORE_BYTES + 1};
    size_t each;
    for (each = 0; each < 10; each++) {
        start_at((int)(each % 2), sizes[each / 2]);
    }
}

static void counts_sizes(void)
{
    static const size_t sizes[] = {0, 1, OTAP_STORE_BYTES - 1, OTAP_STORE_BYTES, OTAP_STORE_BYTES + 1};
    size_t each;
    for (each = 0; each < 10; each++) {
        counts_at((int)(each % 2), filled, sizes[each / 2]);
    }
}

/* Numbers of every length up to far too many digits, the first line's own among them. */
static void line_of_sizes(void)
{
    static const size_t sizes[] = {0, 1, OTAP_STORE_BYTES - 1, OTAP_STORE_BYTES, OTAP_STORE_BYTES + 1};
    uint8_t digits[2 * OTAP_DIGITS] = {0};
    size_t each, length;
    Key first = key_of(filled, 0);
    memcpy(digits, first.digits, first.length);
    for (each = 0; each < 10; each++) {
        for (length = 0; length <= sizeof digits; length++) {
            line_of_at((int)(each % 2), first.id_type, digits, length, filled, sizes[each / 2]);
        }
    }
}

/* Each line's number, with its own IDtype and with others; the places that have no line come without digits. */
static void line_of_all(void)
{
    uint32_t row, id_type;
    for (row = 0; row < OTAP_LINE_ROWS; row++) {
        Key key = key_of(filled, row);
        for (id_type = 0; id_type < 3; id_type++) {
            line_of_at((int)(row % 2), id_type, key.digits, key.length, filled, OTAP_STORE_BYTES);
        }
        line_of_at((int)(row % 2), 0xFFFFFFFFu, key.digits, key.length, filled, OTAP_STORE_BYTES);
    }
}

/* The tables of every size of store, with the first index and ones that there are not. */
static void entry_sizes(void)
{
    static const size_t sizes[] = {0, 1, OTAP_STORE_BYTES - 1, OTAP_STORE_BYTES, OTAP_STORE_BYTES + 1};
    size_t each;
    uint32_t table;
    for (each = 0; each < 10; each++) {
        for (table = 0; table <= OTAP_TABLES + 1; table++) {
            entry_at((int)(each % 2), table, 0, filled, sizes[each / 2]);
            entry_at((int)(each % 2), table, 0xFFFFFFFFu, filled, sizes[each / 2]);
        }
        settings_at((int)(each % 2), 0, filled, sizes[each / 2]);
        settings_at((int)(each % 2), 0xFFFFFFFFu, filled, sizes[each / 2]);
    }
}

/* What stands behind every row, and every channel. */
static void entry_all(void)
{
    const uint32_t rows = 2 + (LINE_ROOM > 64 ? LINE_ROOM : 64);
    uint32_t each;
    for (each = 0; each < (OTAP_TABLES + 2) * rows; each++) {
        entry_at((int)(each % 2), each / rows, each % rows, filled, OTAP_STORE_BYTES);
        digits_at((int)(each % 2), each / rows, each % rows, filled, OTAP_STORE_BYTES, OTAP_DIGITS);
    }
    for (each = 0; each <= OTAP_CHANNEL_PLACES; each++) {
        settings_at((int)(each % 2), each, filled, OTAP_STORE_BYTES);
    }
}

/* Every pair of sizes of the store and the other buffer, at both ends of the pages: 50 cases. */
static int sizes_of(unsigned turn, size_t least, size_t *store_length, size_t *other_length)
{
    const size_t of_store[] = {0, 1, OTAP_STORE_BYTES - 1, OTAP_STORE_BYTES, OTAP_STORE_BYTES + 1};
    const size_t of_other[] = {0, 1, least - 1, least, least + 1};
    *store_length = of_store[turn / 2 % 5];
    *other_length = of_other[turn / 10];
    return (int)(turn % 2);
}

static void commit_sizes(void)
{
    static Message said;
    unsigned turn, kind;
    for (kind = 0; kind < MESSAGE_KINDS; kind++) {
        for (turn = 0; turn < 50; turn++) {
            size_t store_length, reply_length;
            int at_end = sizes_of(turn, OTAP_REPLY_BYTES, &store_length, &reply_length);
            write_message(&said, kind, turn);
            commit_at(at_end, &said, store_length, reply_length);
        }
    }
}

/* Message lengths at the edges, of a request that would fill them. */
static void commit_message_sizes(void)
{
    static const size_t sizes[] = {0, 1, 6, 7, 8, OTAP_MESSAGE_BYTES - 1, OTAP_MESSAGE_BYTES, OTAP_MESSAGE_BYTES + 1};
    static Message said;
    size_t each;
    for (each = 0; each < 16; each++) {
        write_long(&said, sizes[each / 2]);
        commit_at((int)(each % 2), &said, OTAP_STORE_BYTES, OTAP_REPLY_BYTES);
    }
}

/* Every cut of every kind of message, so that each reader stands before the end at each of its bytes. */
static void commit_cuts(void)
{
    static Message said;
    unsigned kind;
    size_t length;
    for (kind = 0; kind < MESSAGE_KINDS; kind++) {
        write_message(&said, kind, 1);
        for (length = said.length; length-- > 0;) {
            said.length = length;
            commit_at(1, &said, OTAP_STORE_BYTES, OTAP_REPLY_BYTES);
        }
    }
}

static void commit_damaged(unsigned turns)
{
    static Message said;
    unsigned turn;
    for (turn = 0; turn < turns; turn++) {
        write_message(&said, random_below(MESSAGE_KINDS), turn);
        damage(said.bytes, said.length, 1 + random_below(4));
        commit_at((int)(turn % 2), &said, OTAP_STORE_BYTES, OTAP_REPLY_BYTES + turn % 3);
    }
}

static void commit_random(unsigned turns)
{
    static Message said;
    unsigned turn;
    for (turn = 0; turn < turns; turn++) {
        write_random(&said);
        commit_at((int)(turn % 2), &said, OTAP_STORE_BYTES, OTAP_REPLY_BYTES);
    }
}

static void export_sizes(void)
{
    unsigned turn;
    uint32_t part;
    for (turn = 0; turn < 50; turn++) {
        size_t store_length, length;
        int at_end = sizes_of(turn, OTAP_EXPORT_BYTES, &store_length, &length);
        for (part = 0; part <= OTAP_EXPORT_PARTS + 1; part++) {
            export_at(at_end, part, filled, store_length, length);
        }
        export_at(at_end, 0xFFFFFFFFu, filled, store_length, length);
    }
}

static void row_sizes(void)
{
    unsigned turn;
    uint32_t table;
    for (turn = 0; turn < 50; turn++) {
        size_t store_length, length;
        int at_end = sizes_of(turn, OTAP_SCRATCH_BYTES, &store_length, &length);
        for (table = 0; table <= OTAP_TABLES + 1; table++) {
            row_at(at_end, table, 15, filled, store_length, length);
            row_at(at_end, table, 0xFFFFFFFFu, filled, store_length, length);
        }
    }
}

static void digits_sizes(void)
{
    unsigned turn;
    for (turn = 0; turn < 50; turn++) {
        size_t store_length, length;
        int at_end = sizes_of(turn, OTAP_DIGITS, &store_length, &length);
        digits_at(at_end, OTAP_LINES, 0, filled, store_length, length);
        digits_at(at_end, OTAP_LINE_SLOTS, 0, filled, store_length, length);
        digits_at(at_end, OTAP_GROUPS, 0, filled, store_length, length);
        digits_at(at_end, 0xFFFFFFFFu, 0xFFFFFFFFu, filled, store_length, length);
    }
}

/* Queries of few types and of many, cut at every byte and damaged; each message of the report, and indexes that it has not. */
static void report_all(void)
{
    static Message query;
    size_t length;
    uint32_t index;
    write_asking_all(&query, 10, 0);
    for (index = 0; index <= 6; index++) {
        report_at((int)(index % 2), &query, index, filled, OTAP_STORE_BYTES, OTAP_REPORT_BYTES);
    }
    for (length = query.length; length-- > 0;) {
        query.length = length;
        report_at(1, &query, 1, filled, OTAP_STORE_BYTES, OTAP_REPORT_BYTES);
    }
    for (index = 0; index < 20 * TIMES; index++) {
        write_asking_all(&query, 1 + index % 40, index % 13);
        report_at((int)(index % 2), &query, 1 + index % 7, filled, OTAP_STORE_BYTES, OTAP_REPORT_BYTES + index % 3);
        damage(query.bytes, query.length, 1 + random_below(3));
        report_at((int)(index % 2), &query, 1, filled, OTAP_STORE_BYTES, OTAP_REPORT_BYTES);
    }
}

static void report_sizes(void)
{
    static Message query;
    unsigned turn;
    for (turn = 0; turn < 50; turn++) {
        size_t store_length, length;
        int at_end = sizes_of(turn, OTAP_REPORT_BYTES, &store_length, &length);
        write_asking_all(&query, OTAP_QUERY_MOST_TYPES, 0);
        report_at(at_end, &query, 1 + turn, filled, store_length, length);
        report_at(at_end, &query, 0xFFFFFFFFu, filled, store_length, length);
        memset(query.bytes + query.length, OTAP_ASK_LINES, OTAP_MESSAGE_BYTES + 1 - query.length);
        query.length = OTAP_MESSAGE_BYTES + turn % 2;
        report_at(at_end, &query, 1, filled, store_length, length);
    }
}

static void row_all(void)
{
    uint32_t each;
    for (each = 0; each < (OTAP_TABLES + 2) * 130; each++) {
        row_at((int)(each % 2), each / 130, each % 130, filled, OTAP_STORE_BYTES, OTAP_SCRATCH_BYTES);
    }
}

/* Every call on bytes that are nearly a store. */
static void damaged_stores(unsigned turns)
{
    static uint8_t bytes[OTAP_STORE_BYTES];
    static Message said;
    Key called;
    unsigned turn;
    for (turn = 0; turn < turns; turn++) {
        memcpy(bytes, filled, sizeof bytes);
        damage(bytes, sizeof bytes, 1 + random_below(3));
        export_at((int)(turn % 2), 1 + turn % OTAP_EXPORT_PARTS, bytes, sizeof bytes, OTAP_EXPORT_BYTES);
        row_at((int)(turn % 2), 1 + turn % OTAP_TABLES, random_below(OTAP_STATUS_LAST + 1), bytes, sizeof bytes, OTAP_SCRATCH_BYTES);
        write_asking_all(&said, 3, turn % 10);
        report_at((int)(turn % 2), &said, 1, bytes, sizeof bytes, OTAP_REPORT_BYTES);
        counts_at((int)(turn % 2), bytes, sizeof bytes);
        called = key_of(filled, turn % OTAP_LINE_ROWS);
        line_of_at((int)(turn % 2), called.id_type, called.digits, called.length, bytes, sizeof bytes);
        entry_at((int)(turn % 2), 1 + turn % OTAP_TABLES, random_below(OTAP_CONTACT_ROWS), bytes, sizeof bytes);
        digits_at((int)(turn % 2), turn % 2 == 0 ? OTAP_LINES : OTAP_LINE_SLOTS, turn % OTAP_LINE_ROWS, bytes, sizeof bytes, OTAP_DIGITS);
        settings_at((int)(turn % 2), turn % OTAP_CHANNEL_PLACES, bytes, sizeof bytes);
        write_message(&said, turn % MESSAGE_KINDS, turn);
        commit_to((int)(turn % 2), &said, bytes, sizeof bytes, OTAP_REPLY_BYTES);
    }
}

/* With 0, no row of the store is left empty, so that each call walks as far as it can; with another, one table is, and some lists are shorter. */
static void fill(unsigned vary)
{
    static Message said;
    unsigned each;
    current = "filling a store";
    must(otap_start(filled, OTAP_STORE_BYTES) == OTAP_OK, "start");
    for (each = 0; each < FILLING_MESSAGES; each++) {
        if (vary > 0 && each == vary % FILLING_MESSAGES) {
            continue;
        }
        write_filling(&said, each, vary);
        must(otap_answer_number(commit_to(1, &said, filled, OTAP_STORE_BYTES, OTAP_REPLY_BYTES)) == OTAP_OK, "a filling message was refused");
        memcpy(filled, store.bytes, OTAP_STORE_BYTES);
    }
}

/* Stores whose texts and numbers have every length, full ones and others. */
static void every_length(void)
{
    unsigned vary;
    uint32_t part;
    for (vary = 0; vary < 23; vary++) {
        fill(vary);
        row_all();
        counts_sizes();
        line_of_sizes();
        line_of_all();
        entry_all();
        report_all();
        for (part = 1; part <= 2 * OTAP_EXPORT_PARTS; part++) {
            export_at((int)(part % 2), (part + 1) / 2, filled, OTAP_STORE_BYTES, OTAP_EXPORT_BYTES);
        }
        damaged_stores(50 * TIMES);
    }
}

/* These messages come to every number that a message can come to, and the queries to every number of a report. */
static void all_seen(void)
{
    static const uint8_t of_reports[] = {OTAP_OK, OTAP_BAD_VERSION, OTAP_BAD_FIELD, OTAP_NO_STORE, OTAP_MESSAGE_LENGTH, OTAP_BAD_CARRIER,
                                         OTAP_OTHER_MESSAGE, OTAP_SHORT_BUFFER, OTAP_NO_MESSAGE};
    unsigned number;
    current = "the messages of this test";
    for (number = 0; number < sizeof of_reports; number++) {
        must(reports_seen[of_reports[number]] > 0, "a number of a report never came");
    }
    for (number = OTAP_OK; number <= OTAP_OTHER_MESSAGE; number++) {
        must(seen[number] > 0 || (number > OTAP_NO_MATCH && number < OTAP_SHORT_REPLY), "a number never came");
    }
}

int main(int count, char **words)
{
    make_room(&message, 2 * OTAP_MESSAGE_BYTES);
    make_room(&store, LONGEST);
    make_room(&buffer, LONGEST);
    fill(0);
    if (count > 1 && strcmp(words[1], "outside") == 0) {
        current = "a byte too many, as asked";
        lend(&store, 1, filled, OTAP_STORE_BYTES, 1);
        otap_start(store.bytes + 1, OTAP_STORE_BYTES);
        nothing_outside();
        return 3;
    }
    start_sizes();
    counts_sizes();
    line_of_sizes();
    entry_sizes();
    digits_sizes();
    entry_all();
    commit_sizes();
    commit_message_sizes();
    commit_cuts();
    commit_damaged(2000 * TIMES);
    commit_random(1000 * TIMES);
    export_sizes();
    report_sizes();
    row_sizes();
    row_all();
    every_length();
    all_seen();
    printf("no call left its bytes: %lu calls\n", calls);
    return 0;
}
