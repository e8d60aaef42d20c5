/*
 * The desk emulator beside a hand-held that is sent the same: messages of every kind, damaged and random ones, until the area is full. The same answers and
 * replies, and the same rows, each time one of them and while the log is small all. A call takes time that grows with the square of what is kept: so the
 * middle of a log is requests of few entries.
 */
#include "areas.h"

enum { LOGS = 2, FULL = 6, SMALL = 2500 };

/* The rows of each table, and one or two that there are not. */
static const uint32_t ends[OTAP_TABLES + 1] = {0, OTAP_LINE_ROWS + 1, OTAP_QUICK_ROWS + 1, OTAP_STATUS_LAST + 2, OTAP_SLOT_ROWS + 1, OTAP_SLOT_ROWS + 1,
                                               OTAP_CONTACT_ROWS + 1, OTAP_CONTACT_ROWS + 1, OTAP_SLOT_ROWS + 1};
static unsigned long shown, absent;

static void compare(uint32_t table, uint32_t row)
{
    if (same_row(table, row)) {
        shown++;
    } else {
        absent++;
    }
}

static void compare_all(void)
{
    uint32_t table, row;
    for (table = 1; table <= OTAP_TABLES; table++) {
        for (row = table == OTAP_STATUS_TEXTS ? OTAP_STATUS_FIRST - 1 : 0; row < ends[table]; row++) {
            compare(table, row);
        }
    }
}

/* A message of a log: of every kind, some damaged, some random, and now and then one that fills a table. */
static void write_next(unsigned turn)
{
    if (turn % 9 == 8) {
        write_filling(&said, random_below(FILLING_MESSAGES), 1 + random_below(20));
    } else if (turn % 5 == 4) {
        write_random(&said);
    } else {
        write_message(&said, random_below(MESSAGE_KINDS), random_below(1000));
    }
    if (random_below(6) == 0) {
        damage(said.bytes, said.length, 1 + random_below(2));
    }
}

/* One log, until so many requests were refused for its end. How many messages it had. */
static unsigned until_full(unsigned long *numbers)
{
    size_t next = SMALL / 5;
    unsigned turn, full = 0, each;
    start_area();
    same("start", 0, OTAP_OK, otap_start(store, sizeof store));
    for (turn = 0; full < FULL; turn++) {
        uint64_t answer;
        uint32_t table = 1 + random_below(OTAP_TABLES);
        write_next(turn);
        answer = take_both(&said);
        numbers[otap_answer_number(answer)]++;
        full += otap_answer_number(answer) == OTAP_AREA_FULL;
        compare(table, random_below(ends[table]));
        if (used() > next && next <= SMALL) {
            compare_all();
            next *= 5;
            if (next > SMALL) {
                fill_both(SMALL);
            }
        }
    }
    for (each = 0; each < 60; each++) {
        uint32_t table = 1 + each % OTAP_TABLES;
        compare(table, random_below(ends[table]));
    }
    return turn;
}

int main(void)
{
    static const uint8_t wanted[] = {OTAP_OK, OTAP_BAD_VERSION, OTAP_NO_ROOM, OTAP_UNKNOWN_TYPE, OTAP_BAD_FIELD, OTAP_NO_MATCH, OTAP_MESSAGE_LENGTH,
                                     OTAP_BAD_CARRIER, OTAP_OTHER_MESSAGE, OTAP_AREA_FULL};
    static unsigned long numbers[256];
    unsigned log, sent = 0;
    for (log = 0; log < LOGS; log++) {
        sent += until_full(numbers);
    }
    for (log = 0; log < sizeof wanted; log++) {
        same("each number came", 1, numbers[wanted[log]] > 0, 1);
    }
    printf("%u messages to both, %lu taken, %lu past the end; %lu rows the same, %lu of neither\n", sent, numbers[OTAP_OK], numbers[OTAP_AREA_FULL], shown, absent);
    same("rows enough", 1, shown > 300 && absent > 300, 1);
    return 0;
}
