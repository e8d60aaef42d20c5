/* How deep each call goes into the stack: each runs on a stack of its own that was painted before, on a full store and on every kind of message. */
#define _XOPEN_SOURCE 700
#include "judged.h"
#include "lines.h"
#include "messages.h"

#include <stdio.h>
#include <stdlib.h>

#ifdef __unix__
enum { STACK = 256 * 1024 };
#else
enum { STACK = OTAP_COMMIT_STACK + 6 * 1024 };
#endif
#include "painted.h"

enum { CALLS = 16 };

/* The header's ceiling for each; it has what was measured beside them, and docs/TESTING.md too. */
static const unsigned long most[CALLS] = {OTAP_START_STACK, OTAP_JUDGE_STACK, OTAP_COMMIT_STACK, OTAP_EXPORT_STACK, OTAP_ROW_STACK, OTAP_ROW_STACK,
                                          OTAP_COUNTS_STACK, OTAP_LINE_OF_STACK, OTAP_VALUE_STACK, OTAP_VALUE_STACK, OTAP_VALUE_STACK,
                                          OTAP_VALUE_STACK, OTAP_VALUE_STACK, OTAP_VALUE_STACK, OTAP_REPORT_STACK, OTAP_CONVERSION_STACK};
static const char *const names[CALLS] = {PREFIX "start", PREFIX "judge", PREFIX "commit", PREFIX "export", PREFIX "row_number", PREFIX "row_part",
                                         PREFIX "counts", PREFIX "line_of", PREFIX "entry", PREFIX "entry_digits", PREFIX "channel",
                                         PREFIX "emergency_key", PREFIX "home_numbers", PREFIX "system_code", PREFIX "report", "a conversion"};

static uint8_t store[OTAP_STORE_BYTES], filled[OTAP_STORE_BYTES];
static uint8_t buffer[OTAP_EXPORT_BYTES];
static Message message, query;
static Key caller;
static unsigned which, turn;
static uint64_t answer;

static void convert(uint32_t value)
{
    answer = otap_individual_of_dialled(value) + otap_group_of_dialled(value) + otap_dialled_of_individual(value)
           + otap_dialled_of_group(value) + otap_transmit(value) + otap_receive(value) + otap_channel_of_transmit(value);
}

static void call(void)
{
    uint32_t table = 1 + turn % OTAP_TABLES, row = turn / OTAP_TABLES % (OTAP_STATUS_LAST + 1);
    switch (which) {
    case 0: answer = otap_start(store, sizeof store); break;
    case 1: answer = otap_judge(message.bytes, message.length, store, sizeof store, buffer, sizeof buffer); break;
    case 2: answer = otap_commit(message.bytes, message.length, store, sizeof store, buffer, sizeof buffer); break;
    case 3: answer = otap_export(1 + turn % OTAP_EXPORT_PARTS, store, sizeof store, buffer, sizeof buffer); break;
    case 4: answer = otap_row_number(table, row, store, sizeof store, buffer, sizeof buffer); break;
    case 5: answer = otap_row_part(table, row, store, sizeof store, buffer, sizeof buffer); break;
    case 6: answer = otap_counts(store, sizeof store); break;
    case 7: answer = otap_line_of(caller.id_type, caller.digits, caller.length, store, sizeof store); break;
    case 8: answer = otap_entry(table, row, store, sizeof store); break;
    case 9: answer = otap_entry_digits(turn % 2 == 0 ? OTAP_LINES : OTAP_LINE_SLOTS, row, store, sizeof store, buffer, sizeof buffer); break;
    case 10: answer = otap_channel(row, store, sizeof store); break;
    case 11: answer = otap_emergency_key(store, sizeof store); break;
    case 12: answer = otap_home_numbers(store, sizeof store); break;
    case 13: answer = otap_system_code(store, sizeof store); break;
    case 14: answer = otap_report(query.bytes, query.length, 1 + turn % 4, store, sizeof store, buffer, sizeof buffer); break;
    case 15: convert(turn); break;
    default: break; /* nothing, for what the switch of stacks itself takes */
    }
}

static unsigned long deepest(void)
{
    unsigned long deep = 0, now;
    for (turn = 0; turn < OTAP_TABLES * (OTAP_STATUS_LAST + 1); turn++) {
        write_message(&message, turn % MESSAGE_KINDS, turn / MESSAGE_KINDS);
        write_asking_all(&query, 1 + turn % 20, turn % 11);
        caller = key_of(filled, turn % OTAP_LINE_ROWS);
        caller.length -= turn / OTAP_LINE_ROWS % 2; /* a line's own number, or one digit fewer, which no line has */
        memcpy(store, filled, sizeof store);
        now = depth_of(call);
        deep = now > deep ? now : deep;
    }
    return deep;
}

static void fill(void)
{
    unsigned each;
    otap_start(filled, sizeof filled);
    for (each = 0; each < FILLING_MESSAGES; each++) {
        write_filling(&message, each, 0);
        if (otap_answer_number(judge_and_commit(message.bytes, message.length, filled, sizeof filled, buffer, sizeof buffer)) != OTAP_OK) {
            fprintf(stderr, "a filling message was refused\n");
            exit(1);
        }
    }
}

int main(void)
{
    unsigned long base;
    int failed = 0;
    fill();
    which = CALLS;
    base = deepest();
    for (which = 0; which < CALLS; which++) {
        unsigned long deep = beyond(base, deepest());
        printf("%s: %lu bytes of stack\n", names[which], deep);
        failed |= deep > most[which];
    }
    return failed;
}
