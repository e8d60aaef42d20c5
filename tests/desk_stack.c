/* How deep the calls of the desk emulator go into the stack, as stack.c has it of a set's: with every kind of message, to a log of each of them. */
#define _XOPEN_SOURCE 700
#include "areas.h"

enum { STACK = 256 * 1024 };
#include "painted.h"

enum { CALLS = 4 };

/* The header's ceilings. */
static const unsigned long most[CALLS] = {OTAP_PLAIN_START_STACK, OTAP_PLAIN_TAKE_STACK, OTAP_PLAIN_ROW_STACK, OTAP_PLAIN_ROW_STACK};
static const char *const names[CALLS] = {"otap_plain_start", "otap_plain_take", "otap_plain_row_number", "otap_plain_row_part"};

static uint8_t kept[OTAP_AREA_BYTES], shown[OTAP_PLAIN_SCRATCH_BYTES];
static unsigned which, turn;
static uint64_t answer;

static void call(void)
{
    uint32_t table = 1 + turn % OTAP_TABLES, row = turn / OTAP_TABLES % (OTAP_STATUS_LAST + 1);
    switch (which) {
    case 0: answer = otap_plain_start(area, sizeof area); break;
    case 1: answer = otap_plain_take(said.bytes, said.length, area, sizeof area, plain_reply, sizeof plain_reply); break;
    case 2: answer = otap_plain_row_number(table, row, area, sizeof area, shown, sizeof shown); break;
    case 3: answer = otap_plain_row_part(table, row, area, sizeof area, shown, sizeof shown); break;
    default: break; /* nothing, for what the switch of stacks itself takes */
    }
}

static unsigned long deepest(void)
{
    unsigned long deep = 0, now;
    for (turn = 0; turn < OTAP_TABLES * (OTAP_STATUS_LAST + 1); turn++) {
        write_message(&said, turn % MESSAGE_KINDS, turn / MESSAGE_KINDS);
        memcpy(area, kept, sizeof area);
        now = depth_of(call);
        deep = now > deep ? now : deep;
    }
    return deep;
}

int main(void)
{
    unsigned long base;
    int failed = 0;
    start_area();
    for (turn = 0; turn < 2 * MESSAGE_KINDS; turn++) {
        write_message(&said, turn % MESSAGE_KINDS, turn);
        take(&said);
    }
    memcpy(kept, area, sizeof kept);
    which = CALLS;
    base = deepest();
    for (which = 0; which < CALLS; which++) {
        unsigned long deep = beyond(base, deepest());
        printf("%s: %lu bytes of stack\n", names[which], deep);
        failed |= deep > most[which];
    }
    return failed;
}
