/* How deep the office's calls go into the stack, as stack.c has it of a set's: with every kind of message, to a full store and to one that differs in a part. */
#define _XOPEN_SOURCE 700
#include "answers.h"

enum { STACK = 256 * 1024 };
#include "painted.h"

enum { CALLS = 6 };

/* The header's ceilings. */
static const unsigned long most[CALLS] = {OTAP_CHECK_STACK, OTAP_PROPOSE_STACK, OTAP_OFFICE_STACK, OTAP_OFFICE_STACK, OTAP_OFFICE_STACK,
                                          OTAP_OFFICE_STACK};
static const char *const names[CALLS] = {PREFIX "check_update", PREFIX "propose", PREFIX "join", PREFIX "read_report", "otap_report_entry",
                                         "otap_report_places"};

static uint8_t held[OTAP_STORE_BYTES], wanted[OTAP_STORE_BYTES], made[OTAP_JOIN_BYTES];
static Message message, report;
static unsigned which;
static uint64_t answer;

static void call(void)
{
    switch (which) {
    case 0: answer = otap_check_update(held, sizeof held, wanted, sizeof wanted, message.bytes, message.length); break;
    case 1: answer = otap_propose(held, sizeof held, wanted, sizeof wanted, made, sizeof made); break;
    case 2: answer = otap_join(message.bytes, message.length, message.bytes, message.length, made, sizeof made); break;
    case 3: answer = otap_read_report(report.bytes, report.length); break;
    case 4: answer = otap_report_entry(report.bytes, report.length, OTAP_REPORT_FIRST); break;
    case 5: answer = otap_report_places(report.bytes, report.length, OTAP_REPORT_FIRST); break;
    default: break; /* nothing, for what the switch of stacks itself takes */
    }
}

/* A message of this turn, without its FF item in every second; a store that has taken it, where it is taken; and a message of a report on that. */
static void prepare(unsigned turn)
{
    unsigned kind = turn % MESSAGE_KINDS;
    if (kind < REQUEST_KINDS && turn / MESSAGE_KINDS % 2 == 0) {
        write_joinable(&message, kind, turn);
    } else {
        write_message(&message, kind, turn);
    }
    memcpy(wanted, held, sizeof wanted);
    judge_and_commit(message.bytes, message.length, wanted, sizeof wanted, reply, sizeof reply);
    write_asking_all(&said, 1 + turn % 20, turn % 11);
    report.length = otap_report_length(otap_report(said.bytes, said.length, 1, wanted, sizeof wanted, report.bytes, OTAP_REPORT_BYTES));
}

static unsigned long deepest(void)
{
    unsigned long deep = 0, now;
    unsigned turn;
    for (turn = 0; turn < 40 * MESSAGE_KINDS; turn++) {
        prepare(turn);
        now = depth_of(call);
        deep = now > deep ? now : deep;
    }
    return deep;
}

int main(void)
{
    unsigned long base;
    int failed = 0;
    fill_store(held, 0);
    which = CALLS;
    base = deepest();
    for (which = 0; which < CALLS; which++) {
        unsigned long deep = beyond(base, deepest());
        printf("%s: %lu bytes of stack\n", names[which], deep);
        failed |= deep > most[which];
    }
    return failed;
}
