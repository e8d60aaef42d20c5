/*
 * Instructions of each call on a full store, as the emulator counts them: under `-icount shift=0` each takes a nanosecond, and SysTick counts 25 MHz,
 * so a tick is 40 instructions. Repeated calls make it exact enough; the few around each call are in it.
 */
#include "otap.h"
#include "lines.h"
#include "messages.h"

#include <stdio.h>

enum { TICK = 40, TIMES = 200 };

static volatile uint32_t *const systick = (volatile uint32_t *)0xE000E010u; /* control, reload, now */
static uint8_t store[OTAP_STORE_BYTES], buffer[OTAP_EXPORT_BYTES];
static Message said;
static Key caller;
static uint32_t which, row;
static volatile uint64_t answer;

static void judge(void)
{
    answer = otap_judge(said.bytes, said.length, store, sizeof store, buffer, sizeof buffer);
}

static void commit(void)
{
    answer = otap_commit(said.bytes, said.length, store, sizeof store, buffer, sizeof buffer);
}

static void export_part(void)
{
    answer = otap_export(which, store, sizeof store, buffer, sizeof buffer);
}

static void report(void)
{
    answer = otap_report(said.bytes, said.length, which, store, sizeof store, buffer, sizeof buffer);
}

static void show_row(void)
{
    answer = otap_row_part(which, row, store, sizeof store, buffer, sizeof buffer);
}

static void counts(void)
{
    answer = otap_counts(store, sizeof store);
}

static void line_of(void)
{
    answer = otap_line_of(caller.id_type, caller.digits, caller.length, store, sizeof store);
}

static void entry(void)
{
    answer = otap_entry(which, row, store, sizeof store);
}

static void entry_digits(void)
{
    answer = otap_entry_digits(which, row, store, sizeof store, buffer, sizeof buffer);
}

static void channel_at(void)
{
    answer = otap_channel(row, store, sizeof store);
}

static void emergency_key(void)
{
    answer = otap_emergency_key(store, sizeof store);
}

static void individual(void)
{
    answer = otap_individual_of_dialled(32820200);
}

static void transmit(void)
{
    answer = otap_transmit(640);
}

static void channel(void)
{
    answer = otap_channel_of_transmit(3560000);
}

static void start(void)
{
    answer = otap_start(store, sizeof store);
}

/* SysTick counts down from 2^24 - 1, so each call alone takes less than a round. */
static void count(const char *name, void (*call)(void))
{
    unsigned long ticks = 0, each;
    for (each = 0; each < TIMES; each++) {
        uint32_t before = systick[2];
        call();
        ticks += (before - systick[2]) & 0xFFFFFFu;
    }
    printf("| %s | %lu |\n", name, ticks * TICK / TIMES);
}

static void fill(void)
{
    unsigned each;
    start();
    for (each = 0; each < FILLING_MESSAGES; each++) {
        write_filling(&said, each, 0);
        commit();
    }
}

/* What the office asks for: all that the set holds, and one table of it. */
static void count_reports(void)
{
    static const uint8_t channels[] = {OTAP_ASK_CHANNELS};
    write_asking_all(&said, 10, 0);
    which = 1;
    count("report, all types, the first of two messages", report);
    which = 2;
    count("report, all types, the last", report);
    write_asking(&said, channels, sizeof channels);
    which = 1;
    count("report, 64 channels", report);
}

/* What the screen, PTT and the radio ask for. */
static void count_reads(void)
{
    which = OTAP_GROUPS;
    count("row, a group's text", show_row);
    row = 13;
    count("row, a group's number", show_row);
    which = OTAP_GROUP_CONTACTS;
    row = OTAP_CONTACT_ROWS - 1;
    count("row, a group contact's text", show_row);
    count("counts", counts);
    caller = key_of(store, OTAP_LINE_ROWS - 1);
    count("line of, found", line_of);
    caller.length--; /* no line has it */
    count("line of, none", line_of);
    count("entry, a group contact", entry);
    count("channel", channel_at);
    count("emergency key", emergency_key);
    which = OTAP_LINES;
    row = OTAP_LINE_ROWS - 1;
    count("entry digits", entry_digits);
}

int main(void)
{
    static const char *const commits[] = {"commit, 32 lines", "commit, 63 quick texts", "commit, a quick text", "commit, 96 status texts",
                                          "commit, 64 channels", "commit, 16 groups", "commit, 16 individuals", "commit, 64 group contacts",
                                          "commit, 64 individual contacts", "commit, 16 line slots", "commit, key, home, system code and last item"};
    static const char *const parts[] = {"export, lines", "export, key, home and system code", "export, quick texts", "export, channels",
                                        "export, status texts", "export, groups", "export, individuals", "export, group contacts",
                                        "export, individual contacts", "export, line slots"};
    unsigned each;
    systick[1] = 0xFFFFFFu;
    systick[2] = 0;
    systick[0] = 5;
    fill();
    for (each = 0; each < FILLING_MESSAGES; each++) {
        write_filling(&said, each, 0);
        count(commits[each], commit);
    }
    write_message(&said, 9, 0);
    count("commit, refused: a 33rd line", commit);
    count("judge, refused: a 33rd line", judge);
    write_message(&said, 15, 0);
    count("commit, refused: a 65th group contact", commit);
    write_query(&said, 2);
    count("commit, a query", commit);
    count("judge, a query", judge);
    write_filling(&said, 0, 0);
    count("judge, 32 lines", judge);
    for (each = 0; each < OTAP_EXPORT_PARTS; each++) {
        which = each + 1;
        count(parts[each], export_part);
    }
    count_reports();
    count_reads();
    count("individual of dialled", individual);
    count("transmit", transmit);
    count("channel of transmit", channel);
    count("start", start);
    return 0;
}
