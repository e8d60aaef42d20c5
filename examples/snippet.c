#include "otap.h"

#include <string.h>

/* The firmware's own. Each comes back when it is done: the bytes are in flash (docs/FIRMWARE.md says how), the reply is on the air. */
void read_saved(uint8_t *bytes, size_t length);
void write_saved(const uint8_t *bytes, size_t length);
void send_reply(const uint8_t *bytes, size_t length);
void restart_set(void);
void keep_message(const uint8_t *message, size_t length); /* until the call ends: then on_message gets what was kept, in the order that it came in */
void show_waiting(int taken, int restart);                /* to the user: whether it would be taken, and whether the set would start again */
void draw_row(uint32_t row, const uint8_t *units, size_t length, uint64_t target); /* keeps the target with the name: PTT calls what was drawn */
void draw_room(uint32_t lines, uint32_t channels);
void show_caller(const uint8_t *units, size_t length);  /* a contact's name, or its number where it has none: 16-bit units, high byte first */
void show_digits(const uint8_t *digits, size_t length); /* of a caller that is no contact: what came with the call */
void lock_store(void);
void unlock_store(void);

static uint8_t store[OTAP_STORE_BYTES], copy[OTAP_STORE_BYTES], scratch[OTAP_SCRATCH_BYTES];
static uint8_t reply[OTAP_REPLY_BYTES], forecast[OTAP_REPLY_BYTES];

/* Before the tasks start: keeps what was saved if it is a store, and starts one only where it is none (answer 0: the user may want to know). */
int power_on(void)
{
    read_saved(store, sizeof store);
    if (otap_answer_number(otap_counts(store, sizeof store)) == OTAP_OK) /* exactly where the bytes are a store */
        return 1;
    otap_start(store, sizeof store);
    return 0;
}

/* The storage task, when it is asked to save: only the copying holds the lock, so that the screen does not wait for the flash. */
void save_store(void)
{
    lock_store();
    memcpy(copy, store, sizeof copy);
    unlock_store();
    write_saved(copy, sizeof copy);
}

/* The radio task, during a call: judges a message, which changes nothing, and lets it wait. The reply is not sent: the set has nothing of it yet. */
void on_message_in_call(const uint8_t *message, size_t length)
{
    uint64_t answer;
    lock_store();
    answer = otap_judge(message, length, store, sizeof store, forecast, sizeof forecast);
    unlock_store();
    if (otap_answer_length(answer) == 0) /* 10 to 14: no reply, now or later; a query is 14, and otap_report answers it */
        return;
    keep_message(message, length);
    show_waiting(otap_answer_number(answer) == OTAP_OK, otap_answer_reboot(answer));
}

/* The radio task otherwise, and for what has waited: commits one message, whole or not at all; it is judged again, for the store may be another by now.
 * What is taken is saved before a reply says so, and before a restart. */
void on_message(const uint8_t *message, size_t length)
{
    uint64_t answer;
    lock_store();
    answer = otap_commit(message, length, store, sizeof store, reply, sizeof reply);
    unlock_store();
    if (otap_answer_number(answer) == OTAP_OK)
        save_store();
    if (otap_answer_send(answer))
        send_reply(reply, otap_answer_length(answer));
    if (otap_answer_reboot(answer))
        restart_set();
}

/* The radio task, when a line call comes in: who is calling. The row and its name are asked for under one hold of the lock, for a message that is
 * committed between the two can move the rows. */
void on_line_call(uint32_t id_type, const uint8_t *digits, size_t length)
{
    uint64_t caller;
    lock_store();
    caller = otap_line_of(id_type, digits, length, store, sizeof store);
    if (otap_line_found(caller)) {
        uint64_t part = otap_row_part(OTAP_LINES, otap_line_row(caller), store, sizeof store, scratch, sizeof scratch);
        show_caller(otap_part_bytes(part, store, scratch), otap_part_length(part));
    }
    unlock_store();
    if (!otap_line_found(caller)) /* no line has this number, or it is none: 20 */
        show_digits(digits, length);
}

/* The settings menu, a screen task too: what is free, on every key. It draws nothing where the bytes are no store. */
void draw_menu(void)
{
    uint64_t counts;
    lock_store();
    counts = otap_counts(store, sizeof store);
    unlock_store();
    if (otap_answer_number(counts) == OTAP_OK) /* a refusal's counts are 0 and 0, like those of an empty set */
        draw_room(otap_counts_free_lines(counts), otap_counts_free_channels(counts));
}

/* The screen task: a whole list under one hold of the lock; each row its name, or its number, in 16-bit units, high byte first, and what stands behind it.
 * Both are asked for together and kept together: PTT calls that target, never the row as it is then, for a message may come in between. */
static void draw_list(uint32_t table, uint32_t rows)
{
    uint32_t row;
    lock_store();
    for (row = 0; row < rows; row++) {
        uint64_t part = otap_row_part(table, row, store, sizeof store, scratch, sizeof scratch);
        if (part != 0) /* 0 is no row, and a row that is shown is never 0: one call is enough */
            draw_row(row, otap_part_bytes(part, store, scratch), otap_part_length(part), otap_entry(table, row, store, sizeof store));
    }
    unlock_store();
}

void draw_groups(void)
{
    draw_list(OTAP_GROUPS, OTAP_SLOT_ROWS);
}

/* All positions: a background group has no row, and those behind it do not move up. */
void draw_group_contacts(void)
{
    draw_list(OTAP_GROUP_CONTACTS, OTAP_CONTACT_ROWS);
}
