/* The README's snippet does what it says: each of its calls of the firmware is noted by a letter, and the letters must come in this order. */
#include "snippet.c"
#include "messages.h"
#include "places.h"

#include <stdio.h>
#include <stdlib.h>

static uint8_t flash[OTAP_STORE_BYTES];
static char called[64];
static int held, contacts; /* the lock; whether it is the contacts that are drawn */
static Message waiting;    /* for the end of a call */
static int told;           /* what the user was told of it: 1 taken, 2 and a restart, else 0 */
static uint32_t free_channels = OTAP_CHANNEL_PLACES, last_row;
static Message message;

static void note(char letter)
{
    size_t length = strlen(called);
    if (length + 1 < sizeof called) {
        called[length] = letter;
        called[length + 1] = 0;
    }
}

static void must(int holds, const char *what)
{
    if (!holds) {
        fprintf(stderr, "snippet: %s (called \"%s\")\n", what, called);
        exit(1);
    }
}

/* What was called since the last time. */
static void must_call(const char *letters, const char *what)
{
    must(strcmp(called, letters) == 0 && !held, what);
    called[0] = 0;
}

void read_saved(uint8_t *bytes, size_t length)
{
    note('f');
    memcpy(bytes, flash, length);
}

void write_saved(const uint8_t *bytes, size_t length)
{
    note('s');
    must(!held, "the screen waits for the flash");
    memcpy(flash, bytes, length);
}

void send_reply(const uint8_t *bytes, size_t length)
{
    note('r');
    must(bytes[0] == 2 && length >= 10 && length <= OTAP_REPLY_BYTES, "a reply");
}

void restart_set(void)
{
    note('R');
}

void keep_message(const uint8_t *bytes, size_t length)
{
    note('k');
    memcpy(waiting.bytes, bytes, length);
    waiting.length = length;
}

void show_waiting(int taken, int restart)
{
    note('w');
    must(!held, "the user is told without the lock");
    must(taken || !restart, "a restart of what is not taken");
    told = taken + restart;
}

/* The address that messages.h gives a group of this row. */
static uint32_t address_of(uint32_t row)
{
    return contacts || row < 14 ? 0x100001 + row : row == 14 ? 0x103C29 : 0xFFFF10;
}

void draw_row(uint32_t row, const uint8_t *units, size_t length, uint64_t target)
{
    note('d');
    last_row = row;
    must(held, "drawn without the lock");
    must(otap_answer_number(target) == OTAP_OK && otap_entry_address(target) == address_of(row), "a row's own target, kept with its name");
    must(!contacts || (length == 16 && units == scratch), "a contact without a name is shown by its number");
    must(contacts || row != 13 || (length == 16 && memcmp(units, "\0003\0002\0008\0002\0000\0009\0001\0003", 16) == 0), "group 13 is shown by its number");
    must(contacts || row != 0 || (length == 32 && units == store + text_at(store, OTAP_GROUPS, row)), "group 0 is shown by its name, where it stands");
}

void draw_room(uint32_t lines, uint32_t channels)
{
    note('m');
    must(!held, "the menu is drawn from a copy, without the lock");
    must(lines == OTAP_LINE_ROWS && channels == free_channels, "what is free");
}

/* The shown one has to be PABX 2345, by its name A where it stands, or PSTN 3, which has none. */
void show_caller(const uint8_t *units, size_t length)
{
    note('n');
    must(held, "a name is shown without the lock");
    must(length == 2 && units[0] == 0 && units[1] == (units == scratch ? '3' : 'A'), "the name of the caller");
    must(units == scratch || units == store + text_at(store, OTAP_LINES, 0), "where it stands");
}

void show_digits(const uint8_t *digits, size_t length)
{
    note('g');
    must(!held, "digits are shown without the lock");
    must(length == 0 || digits[0] == 2 || digits[0] == 10, "what came with the call");
}

void lock_store(void)
{
    note('(');
    must(!held, "the lock taken twice");
    held = 1;
}

void unlock_store(void)
{
    note(')');
    must(held, "the lock given back twice");
    held = 0;
}

static void powers_on(void)
{
    memset(flash, 0xFF, sizeof flash);
    must(power_on() == 0, "erased flash is no store");
    must_call("f", "power-on");
    must(otap_counts(store, sizeof store) == OTAP_OK, "a fresh store, which holds nothing, is started where there is none");
}

/* FF with its reboot and reply bits: saved, then answered, then started again, and kept. */
static void takes(void)
{
    static uint8_t kept[OTAP_STORE_BYTES];
    unsigned slot;
    open_request(&message, 17);
    for (slot = 0; slot < 16; slot++) {
        put_slot(&message, 0xD1, 1, slot, 0);
    }
    put_last(&message);
    on_message(message.bytes, message.length);
    must_call("()()srR", "a request that asks for a reply and a restart");
    memcpy(kept, store, sizeof kept);
    memset(store, 0xA5, sizeof store);
    must(power_on() == 1 && memcmp(kept, store, sizeof store) == 0, "the store that was saved is kept");
    must_call("f", "power-on");
    message.bytes[7] = 16;
    on_message(message.bytes, message.length);
    must_call("()r", "a refused request");
    must(memcmp(kept, store, sizeof store) == 0, "a refused request changes nothing");
    message.length = 6;
    on_message(message.bytes, message.length);
    must_call("()", "six bytes are no message");
    open_request(&message, 1);
    put_slot(&message, 0xD1, 2, 3, 0);
    on_message(message.bytes, message.length);
    must_call("()()s", "a request without a last item");
}

/* During a call nothing is changed, saved or sent; after it, what has waited is committed. FF with its reboot and reply bits. */
static void waits(void)
{
    static uint8_t before[OTAP_STORE_BYTES];
    memcpy(before, store, sizeof before);
    open_request(&message, 2);
    put_slot(&message, 0xD1, 1, 4, 1);
    put_last(&message);
    on_message_in_call(message.bytes, message.length);
    must_call("()kw", "a request during a call");
    must(told == 2, "it would be taken, and the set would start again");
    must(memcmp(before, store, sizeof store) == 0 && memcmp(before, flash, sizeof flash) == 0, "a message that waits changes nothing");
    on_message(waiting.bytes, waiting.length);
    must_call("()()srR", "the same after the call");
    must(memcmp(before, store, sizeof store) != 0, "it is committed");
    message.bytes[7] = 1;
    on_message_in_call(message.bytes, message.length);
    must_call("()kw", "a request with bytes left over during a call");
    must(told == 0, "it would not be taken");
    on_message(waiting.bytes, waiting.length);
    must_call("()r", "it is refused after the call");
    on_message_in_call(message.bytes, 6);
    must_call("()", "six bytes during a call");
}

/* Attributes 10, 01 and 11: the second is a background group and is not drawn, and the third is drawn in its own row. */
static void draws_contacts(void)
{
    unsigned each;
    contacts = 1;
    draw_group_contacts();
    must_call("()", "no contact is drawn where there is none");
    open_request(&message, 3);
    for (each = 0; each < 3; each++) {
        uint8_t fields[] = {0x60, 0, 1, 0x10, 0, 1, 0, 0};
        fields[0] = (uint8_t)(each == 1 ? 0x50 : 0x60 + each * 8);
        fields[5] = (uint8_t)(1 + each);
        put_bytes(&message, 0xC8, fields, sizeof fields);
    }
    on_message(message.bytes, message.length);
    must_call("()()s", "three group contacts");
    last_row = OTAP_CONTACT_ROWS;
    draw_group_contacts();
    must_call("(dd)", "two of three contacts are drawn");
    must(last_row == 2, "the third in its own row");
}

/* PABX 2345 with a name, and PSTN 3 without one; then the list is emptied again. */
static void names_callers(void)
{
    static const uint8_t named[] = {0x42, 1, 0x23, 0x45, 0xFF, 0, 'A', 0, 0}, nameless[] = {0x40, 1, 0x3F, 0, 0}, none[] = {0xC0, 0};
    static const uint8_t number[] = {2, 3, 4, 5, 6}, three[] = {3}, wrong[] = {10};
    open_request(&message, 2);
    put_bytes(&message, 0xCA, named, sizeof named);
    put_bytes(&message, 0xCA, nameless, sizeof nameless);
    on_message(message.bytes, message.length);
    must_call("()()s", "two lines");
    on_line_call(OTAP_PABX, number, 4);
    must_call("(n)", "a caller with a name");
    on_line_call(OTAP_PSTN, three, 1);
    must_call("(n)", "a caller without a name");
    on_line_call(OTAP_PSTN, number, 4);
    must_call("()g", "the same number of another network");
    on_line_call(OTAP_PABX, number, 5);
    must_call("()g", "a number that begins like it");
    on_line_call(OTAP_PABX, number, 0);
    must_call("()g", "a caller without a number");
    on_line_call(OTAP_PABX, wrong, 1);
    must_call("()g", "no digit");
    open_request(&message, 1);
    put_bytes(&message, 0xCA, none, sizeof none);
    on_message(message.bytes, message.length);
    must_call("()()s", "no line");
}

/* Two channels, then bytes that are no store. */
static void draws_the_menu(void)
{
    draw_menu();
    must_call("()m", "the menu");
    open_request(&message, 1);
    put_channels(&message, 3, 2);
    on_message(message.bytes, message.length);
    must_call("()()s", "two channels");
    free_channels -= 2;
    draw_menu();
    must_call("()m", "the menu after them");
    memset(store, 0, sizeof store);
    draw_menu();
    must_call("()", "no menu of what is no store");
}

int main(void)
{
    powers_on();
    draw_groups();
    must_call("()", "no row of a fresh store is drawn");
    takes();
    waits();
    draw_groups();
    must_call("(ddddddddddddddd)", "fifteen of sixteen rows are drawn, slot 3 was deleted");
    draws_contacts();
    names_callers();
    draws_the_menu();
    printf("the snippet keeps, judges, saves, answers, starts again, names callers and draws\n");
    return 0;
}
