/*
 * banks.c on a simulated flash whose power is cut at every byte: of a write, of an erase from either end, with anything in the byte that was being
 * changed; and with the bits of a head, or of a bank, changed in any order. Whatever was cut, a power-on finds the tables before the save or after it,
 * whole. Ends with 1 at the first that does not.
 */
#include "banks.h"
#include "judged.h"
#include "messages.h"

#include <setjmp.h>
#include <stdio.h>
#include <stdlib.h>

enum { STEPS = 2 * BANK_BYTES, HEAD_BITS = 8 * BANK_HEAD_BYTES, WALK = 1500 };

static uint8_t flash[2][BANK_BYTES];
static Banks banks;
static uint8_t tables[OTAP_STORE_BYTES]; /* the set's store */
static uint8_t before[OTAP_STORE_BYTES], after[OTAP_STORE_BYTES], found[OTAP_STORE_BYTES], fresh[OTAP_STORE_BYTES];
static int watched, erase_down, was_saved;
static unsigned long steps, cut_at, looks;
static size_t stuck; /* the byte of a bank that stays FF, from 1; 0: none */
static jmp_buf power;

static void must(int holds, const char *what)
{
    if (!holds) {
        fprintf(stderr, "banks: %s (save %u, step %lu)\n", what, (unsigned)banks.sequence, steps);
        exit(1);
    }
}

static int same(const uint8_t *one, const uint8_t *other)
{
    return memcmp(one, other, OTAP_STORE_BYTES) == 0;
}

/* A power-on, with what the flash now holds; what it finds is in `found`. */
static int power_on(Banks *now)
{
    memset(found, 0xA5, sizeof found);
    looks++;
    return banks_load(now, found);
}

static void finds_old_or_new(void)
{
    Banks now;
    int kept = power_on(&now);
    must(kept || !was_saved, "a fresh store, though one was saved");
    must(same(found, before) || same(found, after), "neither the old tables nor the new ones");
}

static void finds(const uint8_t *wanted, const char *what)
{
    Banks now;
    must(power_on(&now) && same(found, wanted), what);
}

/* What a byte may be when the power goes: as it was, as it shall be, with some of its bits changed, or anything. */
static uint8_t half_way(uint8_t was, uint8_t shall)
{
    switch (random_below(4)) {
    case 0: return was;
    case 1: return shall;
    case 2: return (uint8_t)(was ^ ((was ^ shall) & random_below(256)));
    default: return (uint8_t)random_below(256);
    }
}

/* A power cut in this step; of the head, with each value that the byte can have. */
static void look(uint8_t *byte, uint8_t shall, int in_head)
{
    uint8_t was = *byte;
    unsigned each, most = in_head ? 256 : 1;
    for (each = 0; each < most; each++) {
        *byte = in_head ? (uint8_t)each : half_way(was, shall);
        finds_old_or_new();
    }
    *byte = was;
}

/* One byte is changed: the step in which the power may go. */
static void step(unsigned bank, size_t at, uint8_t shall)
{
    steps++;
    if (watched) {
        look(&flash[bank][at], shall, at < BANK_HEAD_BYTES);
    }
    if (steps == cut_at) {
        flash[bank][at] = half_way(flash[bank][at], shall);
        longjmp(power, 1);
    }
    flash[bank][at] = at + 1 == stuck ? 0xFF : shall;
}

void flash_erase(unsigned bank)
{
    size_t each;
    for (each = 0; each < BANK_BYTES; each++) {
        step(bank, erase_down ? BANK_BYTES - 1 - each : each, 0xFF);
    }
}

/* Whether a head stands whole, whatever it says: its halves are complements. */
static int is_head(const uint8_t *head)
{
    unsigned each;
    for (each = 0; each < 8 && (head[each] ^ head[8 + each]) == 0xFF; each++) {
    }
    return each == 8;
}

/* A head that stood before its store would leave a cut to the check alone; the cuts themselves are to see that without this. */
void flash_write(unsigned bank, size_t at, const uint8_t *bytes, size_t length)
{
    size_t each;
    must(bank < 2 && at <= BANK_BYTES && length <= BANK_BYTES - at, "a write outside the bank");
    must(watched || !is_head(flash[bank]), "a write behind a whole head");
    for (each = 0; each < length; each++) {
        step(bank, at + each, flash[bank][at + each] & bytes[each]);
    }
}

void flash_read(unsigned bank, size_t at, uint8_t *bytes, size_t length)
{
    must(bank < 2 && at <= BANK_BYTES && length <= BANK_BYTES - at, "a read outside the bank");
    memcpy(bytes, flash[bank] + at, length);
}

static uint32_t commit(const Message *message)
{
    static uint8_t reply[OTAP_REPLY_BYTES];
    return otap_answer_number(judge_and_commit(message->bytes, message->length, tables, sizeof tables, reply, sizeof reply));
}

/* Commits messages until the tables are others; a set without tables gets full ones. */
static void change_tables(void)
{
    static unsigned turn;
    static Message message;
    unsigned each;
    memcpy(before, tables, sizeof before);
    for (each = 0; each < FILLING_MESSAGES && same(before, fresh); each++) {
        write_filling(&message, each, 0);
        must(commit(&message) == OTAP_OK, "a filling message was refused");
    }
    while (same(before, tables)) {
        write_message(&message, turn % 13 < 9 ? turn % 13 : turn % 13 + 2, turn / 13);
        must(commit(&message) <= OTAP_NO_ROOM, "a message was refused, and not for room");
        turn++;
    }
    memcpy(after, tables, sizeof after);
}

/* Saves the tables; with `watch`, cut at every byte. */
static void save(int watch)
{
    watched = watch;
    steps = 0;
    must(banks_save(&banks, tables), "a save that was not done");
    watched = 0;
    was_saved = 1;
    must(steps == STEPS, "a save that is not one erase and one write of a bank");
    finds(after, "not the new tables after a save");
}

/* A set whose flash was never written. */
static void begin(void)
{
    memset(flash, 0xFF, sizeof flash);
    was_saved = 0;
    must(!banks_load(&banks, tables) && same(tables, fresh), "not a fresh store in empty flash");
}

/* The first three saves, and the one whose sequence number is 0 again; erased from either end. */
static void cut_everywhere(void)
{
    unsigned each;
    begin();
    for (each = 0; each <= 256; each++) {
        erase_down = each % 4 >= 2;
        change_tables();
        save(each < 3 || each == 256);
    }
}

/* Saves in a row, most of them cut, each after a power-on that knows only the flash. */
static void walk(void)
{
    static unsigned turn;
    begin();
    change_tables();
    save(0);
    for (turn = 0; turn < WALK; turn++) {
        change_tables();
        erase_down = (int)random_below(2);
        cut_at = random_below(4) == 0 ? 0 : random_below(2) == 0 ? 1 + random_below(STEPS) : STEPS - random_below(BANK_HEAD_BYTES);
        steps = 0;
        if (setjmp(power) == 0) {
            must(banks_save(&banks, tables), "a save of the walk that was not done");
            finds(after, "not the new tables after a save of the walk");
        }
        cut_at = 0;
        finds_old_or_new();
        must(banks_load(&banks, tables), "a fresh store in the walk");
    }
}

/* The bits of a head in any order: one or two of them are still 1, or already. `bank` is not whole then, and the other one is found. */
static void head_bits(unsigned bank, const uint8_t *wanted, const char *what)
{
    uint8_t head[BANK_HEAD_BYTES];
    unsigned one, two;
    memcpy(head, flash[bank], sizeof head);
    for (one = 0; one < HEAD_BITS; one++) {
        for (two = 0; two <= one; two++) {
            flash[bank][one / 8] |= (uint8_t)(1u << one % 8);
            flash[bank][two / 8] |= (uint8_t)(1u << two % 8);
            if (memcmp(head, flash[bank], sizeof head) != 0) {
                finds(wanted, what);
            }
            memcpy(flash[bank], head, sizeof head);
        }
    }
}

/* The bits of a whole bank in any order: in each byte some of them are still 1, or already; few bytes or many. */
static void bank_bits(unsigned bank, const uint8_t *wanted, const char *what)
{
    static uint8_t kept[BANK_BYTES];
    unsigned turn;
    size_t at;
    memcpy(kept, flash[bank], sizeof kept);
    for (turn = 0; turn < 500; turn++) {
        unsigned apart = 1 + random_below(1u << turn % 13);
        for (at = random_below(apart); at < BANK_BYTES; at += apart) {
            flash[bank][at] |= (uint8_t)random_below(256);
        }
        must(memcmp(kept, flash[bank], sizeof kept) != 0, "no bit of a bank was changed");
        finds(wanted, what);
        memcpy(flash[bank], kept, sizeof kept);
    }
}

/* Every byte of the newer bank in turn is another: the older one is found. */
static void damaged(void)
{
    size_t at;
    unsigned newer = banks.newest;
    for (at = 0; at < BANK_BYTES; at++) {
        uint8_t was = flash[newer][at];
        flash[newer][at] = (uint8_t)(was ^ (1 + random_below(255)));
        finds(before, "a damaged bank, or not the older one beside it");
        flash[newer][at] = was;
    }
    finds(after, "not the newer tables once they are repaired");
}

/* CRC-32 bit by bit, as a second reading of what banks.c writes in a head. */
static uint32_t check_of_bits(const uint8_t *bytes)
{
    uint32_t check = 0xFFFFFFFFu;
    size_t bit;
    for (bit = 0; bit < 8 * (size_t)OTAP_STORE_BYTES; bit++) {
        uint32_t in = (check ^ (uint32_t)(bytes[bit / 8] >> bit % 8)) & 1u;
        check = check >> 1 ^ (in != 0 ? 0xEDB88320u : 0u);
    }
    return ~check;
}

/* A bank as banks.c writes it, of any bytes and any layout. */
static void forge(unsigned bank, uint8_t layout, const uint8_t *bytes)
{
    uint32_t check = check_of_bits(bytes);
    uint8_t *head = flash[bank];
    unsigned each;
    memcpy(flash[bank] + BANK_HEAD_BYTES, bytes, OTAP_STORE_BYTES);
    head[0] = layout;
    for (each = 0; each < 4; each++) {
        head[2 + each] = (uint8_t)(check >> (24 - 8 * each));
    }
    for (each = 0; each < 8; each++) {
        head[8 + each] = (uint8_t)~head[each];
    }
}

/* Of the newer bank, only its bytes or its layout are not this library's. */
static void not_ours(void)
{
    static uint8_t kept[BANK_BYTES], no_store[OTAP_STORE_BYTES];
    unsigned newer = banks.newest;
    memcpy(kept, flash[newer], sizeof kept);
    forge(newer, OTAP_LAYOUT + 1, after);
    finds(before, "a bank of another layout");
    memcpy(no_store, after, sizeof no_store);
    no_store[OTAP_STORE_BYTES - 1] = 1;
    forge(newer, OTAP_LAYOUT, no_store);
    finds(before, "a bank whose bytes are no store");
    must(!banks_save(&banks, no_store), "bytes that are no store were saved");
    memcpy(flash[newer], kept, sizeof kept);
    finds(after, "not the newer tables");
}

static void as_said(void)
{
    static uint8_t kept[BANK_BYTES];
    memcpy(kept, flash[banks.newest], sizeof kept);
    forge(banks.newest, OTAP_LAYOUT, after);
    must(memcmp(kept, flash[banks.newest], sizeof kept) == 0, "a head that is not as banks.h says");
}

/* What is there already is not written again. */
static void spared(void)
{
    steps = 0;
    must(banks_save(&banks, tables) && steps == 0, "the same bytes were written again");
}

/* A byte that the flash does not keep: the save says so, and the old tables stay. Then the flash is good again, and so is the save. */
static void not_kept(void)
{
    size_t at;
    for (at = 0; at < BANK_BYTES; at += at < BANK_HEAD_BYTES ? 8 : 397) {
        change_tables();
        stuck = at + 1;
        must(!banks_save(&banks, tables), "a byte was not kept, and the save says that it is done");
        finds(before, "not the old tables after a save that was not done");
        stuck = 0;
        save(0);
    }
}

/* No bank is whole: a fresh store, and what is saved then is newer than what comes back of the damaged ones. */
static void none_whole(void)
{
    flash[0][BANK_HEAD_BYTES + 100] ^= 0x10;
    flash[1][BANK_HEAD_BYTES + 100] ^= 0x10;
    must(!banks_load(&banks, tables), "a damaged bank was found");
    must(same(tables, fresh), "not a fresh store where none is whole");
    change_tables();
    save(0);
    flash[1 - banks.newest][BANK_HEAD_BYTES + 100] ^= 0x10;
    finds(after, "not the new tables beside an older bank that came back");
}

/* What a power-on makes of two banks that were saved, and of what became of them. */
static void two_whole(void)
{
    begin();
    change_tables();
    save(0);
    change_tables();
    save(0);
    spared();
    not_ours();
    head_bits(banks.newest, before, "a head that was not written to its end");
    head_bits(1 - banks.newest, after, "a head that was erased in part");
    bank_bits(banks.newest, before, "a bank that was not written to its end");
    bank_bits(1 - banks.newest, after, "a bank that was erased in part");
    damaged();
    as_said();
    not_kept();
    none_whole();
}

/* With the word "cuts" only the cuts at every byte, with "rest" only the rest. */
int main(int count, char **words)
{
    int cuts = count < 2 || strcmp(words[1], "cuts") == 0, rest = count < 2 || strcmp(words[1], "rest") == 0;
    must(cuts || rest, "the word is not \"cuts\" or \"rest\"");
    otap_start(fresh, sizeof fresh);
    if (cuts) {
        cut_everywhere();
    }
    if (rest) {
        two_whole();
        walk();
    }
    printf("%lu power-ons: each found the old tables or the new ones, whole\n", looks);
    return 0;
}
