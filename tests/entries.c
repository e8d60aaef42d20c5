/*
 * What stands behind a row, and the settings that the radio works by, as C sees them: entries of each table, empty places, background groups, a fresh store
 * and no store, buffers of every size, and that all other bits are 0. Each case was worked out by hand from docs/RULES.md, E1 to E9 and L4.
 */
#include "answers.h"

static uint8_t store[OTAP_STORE_BYTES];

/* Entries of every table, some with a name and some without, and all that has no table; coding type 0100. */
static const uint8_t all[] = {
    2, 2, 0, 0, 8, 4, 8, 17,
    0xCA, 0, 9, 0x6A, 1, 0x23, 0x45, 0xFF, 'A', 0,               /* line 0: encryption, priority 2, PABX 2345 */
    0xCA, 0, 15, 0x54, 1, 0x12, 0x34, 0x56, 0x78, 0x90, 0x12, 0x34, 0x56, 0x78, 0xFF, 0, /* line 1: emergency, priority 1, PSTN, 18 digits */
    0xD1, 0, 9, 0x6A, 0x40, 0x10, 0, 1, 'B', 0,                  /* group 0: response, broadcast, OVCM, priority 1 */
    0xD1, 0, 9, 0x55, 0xC1, 0x10, 0, 2, 'C', 0,                  /* group 1: background, encryption, emergency, priority 3 */
    0xD1, 0, 8, 0x70, 0x0F, 0xFF, 0xFF, 0xFF, 0,                 /* group 15: member */
    0xD2, 0, 9, 0x7C, 0, 0x10, 0, 1, 'D', 0,                     /* individual 0: all flags; the address of group 0 */
    0xD2, 0, 8, 0x40, 0x0F, 0xFF, 0x7D, 0xC8, 0,                 /* individual 15 */
    0xC8, 0, 10, 0x50, 0, 1, 0x10, 0, 3, 'E', 0,                 /* group contact 0: background */
    0xC8, 0, 14, 0x71, 0x80, 2, 0x10, 0, 4, 'F', 0, 0x10, 0, 5, 0, /* 1 and 2: member, emergency, priority 2 */
    0xC9, 0, 13, 0x48, 2, 0x10, 0, 4, 'G', 0, 0x10, 0, 6, 0,     /* individual contacts 0 and 1: priority 2 */
    0xD3, 0, 8, 0x62, 2, 0x12, 0x2F, 'H', 0,                     /* line slot 2: encryption, PABX 122 */
    0xD3, 0, 6, 0x40, 0x0F, 0x0F, 0,                             /* line slot 15: PSTN 0 */
    0xCE, 0, 9, 0xC0, 3, 0x0F, 0x12, 0x80, 0x0F, 0x1F,           /* channels 241, 640, 241 */
    0xCB, 0, 6, 0x68, 0x10, 0, 7,                                /* the key: group 100007, voice, siren */
    0xCD, 0, 5, 0x07, 0xE4, 0xC0,                                /* NZI 15, NP 806 */
    0xCF, 0, 5, 0xAB, 0xC8, 0x60,                                /* LAI ABC, LA 8, roaming 1, PAR */
    0xCC, 0, 6, 0x41, 3, 'Q', 0                                  /* quick text 3 */
};

/* What has something behind it, and what that is. */
typedef struct {
    uint32_t table, index, address, id_type, encryption, emergency, priority, attribute, broadcast, ovcm;
} Behind;

static const Behind behind[] = {
    {OTAP_LINES, 0, 0, 1, 1, 0, 2, 0, 0, 0},
    {OTAP_LINES, 1, 0, 0, 0, 1, 1, 0, 0, 0},
    {OTAP_GROUPS, 0, 0x100001, 0, 0, 0, 1, 2, 1, 1},
    {OTAP_GROUPS, 1, 0x100002, 0, 1, 1, 3, 1, 0, 0},
    {OTAP_GROUPS, 15, 0xFFFFFF, 0, 0, 0, 0, 3, 0, 0},
    {OTAP_INDIVIDUALS, 0, 0x100001, 0, 1, 1, 3, 0, 0, 0},
    {OTAP_INDIVIDUALS, 15, 0xFF7DC8, 0, 0, 0, 0, 0, 0, 0},
    {OTAP_GROUP_CONTACTS, 0, 0x100003, 0, 0, 0, 0, 1, 0, 0},
    {OTAP_GROUP_CONTACTS, 1, 0x100004, 0, 0, 1, 2, 3, 0, 0},
    {OTAP_GROUP_CONTACTS, 2, 0x100005, 0, 0, 1, 2, 3, 0, 0},
    {OTAP_INDIVIDUAL_CONTACTS, 0, 0x100004, 0, 0, 0, 2, 0, 0, 0},
    {OTAP_INDIVIDUAL_CONTACTS, 1, 0x100006, 0, 0, 0, 2, 0, 0, 0},
    {OTAP_LINE_SLOTS, 2, 0, 1, 1, 0, 0, 0, 0, 0},
    {OTAP_LINE_SLOTS, 15, 0, 0, 0, 0, 0, 0, 0, 0}
};
enum { HELD = sizeof behind / sizeof behind[0] };

static uint64_t bits(const Behind *is)
{
    return (uint64_t)is->address << 8 | (uint64_t)is->id_type << 32 | (uint64_t)is->encryption << 33 | (uint64_t)is->emergency << 34
         | (uint64_t)is->priority << 35 | (uint64_t)is->attribute << 37 | (uint64_t)is->broadcast << 39 | (uint64_t)is->ovcm << 40;
}

/* An entry, and whether the store stays. */
static uint64_t ask(uint32_t table, uint32_t index)
{
    static uint8_t before[OTAP_STORE_BYTES];
    uint64_t answer;
    memcpy(before, store, sizeof before);
    answer = otap_entry(table, index, store, sizeof store);
    same("asking changes nothing", 0, 0, (uint64_t)(memcmp(before, store, sizeof store) != 0));
    return answer;
}

/* Digits at the start of a buffer of this length, whose other bytes stay, and the store too. */
static uint64_t ask_digits(uint32_t table, uint32_t index, size_t length, uint8_t *digits)
{
    static uint8_t before[OTAP_STORE_BYTES];
    uint64_t answer;
    size_t at, count;
    memcpy(before, store, sizeof before);
    memset(digits, 0xA5, 64);
    answer = otap_entry_digits(table, index, store, sizeof store, digits, length);
    count = otap_digits_count(answer);
    same("as many as there can be", 1, count <= OTAP_DIGITS, 1);
    same("their bits", count << 8, answer & ~(uint64_t)0xFF, answer & 0xFF00);
    for (at = count; at < 64; at++) {
        same("bytes past the digits stay", 0xA5, 0xA5, digits[at]);
    }
    same("digits leave the store", 0, 0, (uint64_t)(memcmp(before, store, sizeof store) != 0));
    return answer;
}

/* The whole answer, and what the header unpacks of it. */
static void each_table(void)
{
    size_t each;
    for (each = 0; each < HELD; each++) {
        const Behind *is = &behind[each];
        uint64_t answer = ask(is->table, is->index);
        same("what stands behind a row", bits(is), bits(is), answer);
        same("its number", 0, OTAP_OK, otap_answer_number(answer));
        same("its address", is->address, otap_entry_address(answer), is->address);
        same("IDtype", is->id_type, otap_entry_id_type(answer), is->id_type);
        same("encryption", is->encryption, (uint64_t)otap_entry_encryption(answer), is->encryption);
        same("emergency", is->emergency, (uint64_t)otap_entry_emergency(answer), is->emergency);
        same("priority", is->priority, otap_entry_priority(answer), is->priority);
        same("attribute", is->attribute, otap_entry_attribute(answer), is->attribute);
        same("broadcast", is->broadcast, (uint64_t)otap_entry_broadcast(answer), is->broadcast);
        same("OVCM", is->ovcm, (uint64_t)otap_entry_ovcm(answer), is->ovcm);
    }
    same("PABX", 1, OTAP_PABX, otap_entry_id_type(ask(OTAP_LINES, 0)));
    same("a response group", 2, OTAP_RESPONSE, otap_entry_attribute(ask(OTAP_GROUPS, 0)));
    same("a background group", 1, OTAP_BACKGROUND, otap_entry_attribute(ask(OTAP_GROUPS, 1)));
    same("a member group", 3, OTAP_MEMBER, otap_entry_attribute(ask(OTAP_GROUPS, 15)));
}

static const Behind *held(uint32_t table, uint32_t index)
{
    size_t each;
    for (each = 0; each < HELD; each++) {
        if (behind[each].table == table && behind[each].index == index) {
            return &behind[each];
        }
    }
    return NULL;
}

/* Nothing else stands anywhere: empty places, those that a table has not, and every other table, also such as are a table's in their low bits. */
static void nothing_else(void)
{
    static const uint32_t tables[] = {0, 1, 2, 3, 4, 5, 6, 7, 8, 9, 255, 0x104, 0x10004, 0x80000004u, 0xFFFFFFFFu};
    static const uint32_t indexes[] = {17, 31, 32, 33, 63, 64, 127, 255, 256, 257, 0x10000, 0x1000F, 0x80000000u, 0xFFFFFFFFu};
    uint8_t digits[64];
    size_t each, at;
    same("both meanings of 17", 17, OTAP_NO_ROW, OTAP_NOTHING_THERE);
    for (each = 0; each < sizeof tables / sizeof tables[0]; each++) {
        for (at = 0; at < 17 + sizeof indexes / sizeof indexes[0]; at++) {
            uint32_t table = tables[each], index = at < 17 ? (uint32_t)at : indexes[at - 17];
            const Behind *is = held(table, index);
            int line = is != NULL && (table == OTAP_LINES || table == OTAP_LINE_SLOTS);
            uint64_t answer = ask_digits(table, index, 18, digits);
            same("an entry of any row", is != NULL ? bits(is) : 17, is != NULL ? bits(is) : OTAP_NOTHING_THERE, ask(table, index));
            same("digits of any row", 1, line ? otap_answer_number(answer) == OTAP_OK : answer == OTAP_NOTHING_THERE, 1);
        }
    }
}

/* A row that is shown has something behind it; what stands there is shown, unless it is a background group. */
static void beside_the_screen(void)
{
    uint32_t table, index;
    for (table = OTAP_LINES; table <= OTAP_LINE_SLOTS; table++) {
        for (index = 0; index < OTAP_CONTACT_ROWS && table != OTAP_QUICK_TEXTS && table != OTAP_STATUS_TEXTS; index++) {
            uint64_t answer = ask(table, index);
            int shown = otap_row_part(table, index, store, sizeof store, scratch, sizeof scratch) != 0;
            int there = otap_answer_number(answer) == OTAP_OK;
            same("shown exactly", there && otap_entry_attribute(answer) != OTAP_BACKGROUND, (uint64_t)shown, (uint64_t)shown);
        }
    }
    same("a quick text is shown", 0, OTAP_OK, otap_row_number(OTAP_QUICK_TEXTS, 3, store, sizeof store, scratch, sizeof scratch));
}

static void digits_are(uint32_t table, uint32_t index, const char *number)
{
    uint8_t digits[64];
    size_t length, at;
    for (length = 0; length <= 40; length++) {
        uint64_t wanted = length < 18 ? 15 : (uint64_t)strlen(number) << 8;
        same(number, wanted, wanted, ask_digits(table, index, length, digits));
    }
    same(number, strlen(number), otap_digits_count(ask_digits(table, index, OTAP_DIGITS, digits)), strlen(number));
    for (at = 0; number[at] != 0; at++) {
        same(number, (uint64_t)(number[at] - '0'), digits[at], digits[at]);
    }
}

/* One digit, some, and as many as there can be; 15 comes before all else. */
static void digits_of_lines(void)
{
    uint8_t digits[64];
    digits_are(OTAP_LINES, 0, "2345");
    digits_are(OTAP_LINES, 1, "123456789012345678");
    digits_are(OTAP_LINE_SLOTS, 2, "122");
    digits_are(OTAP_LINE_SLOTS, 15, "0");
    same("a group has none", 17, OTAP_NOTHING_THERE, ask_digits(OTAP_GROUPS, 0, 18, digits));
    same("17 bytes, of no table", 15, OTAP_SHORT_BUFFER, ask_digits(0, 0, 17, digits));
    same("17 bytes, and no store", 15, OTAP_SHORT_BUFFER, otap_entry_digits(OTAP_LINES, 0, store, 0, digits, 17));
    same("no store, and no table", 11, OTAP_NO_STORE, otap_entry_digits(0, 0, store, sizeof store - 1, digits, 18));
}

static void channel_is(uint32_t position, uint64_t channel)
{
    uint64_t answer = otap_channel(position, store, sizeof store);
    same("a channel", channel << 8, otap_channel_value(answer) << 8, answer);
}

/* In the order sent, a repeat too; none behind the last, nor far behind it. */
static void channels(void)
{
    static const uint32_t behind_them[] = {3, 4, 63, 64, 255, 256, 0x10000, 0x80000000u, 0xFFFFFFFFu};
    size_t each;
    channel_is(0, 241);
    channel_is(1, 640);
    channel_is(2, 241);
    for (each = 0; each < sizeof behind_them / sizeof behind_them[0]; each++) {
        same("behind the last channel", 17, OTAP_NOTHING_THERE, otap_channel(behind_them[each], store, sizeof store));
    }
    write_filling(&said, 4, 0);
    told("as many channels as there can be", said.bytes, said.length, OTAP_OK, 0, store);
    for (each = 0; each < OTAP_CHANNEL_PLACES; each++) {
        channel_is((uint32_t)each, each % 2 == 0 ? 241 : 640);
    }
    same("behind all of them", 17, OTAP_NOTHING_THERE, otap_channel(OTAP_CHANNEL_PLACES, store, sizeof store));
}

/* The key after a setting of these fields: its address, and its flags from current on. */
static void key_after(const uint8_t *fields, size_t length, uint32_t address, unsigned flags)
{
    uint64_t answer, wanted = (uint64_t)address << 8 | (uint64_t)flags << 32;
    open_request(&said, 1);
    put_bytes(&said, 0xCB, fields, length);
    same("taken", 0, OTAP_OK, otap_answer_number(judge_and_commit(said.bytes, said.length, store, sizeof store, reply, sizeof reply)));
    answer = otap_emergency_key(store, sizeof store);
    same("the emergency key", wanted, wanted, answer);
    same("its address", address, otap_key_address(answer), address);
    same("current", flags & 1, (uint64_t)otap_key_current(answer), flags & 1);
    same("group", flags >> 1 & 1, (uint64_t)otap_key_group(answer), flags >> 1 & 1);
    same("voice", flags >> 2 & 1, (uint64_t)otap_key_voice(answer), flags >> 2 & 1);
    same("status", flags >> 3 & 1, (uint64_t)otap_key_status(answer), flags >> 3 & 1);
    same("siren", flags >> 4 & 1, (uint64_t)otap_key_siren(answer), flags >> 4 & 1);
}

/* Each flag by itself; the current place keeps the group bit, and the address is gone. */
static void keys(void)
{
    static const uint8_t group[] = {0x40, 0x10, 0, 1}, voice[] = {0x20, 0xFF, 0xFF, 0xFF}, status[] = {0x10, 0x12, 0x34, 0x56};
    static const uint8_t siren[] = {0x08, 0x10, 0, 1}, current[] = {0xC8}, alone[] = {0x80};
    key_after(group, sizeof group, 0x100001, 2);
    key_after(voice, sizeof voice, 0xFFFFFF, 4);
    key_after(status, sizeof status, 0x123456, 8);
    key_after(siren, sizeof siren, 0x100001, 16);
    key_after(current, sizeof current, 0, 1 + 2 + 16);
    key_after(alone, sizeof alone, 0, 1);
}

/* Home numbers and system code, whole and unpacked. */
static void numbers_are(uint64_t nzi, uint64_t np, uint64_t lai, uint64_t la, uint64_t roaming, uint64_t par)
{
    uint64_t home = otap_home_numbers(store, sizeof store), code = otap_system_code(store, sizeof store);
    same("home numbers", nzi << 8 | np << 17, home, home);
    same("NZI", nzi, otap_home_nzi(home), nzi);
    same("NP", np, otap_home_np(home), np);
    same("system code", lai << 8 | la << 20 | roaming << 24 | par << 26, code, code);
    same("LAI", lai, otap_system_lai(code), lai);
    same("LA", la, otap_system_la(code), la);
    same("roaming", roaming, otap_system_roaming(code), roaming);
    same("PAR", par, (uint64_t)otap_system_par(code), par);
}

static void home_and_system(void)
{
    static const uint8_t most[] = {2, 2, 0, 0, 8, 4, 8, 2, 0xCD, 0, 5, 0xFF, 0x80, 0x1F, 0xCF, 0, 5, 0xFF, 0xF0, 0x9F};
    numbers_are(15, 806, 0xABC, 8, 1, 1);
    told("NZI 511, NP 0; LAI FFF, LA 0, roaming 2, no PAR", most, sizeof most, OTAP_OK, 0, store);
    numbers_are(511, 0, 0xFFF, 0, 2, 0);
}

/* In a fresh store nothing stands anywhere, the key calls the current place, and the numbers are 0. */
static void fresh_store(void)
{
    uint8_t digits[64];
    uint32_t each;
    same("start", 0, OTAP_OK, otap_start(store, sizeof store));
    for (each = 0; each < 10 * OTAP_SLOT_ROWS; each++) {
        same("an entry", 17, OTAP_NOTHING_THERE, ask(each / OTAP_SLOT_ROWS, each % OTAP_SLOT_ROWS));
        same("digits", 17, OTAP_NOTHING_THERE, ask_digits(each / OTAP_SLOT_ROWS, each % OTAP_SLOT_ROWS, 18, digits));
        same("a channel", 17, OTAP_NOTHING_THERE, otap_channel(each, store, sizeof store));
    }
    same("the key", (uint64_t)1 << 32, otap_emergency_key(store, sizeof store), (uint64_t)1 << 32);
    numbers_are(0, 0, 0, 0, 0, 0);
}

/* 11 of every call, and nothing but 11: bytes of another length, and a store with a byte that none has. */
static void no_stores(void)
{
    static const size_t sizes[] = {0, 1, OTAP_STORE_BYTES - 1};
    uint8_t digits[64];
    size_t each;
    told("all", all, sizeof all, OTAP_OK, 0, store);
    for (each = 0; each < 4; each++) {
        size_t length = each < 3 ? sizes[each] : sizeof store;
        store[OTAP_STORE_BYTES - 1] = each == 3;
        same("an entry", 11, OTAP_NO_STORE, otap_entry(OTAP_GROUPS, 0, store, length));
        same("of no table", 11, OTAP_NO_STORE, otap_entry(0, 0, store, length));
        same("digits", 11, OTAP_NO_STORE, otap_entry_digits(OTAP_LINES, 0, store, length, digits, 18));
        same("a channel", 11, OTAP_NO_STORE, otap_channel(0, store, length));
        same("no channel", 11, OTAP_NO_STORE, otap_channel(64, store, length));
        same("the key", 11, OTAP_NO_STORE, otap_emergency_key(store, length));
        same("home numbers", 11, OTAP_NO_STORE, otap_home_numbers(store, length));
        same("the system code", 11, OTAP_NO_STORE, otap_system_code(store, length));
    }
}

/* What is pressed is what is seen: the first contact goes, and name and address of the others move up together. */
static void moved_together(void)
{
    static const uint8_t deleting[] = {0x90, 0, 1, 0x10, 0, 3, 0, 0};
    uint64_t part;
    told("all", all, sizeof all, OTAP_OK, 0, store);
    open_request(&said, 1);
    put_bytes(&said, 0xC8, deleting, sizeof deleting);
    same("deleted", 0, OTAP_OK, otap_answer_number(judge_and_commit(said.bytes, said.length, store, sizeof store, reply, sizeof reply)));
    part = otap_row_part(OTAP_GROUP_CONTACTS, 0, store, sizeof store, scratch, sizeof scratch);
    same("the name F", 'F', 'F', otap_part_bytes(part, store, scratch)[1]);
    same("with its own address", 0x100004, otap_entry_address(ask(OTAP_GROUP_CONTACTS, 0)), 0x100004);
    same("nothing at the old end", 17, OTAP_NOTHING_THERE, ask(OTAP_GROUP_CONTACTS, 2));
}

int main(void)
{
    told("all", all, sizeof all, OTAP_OK, 0, store);
    each_table();
    nothing_else();
    beside_the_screen();
    digits_of_lines();
    home_and_system();
    told("all", all, sizeof all, OTAP_OK, 0, store);
    channels();
    keys();
    fresh_store();
    no_stores();
    moved_together();
    printf("behind each row stands what was sent with its name, and nothing behind any other\n");
    return 0;
}
