/*
 * Who is calling, as C sees it (request A7): the row that has a caller's number after each operation on line contacts, what the screen shows for it, and
 * which orders of the lines make bytes no store. Each case was worked out by hand from docs/RULES.md and docs/STORE.md.
 */
#include "answers.h"
#include "lines.h"
#include "places.h"

static uint8_t store[OTAP_STORE_BYTES];
static const uint8_t zeros[OTAP_LINE_ROWS];

/* PSTN 2345, PABX 2345 with the name A, PSTN 23 and PSTN 3, in this order; coding type 0100. */
static const uint8_t four[] = {2, 2, 0, 0, 8, 4, 8, 4, 0xCA, 0, 8, 0x40, 1, 0x23, 0x45, 0xFF, 0, 0xCA, 0, 9, 0x42, 1, 0x23, 0x45, 0xFF, 'A', 0,
                               0xCA, 0, 7, 0x40, 1, 0x23, 0xFF, 0, 0xCA, 0, 6, 0x40, 1, 0x3F, 0};

static uint64_t ask(uint32_t id_type, const uint8_t *digits, size_t length)
{
    static uint8_t before[OTAP_STORE_BYTES];
    uint64_t answer;
    memcpy(before, store, sizeof before);
    answer = otap_line_of(id_type, digits, length, store, sizeof store);
    same("looking up changes nothing", 0, 0, (uint64_t)(memcmp(before, store, sizeof store) != 0));
    return answer;
}

/* A number as it is read out. */
static uint64_t ask_number(uint32_t id_type, const char *number)
{
    uint8_t digits[32];
    size_t length = strlen(number), each;
    for (each = 0; each < length; each++) {
        digits[each] = (uint8_t)(number[each] - '0');
    }
    return ask(id_type, digits, length);
}

/* The whole answer, and what the header unpacks of it. */
static void row_is(uint32_t id_type, const char *number, uint64_t row)
{
    uint64_t answer = ask_number(id_type, number), wanted = 0x100 | row << 16;
    same(number, wanted, wanted, answer);
    same("its number", 0, OTAP_OK, otap_answer_number(answer));
    same("whether a row has it", 1, (uint64_t)otap_line_found(answer), answer >> 8 & 1);
    same("its row", row, otap_line_row(answer), answer >> 16);
}

static void no_row(uint32_t id_type, const char *number)
{
    uint64_t answer = ask_number(id_type, number);
    same(number, 0, OTAP_OK, answer);
    same("no row", 0, (uint64_t)otap_line_found(answer), otap_line_row(answer));
}

/* The order of the lines: so many names, and zeros up to the spare bytes. */
static void order_is(const char *what, const uint8_t *names, size_t count)
{
    same(what, 0, 0, (uint64_t)(memcmp(store + ORDER_AT, names, count) != 0));
    same("zeros behind it", 0, 0, (uint64_t)(memcmp(store + ORDER_AT + count, zeros, sizeof zeros - count) != 0));
}

static void commit(const char *what, const uint8_t *message, size_t length)
{
    uint64_t answer = judge_and_commit(message, length, store, sizeof store, reply, sizeof reply);
    same(what, 0, OTAP_OK, otap_answer_number(answer));
}

/* Each at its own row; what begins like a line's number, or goes on behind it, is none, and neither is a line's number with another IDtype. */
static void four_lines(void)
{
    static const char *const absent[] = {"234", "23456", "2", "33", "02345", "23450", "2346", "0", "999999999999999999"};
    static const uint32_t others[] = {2, 3, 0x100, 0x101, 0x10001, 0x80000000u, 0xFFFFFFFFu};
    size_t each;
    same("PSTN", 0, OTAP_PSTN, 0);
    same("PABX", 1, OTAP_PABX, 1);
    told("four lines", four, sizeof four, OTAP_OK, 0, store);
    order_is("their order", (const uint8_t *)"\3\1\4\2", 4);
    row_is(OTAP_PSTN, "2345", 0);
    row_is(OTAP_PABX, "2345", 1);
    row_is(OTAP_PSTN, "23", 2);
    row_is(OTAP_PSTN, "3", 3);
    no_row(OTAP_PABX, "23");
    no_row(OTAP_PABX, "3");
    for (each = 0; each < sizeof absent / sizeof absent[0]; each++) {
        no_row(OTAP_PSTN, absent[each]);
        no_row(OTAP_PABX, absent[each]);
    }
    for (each = 0; each < sizeof others / sizeof others[0]; each++) {
        no_row(others[each], "2345");
        no_row(others[each], "3");
    }
}

/* A line's name, where it stands; and its digits where it has none. */
static void shown(void)
{
    uint32_t row = otap_line_row(ask_number(OTAP_PABX, "2345"));
    uint64_t part = otap_row_part(OTAP_LINES, row, store, sizeof store, scratch, sizeof scratch);
    same("the name of PABX 2345", (uint64_t)2 << 32 | text_at(store, OTAP_LINES, row) << 16, part, part);
    same("A", 'A', 'A', otap_part_bytes(part, store, scratch)[1]);
    row = otap_line_row(ask_number(OTAP_PSTN, "23"));
    part = otap_row_part(OTAP_LINES, row, store, sizeof store, scratch, sizeof scratch);
    same("the digits of PSTN 23", 1 | (uint64_t)4 << 32, part, part);
    same("23", 0, 0, (uint64_t)(memcmp(scratch, "\0" "2\0" "3", 4) != 0));
}

/* 20: no digits, one too many, a digit above 9 at either end, and digits as characters. The store comes first, and a line's number does not help. */
static void no_number(void)
{
    static const struct { const char *what; size_t length; uint8_t digits[OTAP_DIGITS + 1]; } rows[] = {
        {"no digits", 0, {2}}, {"19 digits", 19, {2, 3, 4, 5}}, {"digit 10", 1, {10}}, {"digit 10, last", 5, {2, 3, 4, 5, 10}},
        {"digit 10, first", 5, {10, 2, 3, 4, 5}}, {"digit 255", 4, {2, 3, 4, 255}}, {"characters", 4, {'2', '3', '4', '5'}}
    };
    uint32_t id_type;
    size_t each;
    same("the most digits", 18, OTAP_DIGITS, 18);
    same("both meanings of 20", 20, OTAP_OUTSIDE_PLAN, OTAP_BAD_NUMBER);
    for (each = 0; each < sizeof rows / sizeof rows[0]; each++) {
        for (id_type = 0; id_type < 3; id_type++) {
            uint64_t answer = ask(id_type, rows[each].digits, rows[each].length);
            same(rows[each].what, 20, OTAP_BAD_NUMBER, answer);
            same("it has no row", 0, (uint64_t)otap_line_found(answer), otap_line_row(answer));
            answer = otap_line_of(id_type, rows[each].digits, rows[each].length, store, sizeof store - 1);
            same("a short store", 11, OTAP_NO_STORE, answer);
        }
    }
    /* More than the header promises: what a driver may hand over for a caller that is not named. */
    same("no digits, and no pointer", 20, OTAP_BAD_NUMBER, ask(OTAP_PSTN, NULL, 0));
    same("the same of no store", 11, OTAP_NO_STORE, otap_line_of(OTAP_PSTN, NULL, 0, store, 0));
}

/* Eighteen digits, then one fewer: the shorter one is before the longer in the order. */
static void most_digits(void)
{
    static const uint8_t lines[] = {2, 2, 0, 0, 8, 4, 8, 1, 0xCA, 0, 25, 0x42, 2, 0x99, 0x99, 0x99, 0x99, 0x99, 0x99, 0x99, 0x99, 0x99, 0xFF, 0,
                                    0x99, 0x99, 0x99, 0x99, 0x99, 0x99, 0x99, 0x99, 0x9F, 0};
    told("two long numbers", lines, sizeof lines, OTAP_OK, 0, store);
    order_is("the shorter first", (const uint8_t *)"\2\1", 2);
    row_is(OTAP_PABX, "999999999999999999", 0);
    row_is(OTAP_PABX, "99999999999999999", 1);
    no_row(OTAP_PABX, "9999999999999999");
    no_row(OTAP_PSTN, "999999999999999999");
    same("19 digits", 20, OTAP_BAD_NUMBER, ask_number(OTAP_PABX, "9999999999999999999"));
}

/* The first of four is deleted and comes back; then a replace, in which a key comes twice, and an add; then the list is cleared. */
static void after_changes(void)
{
    static const uint8_t deleting[] = {2, 2, 0, 0, 8, 4, 8, 1, 0xCA, 0, 8, 0x80, 1, 0x23, 0x45, 0xFF, 0};
    static const uint8_t adding[] = {2, 2, 0, 0, 8, 4, 8, 1, 0xCA, 0, 8, 0x40, 1, 0x23, 0x45, 0xFF, 0};
    static const uint8_t replacing[] = {2, 2, 0, 0, 8, 4, 8, 1, 0xCA, 0, 16, 0xC2, 4, 0x3F, 0, 0x23, 0x45, 0xFF, 0, 0x23, 0xFF, 0, 0x3F, 'B', 0};
    static const uint8_t clearing[] = {2, 2, 0, 0, 8, 4, 8, 1, 0xCA, 0, 4, 0xC0, 0};
    told("four lines", four, sizeof four, OTAP_OK, 0, store);
    commit("the first is deleted", deleting, sizeof deleting);
    order_is("three are left", (const uint8_t *)"\2\3\1", 3);
    no_row(OTAP_PSTN, "2345");
    row_is(OTAP_PABX, "2345", 0);
    row_is(OTAP_PSTN, "23", 1);
    row_is(OTAP_PSTN, "3", 2);
    commit("it comes back", adding, sizeof adding);
    order_is("it is the last", (const uint8_t *)"\2\4\3\1", 4);
    row_is(OTAP_PSTN, "2345", 3);
    commit("all are replaced", replacing, sizeof replacing);
    order_is("three of PABX", (const uint8_t *)"\3\2\1", 3);
    row_is(OTAP_PABX, "3", 0);
    row_is(OTAP_PABX, "2345", 1);
    row_is(OTAP_PABX, "23", 2);
    no_row(OTAP_PSTN, "2345");
    commit("one is added", adding, sizeof adding);
    order_is("PSTN before PABX", (const uint8_t *)"\4\3\2\1", 4);
    commit("the list is cleared", clearing, sizeof clearing);
    order_is("no order", zeros, 0);
    no_row(OTAP_PABX, "3");
}

/* Line slots are not looked up, and have no order. */
static void slots(void)
{
    static const uint8_t slot[] = {2, 2, 0, 0, 8, 4, 8, 1, 0xD3, 0, 6, 0x40, 0, 0x3F, 0};
    told("a line slot", slot, sizeof slot, OTAP_OK, 0, store);
    order_is("no line", zeros, 0);
    no_row(OTAP_PSTN, "3");
}

/* Orders of the four lines that are not theirs. */
static void false_orders(void)
{
    static const struct { const char *what; uint8_t names[5]; } rows[] = {
        {"the first two exchanged", {1, 3, 4, 2}}, {"by digits alone", {3, 1, 2, 4}}, {"as the lines stand", {1, 2, 3, 4}},
        {"one twice", {3, 3, 4, 2}}, {"one too few", {3, 1, 4}}, {"one too many", {3, 1, 4, 2, 2}}, {"the next place", {3, 1, 4, 5}},
        {"0 in the middle", {3, 1, 0, 4, 2}}, {"positions from 0", {2, 0, 3, 1}}, {"no order, as in layout 4", {0}}
    };
    size_t each, value;
    told("four lines", four, sizeof four, OTAP_OK, 0, store);
    for (each = 0; each < sizeof rows / sizeof rows[0]; each++) {
        memcpy(store + ORDER_AT, rows[each].names, sizeof rows[each].names);
        no_store(rows[each].what, store);
    }
    memcpy(store + ORDER_AT, "\3\1\4\2\0", 5);
    for (each = 0; each <= OTAP_LINE_ROWS; each++) {
        uint8_t *byte = store + (each < OTAP_LINE_ROWS ? ORDER_AT + each : SPARE_AT), right = *byte;
        for (value = 1; value < 256; value <<= 1) {
            *byte = (uint8_t)(right ^ value);
            no_store("another byte of the order, or of what is spare", store);
        }
        *byte = right;
    }
    row_is(OTAP_PSTN, "3", 3);
}

/* The row with this key, looked for from the first on; OTAP_LINE_ROWS where there is none. */
static uint32_t row_of(const Key *key)
{
    uint32_t row;
    for (row = 0; row < OTAP_LINE_ROWS; row++) {
        Key other = key_of(store, row);
        if (other.length == key->length && other.id_type == key->id_type && memcmp(other.digits, key->digits, key->length) == 0) {
            break;
        }
    }
    return row;
}

static void found_as_kept(const Key *key)
{
    uint32_t row = row_of(key);
    uint64_t wanted = key->length < 1 || key->length > OTAP_DIGITS ? OTAP_BAD_NUMBER : row < OTAP_LINE_ROWS ? 0x100 | (uint64_t)row << 16 : 0;
    same("a caller of a store with many lines", wanted, wanted, ask(key->id_type, key->digits, key->length));
}

/* Numbers of every length, on full lists and shorter ones: each line, without its last digit, with one more, and of the other IDtype. */
static void many_lines(void)
{
    unsigned vary;
    uint32_t row;
    same("start", 0, OTAP_OK, otap_start(store, sizeof store));
    for (vary = 0; vary < 23; vary++) {
        write_filling(&said, 0, vary);
        commit("many lines", said.bytes, said.length);
        for (row = 0; row < OTAP_LINE_ROWS - vary; row++) {
            Key key = key_of(store, row);
            same("each at its own row", row, row, otap_line_row(ask(key.id_type, key.digits, key.length)));
            found_as_kept(&key);
            key.id_type ^= 1;
            found_as_kept(&key);
            key.id_type ^= 1;
            key.length++;
            found_as_kept(&key);
            key.length -= 2;
            found_as_kept(&key);
        }
    }
}

int main(void)
{
    four_lines();
    shown();
    no_number();
    most_digits();
    after_changes();
    slots();
    false_orders();
    many_lines();
    printf("each caller is found at its own row, and a false order is no store\n");
    return 0;
}
