/*
 * The entry of a fuzzer over the desk emulator's C functions. An input is read as target.c reads it, so that its seeds serve: messages go to the area and to a
 * hand-held's store beside it, rows are asked of both, bytes of the area are changed, and it is filled, until a byte that the input says. Whatever is asked, the
 * hand-held says what must come of it; at the end rows of every table are compared, and the area is read from the first request on.
 */
#include "areas.h"
#include "built.h"

enum { MOST_RECORDS = 48, FILLER_BYTES = 8 + 4 + 63 * 49 };

static uint8_t area[OTAP_AREA_BYTES + 64], after[OTAP_AREA_BYTES + 64], store[OTAP_STORE_BYTES];

/* What the archive came to, since a fuzzer cannot see its branches: numbers by failed ID, the used bytes, and rows by table. */
#if defined(__clang__) && defined(__linux__)
__attribute__((section("__libfuzzer_extra_counters")))
#endif
static uint8_t reached[1024];

enum { USED = 640, ROWS = 800 };

int LLVMFuzzerTestOneInput(const uint8_t *data, size_t size);

/* An area of another size where the choice asks for a store of another. */
static size_t chosen_area(unsigned choice)
{
    size_t length = chosen_store(choice);
    return length == 0 ? 0 : OTAP_AREA_BYTES + length - OTAP_STORE_BYTES;
}

/* A key of the area with two numbers. */
static uint64_t area_key(unsigned of, uint64_t one, uint64_t two)
{
    return keyed_by(keyed_by(keyed(of, area, AREA_HEAD + area_used(area)), one), two);
}

/* A message that was checked before to this area: what the hand-held answers, and the area that comes of it, without a call of the desk's. */
static uint64_t take_again(const uint8_t *message, size_t length, size_t area_length, size_t reply_length)
{
    static uint8_t then[OTAP_STORE_BYTES], reply[OTAP_REPLY_BYTES + 64];
    uint64_t answer;
    memcpy(then, store, sizeof then);
    answer = otap_commit(message, length, then, area_length == OTAP_AREA_BYTES ? OTAP_STORE_BYTES : 0, reply, reply_length);
    if (otap_answer_number(answer) == OTAP_OK && is_request(message, length) && !with_record(area, message, length, after)) {
        return OTAP_AREA_FULL;
    }
    return answer;
}

static void send(const uint8_t *message, size_t length, unsigned choice)
{
    size_t area_length = chosen_area(choice), reply_length = chosen_size(choice, OTAP_REPLY_BYTES);
    int known = was_checked(keyed(area_key(OF_COMMIT, choice, 0), message, length));
    uint64_t answer = known ? take_again(message, length, area_length, reply_length) : take_beside(message, length, area, area_length, reply_length, store, after);
    unsigned failed = otap_answer_failed(answer);
    must(area_length != OTAP_AREA_BYTES || otap_answer_number(answer) != OTAP_NO_STORE, "an area is known as one");
    reached[otap_answer_number(answer) * 32 + (failed < 31 ? failed : 31)] = 1;
    if (otap_answer_number(answer) == OTAP_OK && is_request(message, length)) {
        must(otap_answer_number(send_to(store, message, length)) == OTAP_OK, "the hand-held takes what the desk takes");
        memcpy(area, after, OTAP_AREA_BYTES);
        reached[USED + area_used(area) / 256] = 1;
    }
}

static void send_raw(Input *input, unsigned choice)
{
    static uint8_t message[OTAP_MESSAGE_BYTES + 64];
    size_t length = raw_message(input, message);
    send(message, length, choice);
}

static void send_built(Input *input, unsigned choice)
{
    static uint8_t message[OTAP_MESSAGE_BYTES + 64];
    size_t length = built_message(input, message);
    send(message, length, choice);
}

static void ask(uint32_t table, uint32_t row, unsigned choice)
{
    size_t area_length = chosen_area(choice);
    uint32_t number;
    if (was_checked(area_key(OF_ROW, choice, (uint64_t)table << 32 | row))) {
        return;
    }
    number = row_beside(table, row, area, area_length, chosen_size(choice, OTAP_PLAIN_SCRATCH_BYTES), store, area_length == OTAP_AREA_BYTES);
    reached[ROWS + (table <= OTAP_TABLES ? table : 0) * 4 + number % 4] = 1;
}

static void ask_row(Input *input, unsigned choice)
{
    unsigned table = next_byte(input), row = next_byte(input);
    ask(table < 250 ? table % (OTAP_TABLES + 2) : 0xFFFFFFFFu - table, row < 250 ? row : row * 0x01010101u, choice);
}

/* A request of so many bytes, 15 to FILLER_BYTES, that deletes quick texts: each entry has up to 23 units, so that few fill it. */
static void write_filler(uint8_t *message, size_t length)
{
    static const uint8_t head[] = {2, 2, 0, 0, 8, 7, 8, 1, 0xCC};
    size_t fields = length - 12, entries = (fields + 48) / 49, units, each, at = 12;
    entries += (entries + fields) % 2;
    units = (fields - 3 * entries) / 2;
    memset(message, 0, length);
    memcpy(message, head, sizeof head);
    message[9] = (uint8_t)((length - 9) >> 8);
    message[10] = (uint8_t)(length - 9);
    message[11] = (uint8_t)(2 * 64 + entries);
    for (each = 0; each < entries; each++) {
        size_t own = units < 23 ? units : 23;
        message[at] = (uint8_t)each;
        memset(message + at + 1, 0x4E, 2 * own);
        units -= own;
        at += 3 + 2 * own;
    }
}

/* Requests until so many bytes are left, or a few more. */
static void fill(size_t left)
{
    static uint8_t message[FILLER_BYTES];
    size_t room = OTAP_AREA_BYTES - AREA_HEAD - area_used(area);
    while (room >= left + 40) {
        size_t length = room - left - AREA_LENGTH;
        length = length > FILLER_BYTES ? (length < FILLER_BYTES + 40 ? FILLER_BYTES - 40 : FILLER_BYTES) : length;
        write_filler(message, length);
        send(message, length, 0);
        room = OTAP_AREA_BYTES - AREA_HEAD - area_used(area);
    }
}

/* Bytes of the area changed, mostly of what is used: each call knows an area exactly where a hand-held takes what it keeps. It goes on from there if so. */
static void poke(Input *input, int anywhere)
{
    static const uint8_t query[] = {2, 2, 0, 0, 8, 0, 0x0D, 0};
    static uint8_t changed[OTAP_AREA_BYTES], then[OTAP_STORE_BYTES];
    unsigned changes = 1 + next_byte(input) % 3, each, table, row;
    uint8_t said[OTAP_REPLY_BYTES];
    uint64_t answer;
    int known;
    memcpy(changed, area, sizeof changed);
    for (each = 0; each < changes; each++) {
        size_t at = next_byte(input);
        at = (at + 256 * next_byte(input)) % (anywhere ? OTAP_AREA_BYTES : AREA_HEAD + area_used(area) + 4 < OTAP_AREA_BYTES ? AREA_HEAD + area_used(area) + 4 : OTAP_AREA_BYTES);
        changed[at] = (uint8_t)(next_byte(input) < 128 ? changed[at] ^ (1u << next_byte(input) % 8) : next_byte(input));
    }
    known = replayed(changed, then);
    table = 1 + next_byte(input) % OTAP_TABLES;
    row = next_byte(input);
    if (!was_checked(keyed_by(keyed(OF_POKE, changed, sizeof changed), table << 8 | row))) {
        answer = take_once(query, sizeof query, changed, sizeof changed, OTAP_REPLY_BYTES, 0, after, said);
        must((answer == OTAP_NO_STORE) == !known, "taking knows an area");
        must(same_bytes(after, changed, sizeof changed), "a query leaves the area");
        row_beside(table, row, changed, sizeof changed, OTAP_PLAIN_SCRATCH_BYTES, known ? then : store, known);
        row_beside(9, 0, changed, sizeof changed, OTAP_PLAIN_SCRATCH_BYTES, known ? then : store, known);
    }
    reached[ROWS + 100 + known] = 1;
    if (known) {
        memcpy(area, changed, sizeof changed);
        memcpy(store, then, sizeof store);
    }
}

static void start_again(Input *input)
{
    static const size_t sizes[] = {0, 1, OTAP_AREA_BYTES - 1, OTAP_AREA_BYTES, OTAP_AREA_BYTES + 1};
    static const uint8_t zeros[OTAP_AREA_BYTES];
    size_t length = sizes[next_byte(input) % 5];
    Lent lent = lend(area, length, 1);
    uint32_t number = otap_plain_start(lent.bytes, length);
    must(number == (length == OTAP_AREA_BYTES ? OTAP_OK : OTAP_NO_STORE), "a number of start");
    must(same_bytes(lent.bytes, number == OTAP_OK ? zeros : area, length), "a started area is all 0, and a refused start touches nothing");
    if (number == OTAP_OK) {
        memcpy(area, lent.bytes, OTAP_AREA_BYTES);
        must(otap_start(store, sizeof store) == OTAP_OK, "any bytes can be started");
    }
    give_back(&lent);
}

/* As target.c has it, with the area for the store. */
static void one_record(Input *input)
{
    unsigned choice = next_byte(input);
    switch (choice & 7) {
    case 0: case 1: send_raw(input, choice); break;
    case 2: case 3: send_built(input, choice); break;
    case 4: ask_row(input, choice); break;
    case 5: (choice & 8 ? fill(next_byte(input)) : ask_row(input, choice)); break;
    case 6: poke(input, (choice & 8) != 0); break;
    default: (choice & 0x18 ? ask_row(input, 0) : start_again(input)); break;
    }
}

/* What holds of every area, at the end of an input: the store beside it is what its requests come to, and rows of each table are the same. */
static void check_whole(void)
{
    static const uint32_t first[OTAP_TABLES + 1] = {0, 0, 0, OTAP_STATUS_FIRST, 0, 0, 0, 0, 0};
    static uint8_t then[OTAP_STORE_BYTES];
    uint32_t table, row;
    must(replayed(area, then) && same_bytes(then, store, sizeof store), "the area keeps what the hand-held was sent");
    for (table = 1; table <= OTAP_TABLES; table++) {
        for (row = 0; row < 2; row++) {
            ask(table, first[table] + row, 0);
        }
    }
}

int LLVMFuzzerTestOneInput(const uint8_t *data, size_t size)
{
    Input input;
    unsigned records;
    input.bytes = data;
    input.left = size;
    memset(area, 0xEE, sizeof area);
    must(otap_plain_start(area, OTAP_AREA_BYTES) == OTAP_OK && otap_start(store, sizeof store) == OTAP_OK, "any bytes can be started");
    for (records = 0; records < MOST_RECORDS && input.left > 0; records++) {
        one_record(&input);
    }
    if (!was_checked(area_key(OF_STORE, 0, 0))) {
        check_whole();
    }
    inputs_before++;
    return 0;
}
