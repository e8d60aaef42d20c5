/*
 * The entry of a fuzzer over the C functions. An input is records, each a byte that chooses the call and the sizes, then what the call needs; one store
 * goes from record to record. Each message is judged and then committed, and the one before it once more after it; the two are joined too, and it is checked
 * whether it is an update between the stores around it. After each the store is still a store, and a hand-held lacked room only where its texts and entries do
 * not fit. At the end it is written out into a fresh one that becomes the same, into one that was used, and to the other set as far as it fits there.
 */
#include "asking.h"
#include "built.h"
#include "callers.h"
#include "conversions.h"
#include "editing.h"
#include "memo.h"
#include "updating.h"

enum { MOST_RECORDS = 64 };

static uint8_t store[OTAP_STORE_BYTES + 64], after[OTAP_STORE_BYTES + 64], other[OTAP_STORE_BYTES + 64];

/* The store before the last message that was taken: a used set. */
static uint8_t earlier[OTAP_STORE_BYTES];

/* The message before, which is judged once more and waits while the next is committed; none at the start of an input. */
static uint8_t waiting[OTAP_MESSAGE_BYTES + 64];
static size_t waiting_length;

/* What the archive came to, since a fuzzer cannot see its branches: numbers by failed ID, how many slots of each table are in use, and the bytes of texts. */
#if defined(__clang__) && defined(__linux__)
__attribute__((section("__libfuzzer_extra_counters")))
#endif
static uint8_t reached[2560];

/* Where in it the slots of the tables are, the channels first, and then what else records come to. */
enum { SLOTS = 1024, EACH_TABLE = 144, OTHERS = SLOTS + EACH_TABLE * (OTAP_TABLES + 1), TEXTS = OTHERS + 64, EACH_TEXTS = 64 };

int LLVMFuzzerTestOneInput(const uint8_t *data, size_t size);

/* A key of the store with some numbers. */
static uint64_t store_key(unsigned of, uint64_t one, uint64_t two, uint64_t three)
{
    return keyed_by(keyed_by(keyed_by(keyed(of, store, OTAP_STORE_BYTES), one), two), three);
}

static void note_answer(uint64_t answer)
{
    unsigned failed = otap_answer_failed(answer);
    reached[otap_answer_number(answer) * 32 + (failed < 31 ? failed : 31)] = 1;
}

/* The tables, where a message has changed them. */
static void note_tables(void)
{
    unsigned table;
    size_t texts = text_sum(layout, store) / EACH_TEXTS;
    reached[TEXTS + (texts < sizeof reached - TEXTS ? texts : sizeof reached - TEXTS - 1)] = 1;
    reached[SLOTS + (store[CHANNEL_COUNT_AT] * 256 + store[CHANNEL_COUNT_AT + 1]) / 2] = 1; /* channels, which have no row */
    for (table = 1; table <= OTAP_TABLES; table++) {
        uint32_t row, used = 0;
        for (row = 0; row < layout[table].rows; row++) {
            used += (unsigned)held(store, table, layout[table].from + row);
        }
        reached[SLOTS + EACH_TABLE * table + used] = 1;
    }
}

/* The message before and this one, joined: which numbers it came to, of the first or of the second. */
static void join_message(const uint8_t *message, size_t length, unsigned choice)
{
    Request first = {waiting, waiting_length}, second = {message, length};
    uint64_t answer = check_joined(&first, &second, chosen_size(choice, OTAP_JOIN_BYTES), store);
    reached[OTHERS + 16 + otap_answer_number(answer) + 16 * otap_join_second_at_fault(answer)] = 1;
}

/* This message as an update, where the store becomes `then`: whether one was proposed for that. */
static void update_message(const uint8_t *message, size_t length, unsigned choice, const uint8_t *then)
{
    Request request = {message, length};
    uint64_t answer = update_around(&request, choice, earlier, store, then);
    reached[OTHERS + 48 + (otap_answer_number(answer) == OTAP_OK)] = 1;
}

/* A message with all that has to hold of it; what the store is then is left in `after`. */
static uint64_t commit_checked(const uint8_t *message, size_t length, unsigned choice)
{
    size_t store_length = chosen_store(choice);
    uint64_t answer = commit_twice(message, length, store, store_length, chosen_size(choice, OTAP_REPLY_BYTES), after);
    if (waiting_length > 0) {
        commit_late(waiting, waiting_length, message, length, store);
        join_message(message, length, choice);
    }
    update_message(message, length, choice, otap_answer_number(answer) == OTAP_OK ? after : store);
    must(store_length != OTAP_STORE_BYTES || otap_answer_number(answer) != OTAP_NO_STORE, "a store is known as one");
    if (otap_answer_number(answer) <= OTAP_BAD_FIELD && (message[6] & 7) == 0) {
        check_room(store, message, answer);
    }
    if (otap_answer_number(answer) == OTAP_OK) {
        must(is_store(after, OTAP_STORE_BYTES), "a store stays a store");
        check_order(after);
        check_counts(after);
    }
    return answer;
}

/* The same where all that was checked before: it is only committed. */
static uint64_t commit_again(const uint8_t *message, size_t length, unsigned choice)
{
    static uint8_t reply[OTAP_REPLY_BYTES + 64];
    memcpy(after, store, sizeof after);
    return otap_commit(message, length, after, chosen_store(choice), reply, chosen_size(choice, OTAP_REPLY_BYTES));
}

static void commit_message(const uint8_t *message, size_t length, unsigned choice)
{
    uint64_t key = keyed(store_key(OF_COMMIT, choice, 0, 0), message, length), answer;
    key = keyed(keyed(key, waiting, waiting_length), earlier, sizeof earlier);
    answer = (was_checked(key) ? commit_again : commit_checked)(message, length, choice);
    memcpy(waiting, message, length);
    waiting_length = length;
    note_answer(answer);
    if (otap_answer_number(answer) == OTAP_OK) {
        memcpy(earlier, store, OTAP_STORE_BYTES);
        memcpy(store, after, OTAP_STORE_BYTES);
        note_tables();
    }
}

static void commit_raw(Input *input, unsigned choice)
{
    static uint8_t message[OTAP_MESSAGE_BYTES + 64];
    size_t length = raw_message(input, message);
    commit_message(message, length, choice);
}

static void commit_built(Input *input, unsigned choice)
{
    static uint8_t message[OTAP_MESSAGE_BYTES + 64];
    size_t length = built_message(input, message);
    commit_message(message, length, choice);
}

static void ask_row(Input *input, unsigned choice)
{
    unsigned table = next_byte(input), row = next_byte(input);
    size_t store_length = chosen_store(choice);
    uint32_t number;
    if (was_checked(store_key(OF_ROW, choice, table, row))) {
        return;
    }
    number = row_twice(table < 250 ? table % (OTAP_TABLES + 2) : 0xFFFFFFFFu - table, row < 250 ? row : row * 0x01010101u, store, store_length,
                       chosen_size(choice, OTAP_SCRATCH_BYTES));
    must(store_length != OTAP_STORE_BYTES || number != OTAP_NO_STORE, "a store is known as one");
}

static void ask_export(Input *input, unsigned choice)
{
    static uint8_t request[OTAP_EXPORT_BYTES];
    unsigned part = next_byte(input);
    size_t store_length = chosen_store(choice);
    uint64_t answer;
    if (was_checked(store_key(OF_EXPORT, choice, part, 0))) {
        return;
    }
    answer = export_twice(part < 250 ? part % (OTAP_EXPORT_PARTS + 2) : part * 0x01010101u, store, store_length, chosen_size(choice, OTAP_EXPORT_BYTES), request);
    must(store_length != OTAP_STORE_BYTES || otap_answer_number(answer) != OTAP_NO_STORE, "a store is known as one");
}

/* What holds of every store. */
static void check_store(void)
{
    check_texts(store);
    restore_fresh(store);
    check_lists(store, check_counts(store));
    check_callers(store);
    check_entries(store);
    check_reports(store);
    join_exports(store);
    hand_on(store);
}

/* At the end of an input: that, and beside the store before it and the last message. */
static void check_whole(void)
{
    Request last = {waiting, waiting_length};
    uint64_t key = store_key(OF_STORE, 0, 0, 0);
    if (!was_checked(keyed(keyed_by(key, OF_USED), earlier, sizeof earlier))) {
        restore_used(store, earlier);
    }
    if (!was_checked(key)) {
        check_store();
    }
    if (!was_checked(keyed(keyed_by(key, OF_FRESH), waiting, waiting_length))) {
        update_fresh(&last, store);
    }
}

/* Whether the store is one, on which every call agrees. */
static int known_by_all(void)
{
    static const uint8_t query[] = {2, 2, 0, 0, 8, 0, 0x0D, 0};
    static uint8_t request[OTAP_EXPORT_BYTES];
    int known;
    if (was_checked(keyed(store_key(OF_POKE, 0, 0, 0), other, OTAP_STORE_BYTES))) {
        return is_store(store, OTAP_STORE_BYTES);
    }
    known = row_twice(OTAP_GROUPS, 0, store, OTAP_STORE_BYTES, OTAP_SCRATCH_BYTES) != OTAP_NO_STORE;
    must(known == (otap_answer_number(export_twice(2, store, OTAP_STORE_BYTES, OTAP_EXPORT_BYTES, request)) == OTAP_OK), "export knows a store");
    must(known == (commit_twice(query, sizeof query, store, OTAP_STORE_BYTES, OTAP_REPLY_BYTES, after) != OTAP_NO_STORE), "judging and committing know a store");
    must(known == (counts_twice(store, OTAP_STORE_BYTES) != OTAP_NO_STORE), "counts know a store");
    must(known == (line_of_twice(OTAP_PABX, query, 2, store, OTAP_STORE_BYTES) != OTAP_NO_STORE), "looking up knows a store");
    must(known_behind(store, known), "each call for a value knows a store");
    must(known == (ask_channels(store) != OTAP_NO_STORE), "a report knows a store");
    update_changed(other, store);
    return known;
}

/* Some bytes of the store changed: it goes on from there if it is still one. */
static void poke(Input *input)
{
    unsigned changes = 1 + next_byte(input) % 4, each, at;
    int known;
    memcpy(other, store, OTAP_STORE_BYTES);
    for (each = 0; each < changes; each++) {
        at = next_byte(input);
        at = (at + 256 * next_byte(input)) % OTAP_STORE_BYTES;
        store[at] = (uint8_t)next_byte(input);
    }
    known = known_by_all();
    reached[OTHERS + known] = 1;
    if (!known) {
        memcpy(store, other, OTAP_STORE_BYTES);
    } else if (!was_checked(store_key(OF_LISTS, 0, 0, 0))) {
        check_texts(store);
        check_counts(store);
    }
}

/* A count of the store with any value: it is a store only with its own. */
static void poke_count(Input *input)
{
    static const uint32_t tables[] = {0, OTAP_LINES, OTAP_GROUP_CONTACTS, OTAP_INDIVIDUAL_CONTACTS}; /* channels have no rows */
    uint32_t table = tables[next_byte(input) % 4];
    size_t at = table == 0 ? CHANNEL_COUNT_AT : held_at(table) - 1;
    int own;
    memcpy(other, store, OTAP_STORE_BYTES);
    store[at] = (uint8_t)next_byte(input);
    store[at + 1] = (uint8_t)next_byte(input);
    own = same_bytes(other, store, OTAP_STORE_BYTES);
    must(known_by_all() == own, "a false count is no store");
    reached[OTHERS + 2 + own] = 1;
    memcpy(store, other, OTAP_STORE_BYTES);
}

/* The order of the lines with two of its bytes exchanged, or with any value in one of them or in the first spare byte: it is a store only with its own. */
static void poke_order(Input *input)
{
    unsigned at = next_byte(input), value = next_byte(input);
    uint8_t *order = store + ORDER_AT;
    int own;
    memcpy(other, store, OTAP_STORE_BYTES);
    if (at < 128) {
        at %= OTAP_LINE_ROWS + 1;
        store[at < OTAP_LINE_ROWS ? ORDER_AT + at : SPARE_AT] = (uint8_t)value;
    } else {
        order[at % OTAP_LINE_ROWS] = other[ORDER_AT + value % OTAP_LINE_ROWS];
        order[value % OTAP_LINE_ROWS] = other[ORDER_AT + at % OTAP_LINE_ROWS];
    }
    own = same_bytes(other, store, OTAP_STORE_BYTES);
    must(known_by_all() == own, "a false order is no store");
    reached[OTHERS + 6 + own] = 1;
    memcpy(store, other, OTAP_STORE_BYTES);
}

/* A unit of the area, or a text's number of units, with any value: whether it is a store. It is with a unit that is 0 exactly behind the last text. */
static int poke_area(const uint8_t *said)
{
    unsigned table = 1 + said[1] % OTAP_TABLES;
    size_t at = 2 * (said[0] + 256u * said[1]) % SHARED_BYTES, sum = text_sum(layout, store);
    if (said[1] >= 128) {
        store[slot_at(table, said[0] % layout[table].rows) + layout[table].before] = said[2];
        return same_bytes(other, store, OTAP_STORE_BYTES);
    }
    memcpy(store + SHARED_AT + at, said + 3, 2);
    return (said[3] != 0 || said[4] != 0) == (at < sum);
}

/* A unit of a text's place with any value: whether it is a store. It is with no unit but 0 behind an end, and with a text only where something stands. */
static int poke_place(const uint8_t *said)
{
    unsigned table = 1 + said[1] % OTAP_TABLES, place = said[0] % layout[table].rows;
    size_t length = text_length(layout, store, table, place), at = 2 * said[2] % layout[table].most;
    memcpy(store + slot_at(table, place) + layout[table].before + at, said + 3, 2);
    return said[3] == 0 && said[4] == 0 ? at + 2 >= length : at <= length && held(store, table, layout[table].from + place);
}

/* The texts with a change: it goes on from there if it is still a store. */
static void poke_texts(Input *input)
{
    uint8_t said[5] = {0};
    int good;
    next_bytes(input, sizeof said, said);
    memcpy(other, store, OTAP_STORE_BYTES);
    good = (shares(layout) ? poke_area : poke_place)(said);
    must(known_by_all() == good, "texts stand where their slots say, and nothing else does");
    reached[OTHERS + 10 + good] = 1;
    if (!good) {
        memcpy(store, other, OTAP_STORE_BYTES);
    }
}

/* Another key of a slot: a line's other IDtype, or an address that differs in its last bit. Whether it is one. */
static int other_key(const List *list, uint8_t *slot)
{
    if (list->table == OTAP_LINES) {
        slot[1] ^= 1;
        return 1;
    }
    slot[3] ^= 1;
    return (slot[2] & 0x7F) != 0 || slot[3] != 0;
}

/* One entry more, like another but for its key, in the order if it is a line: a store exactly if none has that key yet. It goes on from there if so. */
static void poke_entry(Input *input)
{
    unsigned like = next_byte(input);
    const List *list = &lists[(like >= 96) + (like >= 176)];
    uint32_t count = count_of(store, list);
    uint8_t *slot;
    int good;
    memcpy(other, store, OTAP_STORE_BYTES);
    if (count == 0 || !repeat_entry(store, list->table, like % count)) {
        return;
    }
    slot = store + slot_of(list->table, count);
    good = other_key(list, slot) && !has_key(store, list, count, slot);
    if (list->table == OTAP_LINES) {
        order_lines(store);
    }
    must(known_by_all() == good, "an entry's key is its own: IDtype and number, or the address");
    reached[OTHERS + 4 + good] = 1;
    if (!good) {
        memcpy(store, other, OTAP_STORE_BYTES);
    } else if (!was_checked(store_key(OF_LISTS, 1, 0, 0))) {
        check_lists(store, check_counts(store));
    }
}

static void ask_counts(unsigned choice)
{
    size_t store_length = chosen_store(choice);
    uint64_t answer;
    if (was_checked(store_key(OF_COUNTS, choice, 0, 0))) {
        return;
    }
    answer = counts_twice(store, store_length);
    must((store_length == OTAP_STORE_BYTES) == (answer != OTAP_NO_STORE), "a store is known as one, and of another size none is");
}

/* Who is calling: like one of the lines, or any digits and now and then others. */
static void ask_caller(Input *input, unsigned choice)
{
    uint8_t digits[OTAP_DIGITS + 6];
    unsigned like = next_byte(input);
    uint32_t id_type = like % 4;
    size_t length, at, store_length = chosen_store(choice);
    uint64_t answer;
    if (like < 192 && store[LINES_HELD_AT] > 0) {
        length = near_line(input, store, like % store[LINES_HELD_AT], &id_type, digits);
    } else {
        length = next_bytes(input, next_byte(input) % (sizeof digits + 1), digits);
        for (at = 0; at < length; at++) {
            digits[at] = (uint8_t)(digits[at] < 240 ? digits[at] % 10 : digits[at]);
        }
    }
    if (was_checked(keyed(store_key(OF_CALLER, choice, id_type, 0), digits, length))) {
        return;
    }
    answer = line_of_twice(id_type, digits, length, store, store_length);
    if (store_length == OTAP_STORE_BYTES) {
        check_caller(store, id_type, digits, length, answer);
        reached[OTHERS + 8 + otap_line_found(answer)] = 1;
    }
}

static void start_again(Input *input)
{
    static const size_t sizes[] = {0, 1, OTAP_STORE_BYTES - 1, OTAP_STORE_BYTES, OTAP_STORE_BYTES + 1};
    size_t length = sizes[next_byte(input) % 5];
    Lent lent = lend(store, length, 1);
    uint32_t number = otap_start(lent.bytes, length);
    must(number == (length == OTAP_STORE_BYTES ? OTAP_OK : OTAP_NO_STORE), "a number of start");
    must(number == OTAP_OK || same_bytes(lent.bytes, store, length), "a refused start touches nothing");
    must(number != OTAP_OK || is_store(lent.bytes, length), "a started store is one");
    must(number != OTAP_OK || otap_counts(lent.bytes, length) == OTAP_OK, "a started store holds nothing");
    memcpy(store, lent.bytes, number == OTAP_OK ? length : 0);
    give_back(&lent);
}

static void one_record(Input *input)
{
    unsigned choice = next_byte(input);
    switch (choice & 7) {
    case 0: case 1: commit_raw(input, choice); break;
    case 2: case 3: commit_built(input, choice); break;
    case 4: ask_row(input, choice); ask_counts(choice); break;
    case 5: ask_export(input, choice); ask_counts(choice); break;
    case 6: (choice & 8 ? poke_count : choice & 16 ? poke_entry : choice & 32 ? poke_order : choice & 64 ? poke_texts : poke)(input); break;
    default:
        if (choice & 8) {
            convert(input);
        } else if (choice & 16) {
            ask_caller(input, choice);
        } else if (choice & 32) {
            ask_value(input, store);
        } else if (choice & 64) {
            (choice & 128 ? read_message : ask_report)(input, store);
        } else {
            start_again(input);
        }
        break;
    }
}

int LLVMFuzzerTestOneInput(const uint8_t *data, size_t size)
{
    Input input;
    unsigned records;
    input.bytes = data;
    input.left = size;
    waiting_length = 0;
    memset(store, 0xEE, sizeof store);
    must(otap_start(store, OTAP_STORE_BYTES) == OTAP_OK, "any bytes can be started");
    memcpy(earlier, store, OTAP_STORE_BYTES);
    for (records = 0; records < MOST_RECORDS && input.left > 0; records++) {
        one_record(&input);
    }
    check_whole();
    inputs_before++;
    return 0;
}
