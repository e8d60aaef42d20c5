/*
 * What a set reports and the office reads back is what the set's other calls say of its store: every entry of full stores and of others, its flags, its
 * address or number, and its text, in one message or in many.
 */
#include "answers.h"

static uint8_t store[OTAP_STORE_BYTES];
static const uint8_t types[] = {OTAP_ASK_GROUP_CONTACTS, OTAP_ASK_INDIVIDUAL_CONTACTS, OTAP_ASK_LINES, OTAP_ASK_EMERGENCY_KEY, OTAP_ASK_QUICK_TEXTS,
                                OTAP_ASK_HOME_NUMBERS, OTAP_ASK_CHANNELS, OTAP_ASK_SYSTEM_CODE, OTAP_ASK_STATUS_TEXTS, OTAP_ASK_HASH};

/* How many entries of each type the store holds. */
static uint32_t held[sizeof types];

/* A parameter of the message in the buffer, and the position of its entry among those of its type. */
typedef struct {
    uint64_t entry, places;
    uint32_t position;
} At;

/* The text is the one that the screen shows, unless that is a number. */
static void text_is(const At *at, uint32_t table, uint32_t row)
{
    uint64_t part = otap_row_part(table, row, store, sizeof store, scratch, sizeof scratch);
    size_t length = otap_part_in_scratch(part) ? 0 : otap_part_length(part);
    if (part != 0) {
        same("a text's length", length, otap_places_text_length(at->places), length);
        same("a text", 0, 0, (uint64_t)(memcmp(buffer + otap_places_text(at->places), store + otap_part_offset(part), length) != 0));
    }
}

/* A contact or a line is what stands behind its row, flag by flag. */
static void behind_is(const At *at, uint32_t table)
{
    uint64_t behind = otap_entry(table, at->position, store, sizeof store), entry = at->entry;
    same("what is reported is there", 0, OTAP_OK, otap_answer_number(behind));
    same("its index", at->position % 16, otap_reported_index(entry), at->position % 16);
    same("its address", otap_entry_address(behind), otap_reported_address(entry), otap_entry_address(behind));
    same("its IDtype", otap_entry_id_type(behind), otap_reported_id_type(entry), otap_entry_id_type(behind));
    same("encryption", (uint64_t)otap_entry_encryption(behind), (uint64_t)otap_reported_encryption(entry), (uint64_t)otap_entry_encryption(behind));
    same("emergency", (uint64_t)otap_entry_emergency(behind), (uint64_t)otap_reported_emergency(entry), (uint64_t)otap_entry_emergency(behind));
    same("priority", otap_entry_priority(behind), otap_reported_priority(entry), otap_entry_priority(behind));
    same("attribute", otap_entry_attribute(behind), otap_reported_attribute(entry), otap_entry_attribute(behind));
    same("broadcast", (uint64_t)otap_entry_broadcast(behind), (uint64_t)otap_reported_broadcast(entry), (uint64_t)otap_entry_broadcast(behind));
    same("OVCM", (uint64_t)otap_entry_ovcm(behind), (uint64_t)otap_reported_ovcm(entry), (uint64_t)otap_entry_ovcm(behind));
    text_is(at, table, at->position);
}

static void digits_are(const At *at)
{
    uint8_t digits[OTAP_DIGITS];
    size_t each, count = otap_digits_count(otap_entry_digits(OTAP_LINES, at->position, store, sizeof store, digits, sizeof digits));
    same("how many digits", count, otap_places_digits(at->places), count);
    for (each = 0; each < count; each++) {
        same("a digit", digits[each], otap_places_digit(at->places, buffer, each), digits[each]);
    }
}

static void key_is(uint64_t entry)
{
    uint64_t key = otap_emergency_key(store, sizeof store);
    uint64_t flags = (uint64_t)otap_key_current(key) << 4 | (uint64_t)otap_key_group(key) << 3 | (uint64_t)otap_key_voice(key) << 2
                   | (uint64_t)otap_key_status(key) << 1 | (uint64_t)otap_key_siren(key);
    same("the key's flags", flags, otap_reported_flags(entry, OTAP_ASK_EMERGENCY_KEY), flags);
    same("the key's address", otap_key_address(key), otap_reported_address(entry), otap_key_address(key));
}

/* What is always there, and the channels. */
static void value_is(const At *at)
{
    uint64_t home = otap_home_numbers(store, sizeof store), code = otap_system_code(store, sizeof store), entry = at->entry;
    switch (otap_reported_type(entry)) {
    case OTAP_ASK_EMERGENCY_KEY: key_is(entry); break;
    case OTAP_ASK_HOME_NUMBERS:
        same("NZI", otap_home_nzi(home), otap_reported_nzi(entry), otap_home_nzi(home));
        same("NP", otap_home_np(home), otap_reported_np(entry), otap_home_np(home));
        break;
    case OTAP_ASK_SYSTEM_CODE:
        same("LAI", otap_system_lai(code), otap_reported_lai(entry), otap_system_lai(code));
        same("LA", otap_system_la(code), otap_reported_la(entry), otap_system_la(code));
        same("roaming", otap_system_roaming(code), otap_reported_roaming(entry), otap_system_roaming(code));
        same("PAR", (uint64_t)otap_system_par(code), (uint64_t)otap_reported_par(entry), (uint64_t)otap_system_par(code));
        break;
    case OTAP_ASK_CHANNELS:
        same("a channel's index", at->position, otap_reported_index(entry), at->position);
        same("a channel", otap_channel(at->position, store, sizeof store), (uint64_t)otap_reported_channel(entry) << 8,
             otap_channel(at->position, store, sizeof store));
        break;
    default: /* the hash, at the store's start */
        same("HashCode", store[0], otap_places_hash_code(at->places), store[0]);
        same("a hash", 0, 0, (uint64_t)(memcmp(buffer + otap_places_hash(at->places), store + 1, otap_places_hash_length(at->places)) != 0));
        break;
    }
}

/* The next row of texts from this one on that is shown; 128 if none is. */
static uint32_t next_text(uint32_t table, uint32_t row)
{
    while (row < 128 && otap_row_number(table, row, store, sizeof store, scratch, sizeof scratch) != OTAP_OK) {
        row++;
    }
    return row;
}

/* Checks the entry; `row` is the text before it, and becomes its own. */
static void entry_is(const At *at, uint32_t *row)
{
    switch (otap_reported_type(at->entry)) {
    case OTAP_ASK_GROUP_CONTACTS: behind_is(at, OTAP_GROUP_CONTACTS); break;
    case OTAP_ASK_INDIVIDUAL_CONTACTS: behind_is(at, OTAP_INDIVIDUAL_CONTACTS); break;
    case OTAP_ASK_LINES: behind_is(at, OTAP_LINES); digits_are(at); break;
    case OTAP_ASK_QUICK_TEXTS:
        *row = next_text(OTAP_QUICK_TEXTS, at->position == 0 ? 0 : *row + 1);
        same("quick texts by index", *row, otap_reported_index(at->entry), *row);
        text_is(at, OTAP_QUICK_TEXTS, *row);
        break;
    case OTAP_ASK_STATUS_TEXTS:
        *row = next_text(OTAP_STATUS_TEXTS, at->position == 0 ? 0 : *row + 1);
        same("status texts by code", *row, otap_reported_code(at->entry), *row);
        text_is(at, OTAP_STATUS_TEXTS, *row);
        break;
    default: value_is(at); break;
    }
}

static uint32_t count_held(uint32_t type)
{
    uint32_t count = 0, row;
    uint32_t table = type == OTAP_ASK_GROUP_CONTACTS ? OTAP_GROUP_CONTACTS : type == OTAP_ASK_INDIVIDUAL_CONTACTS ? OTAP_INDIVIDUAL_CONTACTS : OTAP_LINES;
    switch (type) {
    case OTAP_ASK_CHANNELS: return otap_counts_channels(otap_counts(store, sizeof store));
    case OTAP_ASK_QUICK_TEXTS: case OTAP_ASK_STATUS_TEXTS:
        table = type == OTAP_ASK_QUICK_TEXTS ? OTAP_QUICK_TEXTS : OTAP_STATUS_TEXTS;
        for (row = next_text(table, 0); row < 128; row = next_text(table, row + 1)) {
            count++;
        }
        return count;
    case OTAP_ASK_GROUP_CONTACTS: case OTAP_ASK_INDIVIDUAL_CONTACTS: case OTAP_ASK_LINES:
        while (otap_answer_number(otap_entry(table, count, store, sizeof store)) == OTAP_OK) {
            count++;
        }
        return count;
    default: return 1;
    }
}

/* The message of this index, read: each entry in turn, of the types in turn. Positions and types go on from message to message. */
static uint32_t read_message(uint32_t index, size_t asked, size_t *type, uint32_t *row, At *at)
{
    uint64_t answer = otap_report(said.bytes, said.length, index, store, sizeof store, buffer, sizeof buffer);
    uint64_t read = otap_read_report(buffer, otap_report_length(answer));
    uint32_t left;
    size_t from = OTAP_REPORT_FIRST;
    same("a report", 0, OTAP_OK, otap_answer_number(answer));
    same("what is read of its head", otap_report_total(answer) << 8 | index << 16, read & 0xFFFFFFu, otap_report_total(answer) << 8 | index << 16);
    for (left = otap_read_parameters(read); left > 0; left--) {
        while (*type < asked && at->position == held[*type % sizeof types]) {
            (*type)++;
            at->position = 0;
        }
        at->entry = otap_report_entry(buffer, otap_report_length(answer), (uint32_t)from);
        at->places = otap_report_places(buffer, otap_report_length(answer), (uint32_t)from);
        same("the types in the order asked", types[*type % sizeof types], otap_reported_type(at->entry), types[*type % sizeof types]);
        entry_is(at, row);
        at->position++;
        from = otap_places_next(at->places);
    }
    same("its end", otap_report_length(answer), from, otap_report_length(answer));
    return otap_report_total(answer);
}

/* All types asked for as many times over: the whole report; how many messages it has. */
static uint32_t read_back(size_t times)
{
    At at = {0, 0, 0};
    uint32_t index = 0, total, row = 0;
    size_t each, type = 0, asked = times * sizeof types;
    for (each = 0; each < sizeof types; each++) {
        held[each] = count_held(types[each]);
    }
    write_asking_all(&said, asked, 0);
    do {
        total = read_message(++index, asked, &type, &row, &at);
    } while (index < total);
    same("all that was asked for", asked - 1, type, asked - 1);
    same("and all of the last", 1, at.position, held[sizeof types - 1]);
    return total;
}

int main(void)
{
    unsigned vary, each;
    uint32_t messages = 0;
    same("start", 0, OTAP_OK, otap_start(store, sizeof store));
    same("a fresh store", 1, read_back(1), 1);
    for (vary = 0; vary < 23; vary++) {
        for (each = 0; each < FILLING_MESSAGES; each++) {
            if (vary == 0 || each != vary % FILLING_MESSAGES) {
                write_filling(&said, each, vary);
                same("taken", 0, OTAP_OK, otap_answer_number(judge_and_commit(said.bytes, said.length, store, sizeof store, reply, sizeof reply)));
            }
        }
        messages += read_back(1) + (vary % 8 == 0 ? read_back(25) : 0);
    }
    same("reports of several messages", 1, messages > 100, 1);
    printf("what a set holds is what is read back of its reports: %lu messages\n", (unsigned long)messages);
    return 0;
}
