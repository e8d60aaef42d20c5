/*
 * Where docs/STORE.md has the tables of the screen, in both forms: with each text in a place of its own, as a vehicle has them, and with all texts in one area,
 * as a hand-held has. The numbers are those of the document, and no call of a set is made, so that the stores of both sets can be looked at.
 */
#ifndef PLACES_H
#define PLACES_H

#include "otap.h"

/* Its first row and how many it has, the first slot, its width, the bytes before its text or its number of units, and the most bytes of a text. */
typedef struct {
    uint32_t from, rows;
    size_t first, width, before, most;
} Table;

static const Table in_places[OTAP_TABLES + 1] = {
    {0, 0, 0, 0, 0, 0},
    {0, 128, 13246, 52, 20, 32}, /* lines */
    {0, 64, 22, 46, 0, 46},      /* quick texts */
    {32, 96, 2966, 33, 1, 32},   /* status texts */
    {0, 16, 6134, 36, 4, 32},    /* groups */
    {0, 16, 6710, 36, 4, 32},    /* individuals */
    {0, 64, 8120, 36, 4, 32},    /* group contacts */
    {0, 64, 10426, 36, 4, 32},   /* individual contacts */
    {0, 16, 7286, 52, 20, 32}    /* line slots */
};

static const Table in_area[OTAP_TABLES + 1] = {
    {0, 0, 0, 0, 0, 0},
    {0, 32, 1550, 21, 20, 32}, /* lines */
    {0, 64, 22, 1, 0, 46},     /* quick texts */
    {32, 96, 86, 2, 1, 32},    /* status texts */
    {0, 16, 278, 5, 4, 32},    /* groups */
    {0, 16, 358, 5, 4, 32},    /* individuals */
    {0, 64, 776, 5, 4, 32},    /* group contacts */
    {0, 64, 1098, 5, 4, 32},   /* individual contacts */
    {0, 16, 438, 21, 20, 32}   /* line slots */
};

/* The form of the set that is fuzzed. */
#ifdef VEHICLE
static const Table *const layout = in_places;
#else
static const Table *const layout = in_area;
#endif

/* The area of a form that has one. */
enum { SHARED_AT = 2254, SHARED_BYTES = 4096 };

/* Whether a form has an area: behind what a slot begins with there is then one byte, the number of units. */
static inline int shares(const Table *form)
{
    return form[OTAP_LINES].width == form[OTAP_LINES].before + 1;
}

/* The bytes of the text of a place, which is counted from 0 in every table. */
static inline size_t text_length(const Table *form, const uint8_t *store, uint32_t table, uint32_t place)
{
    const uint8_t *text = store + form[table].first + form[table].width * place + form[table].before;
    size_t length = 0;
    if (shares(form)) {
        return 2u * text[0];
    }
    while (length < form[table].most && (text[length] != 0 || text[length + 1] != 0)) {
        length += 2;
    }
    return length;
}

/* The tables in the order in which their texts stand in an area. */
static const uint32_t text_order[OTAP_TABLES] = {
    OTAP_QUICK_TEXTS, OTAP_STATUS_TEXTS, OTAP_GROUPS, OTAP_INDIVIDUALS, OTAP_LINE_SLOTS, OTAP_GROUP_CONTACTS, OTAP_INDIVIDUAL_CONTACTS, OTAP_LINES
};

/* The bytes of the texts before that of a place, in the order of an area; with table 0, of all of them. */
static inline size_t texts_before(const Table *form, const uint8_t *store, uint32_t table, uint32_t place)
{
    size_t sum = 0;
    uint32_t each, at;
    for (each = 0; each < OTAP_TABLES; each++) {
        for (at = 0; at < form[text_order[each]].rows; at++) {
            if (text_order[each] == table && at == place) {
                return sum;
            }
            sum += text_length(form, store, text_order[each], at);
        }
    }
    return sum;
}

static inline size_t text_sum(const Table *form, const uint8_t *store)
{
    return texts_before(form, store, 0, 0);
}

/* The slot of a place: its first byte. */
static inline size_t slot_at(uint32_t table, uint32_t place)
{
    return layout[table].first + layout[table].width * place;
}

/* A text's own part of the store. */
typedef struct {
    size_t offset, length;
} Text;

static inline Text text_at(const uint8_t *store, uint32_t table, uint32_t place)
{
    Text text;
    text.offset = shares(layout) ? SHARED_AT + texts_before(layout, store, table, place) : slot_at(table, place) + layout[table].before;
    text.length = text_length(layout, store, table, place);
    return text;
}

/* The low byte of the count of a list, which is all of it: the two bytes before its slots. */
static inline size_t held_at(uint32_t table)
{
    return layout[table].first - 1;
}

#endif
