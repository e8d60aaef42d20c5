/* The conversions, which are no set's: what has to hold of them for any value. */
#ifndef CONVERSIONS_H
#define CONVERSIONS_H

#include "input.h"
#include "lent.h"

/* What one way gives, the other takes back. */
static void there_and_back(uint64_t answer, uint32_t refusal, uint32_t from, uint64_t (*back)(uint32_t))
{
    must(answer >> 40 == 0, "bits of a conversion that must be 0");
    must(answer == refusal || otap_answer_number(answer) == OTAP_OK, "a conversion answers or refuses with value 0");
    must(answer == refusal || back(otap_value(answer)) == (uint64_t)from << 8, "a conversion goes both ways");
}

static void convert(Input *input)
{
    uint32_t value = next_byte(input);
    value = value << 8 | next_byte(input);
    value = value << 8 | next_byte(input);
    value = value << 8 | next_byte(input);
    there_and_back(otap_individual_of_dialled(value), OTAP_OUTSIDE_PLAN, value, otap_dialled_of_individual);
    there_and_back(otap_group_of_dialled(value), OTAP_OUTSIDE_PLAN, value, otap_dialled_of_group);
    there_and_back(otap_dialled_of_individual(value), OTAP_OUTSIDE_KIND, value, otap_individual_of_dialled);
    there_and_back(otap_dialled_of_group(value), OTAP_OUTSIDE_KIND, value, otap_group_of_dialled);
    there_and_back(otap_transmit(value % 700), OTAP_NO_CHANNEL, value % 700, otap_channel_of_transmit);
    there_and_back(otap_channel_of_transmit(value), OTAP_NO_CHANNEL, value, otap_transmit);
    must(otap_answer_number(otap_receive(value)) == otap_answer_number(otap_transmit(value)), "both frequencies or none");
}

#endif
