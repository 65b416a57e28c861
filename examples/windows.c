/*
 * Narrows the caps of a week's ticket, of three growers and three pilots, to the hours
 * that both of a pair have in their windows. Prints what becomes of each pair's caps, the
 * verdict on a settlement of the new ticket, and how two lists that are wrong are refused.
 */
#include "hours_exchange.h"

#include <inttypes.h>
#include <stdio.h>

/* For each party, growers first: a count, then a first and a closing hour a window. */
static const uint16_t windows[] = {
    1, 6, 9,           /* grower 0: Monday 6 to 9 */
    2, 30, 32, 54, 55, /* grower 1: Tuesday 6 to 8, Wednesday 6 to 7 */
    0,                 /* grower 2 opens no field */
    1, 0, 168,         /* pilots 0 and 1 fly at any hour */
    1, 0, 168,
    1, 32, 168,        /* pilot 2 comes on Tuesday at 8 */
};
#define WINDOWS_NUMBERS (sizeof windows / sizeof windows[0])

/* The first hour of grower 1's second window. */
#define SECOND_FIRST 6

static uint8_t ticket[EXCHANGE_TICKET_BYTES + 1];
static size_t ticket_length;
static uint8_t new_ticket[EXCHANGE_TICKET_BYTES];

static uint32_t narrow(const uint16_t *list, size_t numbers)
{
    return exchange_windows(ticket, ticket_length, list, numbers, new_ticket, sizeof new_ticket);
}

static void tell_cap(const char *deal, uint16_t before, uint16_t after)
{
    printf("%s cap %" PRIu16, deal, before);
    if (after != before)
        printf(" to %" PRIu16, after);
}

/* The caps of both tickets: after three numbers and everybody's hours, five numbers for each pair. */
static void tell_caps(size_t new_length)
{
    uint16_t old_list[EXCHANGE_TICKET_NUMBERS];
    uint16_t new_list[EXCHANGE_TICKET_NUMBERS];
    exchange_unpack(ticket, ticket_length, old_list, EXCHANGE_TICKET_NUMBERS);
    exchange_unpack(new_ticket, new_length, new_list, EXCHANGE_TICKET_NUMBERS);
    unsigned growers = new_list[1];
    unsigned pilots = new_list[2];
    for (unsigned pair = 0; pair < growers * pilots; pair++) {
        unsigned place = 3 + growers + pilots + 5 * pair;
        printf("pair %u %u: ", pair / pilots, pair % pilots);
        tell_cap("tariff", old_list[place], new_list[place]);
        tell_cap(", free", old_list[place + 3], new_list[place + 3]);
        printf("\n");
    }
}

static void tell_settled(size_t new_length)
{
    uint8_t settlement[EXCHANGE_SETTLEMENT_BYTES];
    uint32_t length = exchange_settle(new_ticket, new_length, settlement, sizeof settlement);
    uint64_t mark = exchange_mark(new_ticket, new_length, settlement, length);
    printf("settled anew: verdict %" PRIu32 ", count %" PRIu32 "\n", exchange_mark_verdict(mark),
           exchange_mark_count(mark));
}

static void tell_wrong_lists(void)
{
    uint16_t overlapping[WINDOWS_NUMBERS];
    for (size_t k = 0; k < WINDOWS_NUMBERS; k++)
        overlapping[k] = windows[k];
    overlapping[SECOND_FIRST] = 31;
    printf("the last hour is missing: refused with %" PRIu32 "\n",
           exchange_refusal(narrow(windows, WINDOWS_NUMBERS - 1)));
    printf("a window begins before the last has closed: refused with %" PRIu32 "\n",
           exchange_refusal(narrow(overlapping, WINDOWS_NUMBERS)));
}

int main(int argc, char **argv)
{
    FILE *file = argc == 2 ? fopen(argv[1], "rb") : NULL;
    if (file == NULL) {
        fprintf(stderr, "usage: windows TICKET\n");
        return 2;
    }
    ticket_length = fread(ticket, 1, sizeof ticket, file);
    fclose(file);
    uint32_t reply = narrow(windows, WINDOWS_NUMBERS);
    if (exchange_refusal(reply) != 0) {
        printf("refused with %" PRIu32 "\n", exchange_refusal(reply));
        return 1;
    }
    tell_caps(reply);
    tell_settled(reply);
    tell_wrong_lists();
    return 0;
}
