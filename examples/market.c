/*
 * Opens a market from a ticket file, makes some calls on it, and after each one packs
 * the ticket that is held, marks the settlement that is held against it, and prints
 * everybody's free hours.
 */
#include "hours_exchange.h"

#include <inttypes.h>
#include <stdio.h>

static uint16_t market[EXCHANGE_MARKET_NUMBERS];

static size_t read_file(const char *name, uint8_t *bytes, size_t room)
{
    FILE *file = fopen(name, "rb");
    if (file == NULL)
        return 0;
    size_t length = fread(bytes, 1, room, file);
    fclose(file);
    return length;
}

/* They are held, and nothing is summed. A market's second number is its growers, the third its pilots. */
static void tell_free_hours(void)
{
    printf("free hours: growers");
    for (uint16_t grower = 0; grower < market[1]; grower++)
        printf(" %" PRIu16, exchange_market_grower_free_hours(market, grower));
    printf(", pilots");
    for (uint16_t pilot = 0; pilot < market[2]; pilot++)
        printf(" %" PRIu16, exchange_market_pilot_free_hours(market, pilot));
    printf("\n");
}

/* What was called, its refusal if there is one, the verdict on what is held, and the free hours. */
static void tell(const char *called, uint32_t reply)
{
    uint8_t ticket[EXCHANGE_TICKET_BYTES];
    uint8_t settlement[EXCHANGE_SETTLEMENT_BYTES];
    uint32_t ticket_length = exchange_pack(market, exchange_market_ticket_numbers(market), ticket, sizeof ticket);
    uint32_t length = exchange_market_settlement(market, EXCHANGE_MARKET_NUMBERS, settlement, sizeof settlement);
    uint64_t mark = exchange_mark(ticket, ticket_length, settlement, length);
    printf("%s: refusal %" PRIu32 ", verdict %" PRIu32 ", count %" PRIu32 "\n", called, exchange_refusal(reply),
           exchange_mark_verdict(mark), exchange_mark_count(mark));
    tell_free_hours();
}

int main(int argc, char **argv)
{
    uint8_t ticket[EXCHANGE_TICKET_BYTES + 1];
    if (argc != 2) {
        fprintf(stderr, "usage: market TICKET\n");
        return 2;
    }
    uint32_t reply = exchange_open(ticket, read_file(argv[1], ticket, sizeof ticket), market, EXCHANGE_MARKET_NUMBERS);
    if (exchange_refusal(reply) != 0) {
        printf("refused with %" PRIu32 "\n", exchange_refusal(reply));
        return 1;
    }
    tell("opened", reply);
    tell("pilot 1 is off", exchange_set_pilot_hours(market, EXCHANGE_MARKET_NUMBERS, 1, 0));
    tell("a cap with pilot 1", exchange_set_pair(market, EXCHANGE_MARKET_NUMBERS, 0, 1, 1, 0, 0, 0, 0));
    tell("grower 16", exchange_set_grower_hours(market, EXCHANGE_MARKET_NUMBERS, 16, 5));
    tell("new terms", exchange_set_pair(market, EXCHANGE_MARKET_NUMBERS, 1, 2, 3, 40, 50, 2, 100));
    tell("grower 0 is off", exchange_set_grower_hours(market, EXCHANGE_MARKET_NUMBERS, 0, 0));
    return 0;
}
