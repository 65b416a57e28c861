/*
 * Marks a settlement file against its ticket file, says the verdict in words, and
 * prints the worth and the account of a sound settlement. The exit status is 0 for a
 * sound settlement, 1 for another, and 2 for a refusal or a file that is not read.
 */
#include "hours_exchange.h"

#include <inttypes.h>
#include <stdio.h>

/*
 * More bytes than any ticket or settlement has: of a longer file the front is
 * refused as the whole would be.
 */
#define FILE_BYTES 4096

static int read_file(const char *name, uint8_t *bytes, size_t *length)
{
    FILE *file = fopen(name, "rb");
    int failed;

    if (file == NULL) {
        perror(name);
        return 0;
    }
    *length = fread(bytes, 1, FILE_BYTES, file);
    failed = ferror(file);
    if (failed) {
        perror(name);
    }
    fclose(file);
    return !failed;
}

/* The library's words for a refusal or a verdict, and the line's end. */
static void print_text(uint32_t what, uint32_t number)
{
    uint8_t text[EXCHANGE_TEXT_BYTES];
    uint32_t length = exchange_text(what, number, text, sizeof text);

    printf("%.*s\n", (int)length, (const char *)text);
}

/* Who is at fault, as far as the verdict names somebody, and the words for it. */
static void print_verdict(uint64_t mark)
{
    unsigned grower = exchange_mark_grower(mark);
    unsigned pilot = exchange_mark_pilot(mark);
    const char *deal = exchange_mark_deal(mark) == 0 ? "tariff" : "free";

    switch (exchange_mark_verdict(mark)) {
    case EXCHANGE_SOUND:
        break;
    case EXCHANGE_GROWER_OVER_HOURS:
        printf("grower %u: ", grower);
        break;
    case EXCHANGE_PILOT_OVER_HOURS:
        printf("pilot %u: ", pilot);
        break;
    default:
        printf("grower %u, pilot %u, %s deal: ", grower, pilot, deal);
        break;
    }
    print_text(EXCHANGE_TEXT_VERDICT, exchange_mark_verdict(mark));
}

/* What everybody has of a sound settlement. Of its ticket the second byte is n, the third m. */
static void print_account(const uint8_t *ticket, const uint32_t *account)
{
    unsigned growers = ticket[1];
    unsigned pilots = ticket[2];

    for (unsigned i = 0; i < growers; i++) {
        printf("grower %u gains %u euros\n", i, (unsigned)account[i]);
    }
    for (unsigned j = 0; j < pilots; j++) {
        unsigned pay = account[growers + 2 * j];
        unsigned cents = account[growers + 2 * j + 1];

        printf("pilot %u is paid %u euros, commission %u.%02u euros\n",
               j, pay, cents / 100, cents % 100);
    }
}

static void print_refusal(uint32_t refusal)
{
    printf("refused with %u: ", (unsigned)refusal);
    print_text(EXCHANGE_TEXT_REFUSAL, refusal);
}

int main(int argc, char **argv)
{
    static uint8_t ticket[FILE_BYTES];
    static uint8_t settlement[FILE_BYTES];
    uint32_t account[EXCHANGE_ACCOUNT_NUMBERS];
    size_t ticket_length;
    size_t settlement_length;
    uint64_t mark;
    uint64_t worth;
    uint32_t reply;

    if (argc != 3) {
        fprintf(stderr, "usage: mark TICKET SETTLEMENT\n");
        return 2;
    }
    if (!read_file(argv[1], ticket, &ticket_length) ||
        !read_file(argv[2], settlement, &settlement_length)) {
        return 2;
    }
    mark = exchange_mark(ticket, ticket_length, settlement, settlement_length);
    if (exchange_mark_refusal(mark) != 0) {
        print_refusal(exchange_mark_refusal(mark));
        return 2;
    }
    print_verdict(mark);
    if (exchange_mark_verdict(mark) != EXCHANGE_SOUND) {
        return 1;
    }
    /* 0 where there is a tariff deal too, so that only a greater worth is a promise. */
    worth = exchange_worth(ticket, ticket_length, settlement, settlement_length);
    if (worth > 0) {
        printf("worth %" PRIu64 " euros: no settlement of this ticket is worth more\n", worth);
    }
    reply = exchange_account(ticket, ticket_length, settlement, settlement_length,
                             account, EXCHANGE_ACCOUNT_NUMBERS);
    if (exchange_refusal(reply) != 0) {
        print_refusal(exchange_refusal(reply));
        return 2;
    }
    print_account(ticket, account);
    return 0;
}
