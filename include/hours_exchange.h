/*
 * The hours exchange for C and C++: tickets, settlements, worths, accounts, sheets,
 * weekly windows, markets that are held open, and the words of refusals and verdicts.
 *
 * The functions stand in the archive that `rt lib` in crates/exchange_c proves and
 * writes, crates/exchange_c/out/libexchange_c.a:
 *
 *     cc -std=c11 -Iinclude mine.c crates/exchange_c/out/libexchange_c.a
 *
 * The archive is for x86-64 Linux. It is position independent, so it can be
 * linked into a shared object too. Of the C library it uses memcpy and memset.
 *
 * docs/FORMAT.md says what tickets and settlements are, byte by byte, and what
 * each refusal and each verdict means. What every function answers and leaves is
 * proved, on every input, in crates/exchange_c: no input is out of bounds, and
 * every call returns.
 *
 * Buffers
 *
 * A buffer is passed as a pointer and a length. The length is the number of
 * elements: bytes for uint8_t, numbers for uint16_t and uint32_t. What the caller owes:
 *
 *   - the pointer is aligned for its type, and so many elements stand there;
 *     what is read was written before
 *   - a buffer that is written overlaps no other argument
 *   - a pointer with length 0 is never followed, and may be null
 *
 * A refusal changes no element, but for exchange_call, which see. After a success
 * the elements beyond those that were written are as before.
 *
 * Threads, memory, stack
 *
 * No function allocates, keeps state between calls, or reads or writes anything
 * but its arguments. Each may run in several threads at once, on buffers of
 * their own, and in a signal handler. exchange_call needs less than 96 KiB of stack,
 * every other function less than 64 KiB; that is measured, not proved.
 */
#ifndef HOURS_EXCHANGE_H
#define HOURS_EXCHANGE_H

#include <stddef.h>
#include <stdint.h>

#ifdef __cplusplus
extern "C" {
#endif

#define EXCHANGE_VERSION "1.7.0"

/* Elements that always suffice. */
#define EXCHANGE_TICKET_BYTES 2083      /* of exchange_pack's ticket, exchange_windows' new ticket */
#define EXCHANGE_TICKET_NUMBERS 1315    /* of exchange_unpack's list */
#define EXCHANGE_SETTLEMENT_BYTES 1027  /* of exchange_settle's settlement */
#define EXCHANGE_SETTLEMENT_NUMBERS 771 /* of exchange_read_settlement's list */
#define EXCHANGE_SHEET_BYTES 8216       /* of exchange_sheet's text */
#define EXCHANGE_ACCOUNT_NUMBERS 48     /* of exchange_account's list */
#define EXCHANGE_MARKET_NUMBERS 2118    /* of exchange_open's market: no fewer do */
#define EXCHANGE_CALL_NUMBERS 8         /* of each of exchange_call's calls */
#define EXCHANGE_TEXT_BYTES 96          /* of exchange_text's text */

/*
 * Replies: the number that exchange_unpack, exchange_pack, exchange_read_settlement,
 * exchange_write_settlement, exchange_settle, exchange_sheet, exchange_account,
 * exchange_windows, exchange_open, exchange_call, exchange_market_settlement and
 * exchange_text return. Below EXCHANGE_REFUSED it is how many elements were written;
 * otherwise it is EXCHANGE_REFUSED and the refusal's number.
 */
#define EXCHANGE_REFUSED UINT32_C(65536)

/* The refusal of a reply, 0 if it is none. */
static inline uint32_t exchange_refusal(uint32_t reply)
{
    return reply < EXCHANGE_REFUSED ? 0 : reply - EXCHANGE_REFUSED;
}

/* The refusals. exchange_text has them in words. */
#define EXCHANGE_ENDS_EARLY 1                /* a ticket that ends early */
#define EXCHANGE_LONG_NUMBER 2               /* a number of a ticket has more than two bytes */
#define EXCHANGE_PADDED_NUMBER 3             /* a number of a ticket is padded with 00 */
#define EXCHANGE_OTHER_KIND 4                /* another kind of file than a ticket */
#define EXCHANGE_PARTIES_OUT_OF_RANGE 5      /* growers or pilots of a ticket not 1 to 16 */
#define EXCHANGE_HOURS_ABOVE_LIMIT 6         /* hours above 60 */
#define EXCHANGE_ABOVE_LIMIT 7               /* a cap above 60 or an amount above 500 */
#define EXCHANGE_AMOUNT_WITHOUT_CAP 8        /* an amount in a deal of cap 0 */
#define EXCHANGE_LEFT_AT_END 9               /* something is left at a ticket's end */
#define EXCHANGE_NO_ROOM 10                  /* the buffer or the list is too short */
#define EXCHANGE_SETTLEMENT_ENDS_EARLY 11    /* a settlement that ends early */
#define EXCHANGE_SETTLEMENT_LONG_NUMBER 12   /* a number of a settlement has more than two bytes */
#define EXCHANGE_SETTLEMENT_PADDED_NUMBER 13 /* a number of a settlement is padded with 00 */
#define EXCHANGE_SETTLEMENT_OTHER_KIND 14    /* another kind of file than a settlement */
#define EXCHANGE_SETTLEMENT_OTHER_PARTIES 15 /* growers or pilots unlike the ticket's */
#define EXCHANGE_SETTLEMENT_LEFT_AT_END 16   /* something is left at a settlement's end */
#define EXCHANGE_NOT_SOUND 17                /* a settlement that is not sound */
#define EXCHANGE_CAP_WITHOUT_HOURS 18        /* a cap above 0, but the grower or the pilot has no hours */
#define EXCHANGE_NO_PARTY 19                 /* a call names no grower or pilot of the market */
#define EXCHANGE_AGAINST_LIMITS 20           /* a call's number breaks the limits of a ticket */
#define EXCHANGE_NOT_WINDOWS 21              /* numbers are no list of windows */
#define EXCHANGE_BAD_WINDOW 22               /* a window is empty, past the week, or before the last has closed */

/*
 * Turns a ticket's bytes into its list of numbers: kind, n, m, everybody's
 * hours, and five numbers for each pair. Returns how many there are. Refusals 1
 * to 9 and 18 are about the ticket; 10 says that the list is shorter than the
 * ticket.
 */
uint32_t exchange_unpack(const uint8_t *ticket, size_t ticket_length,
                         uint16_t *list, size_t list_length);

/*
 * The reverse: turns a list of numbers into a ticket's bytes. Returns how many
 * there are. Refusals 1, 4 to 9 and 18 are about the list; 10 says that the buffer
 * is shorter than the ticket.
 */
uint32_t exchange_pack(const uint16_t *list, size_t list_length,
                       uint8_t *ticket, size_t ticket_length);

/*
 * Turns the bytes of a settlement of a ticket with so many growers and pilots into its
 * list of numbers: kind, n, m, and three numbers for each pair, tariff hours,
 * free-deal hours and pay. Returns how many there are. Refusals 11 to 16 are about the
 * settlement; 15 comes first where growers or pilots are above EXCHANGE_PARTIES, as no
 * ticket has so many. 10, last, says that the list is shorter than the settlement.
 * Whether the settlement is sound is not looked at.
 */
uint32_t exchange_read_settlement(const uint8_t *settlement, size_t settlement_length,
                                  size_t growers, size_t pilots,
                                  uint16_t *list, size_t list_length);

/*
 * The reverse: turns a list of numbers into a settlement's bytes. Returns how many
 * there are. Refusals 11, 12 and 14 to 16 are about the list, 15 first as above; 10,
 * last, says that the buffer is shorter than the settlement. EXCHANGE_SETTLEMENT_BYTES
 * suffice where all hours are below 128, and 2 * EXCHANGE_SETTLEMENT_NUMBERS always.
 */
uint32_t exchange_write_settlement(const uint16_t *list, size_t list_length,
                                   size_t growers, size_t pilots,
                                   uint8_t *settlement, size_t settlement_length);

/*
 * Writes a sound settlement of a ticket. Returns its length in bytes. Refusals 1
 * to 9 and 18 are about the ticket; 10 says that the buffer has fewer than 3 + 4nm
 * bytes for n growers and m pilots, though the settlement itself may be shorter.
 */
uint32_t exchange_settle(const uint8_t *ticket, size_t ticket_length,
                         uint8_t *settlement, size_t settlement_length);

/*
 * Writes a ticket's sheet: the ticket settled, as lines of text, or `REFUSED` and
 * a number, 1 to 9 or 18, for a file that is no ticket. Returns its length in
 * bytes; no zero byte is written after it. The only refusal is 10: the buffer has
 * fewer than 24 + 32nm bytes for n growers and m pilots, though the sheet itself
 * may be shorter; or it is shorter than the text of a refusal.
 */
uint32_t exchange_sheet(const uint8_t *ticket, size_t ticket_length,
                        uint8_t *text, size_t text_length);

/*
 * Writes the account of a ticket and a sound settlement of it: what each grower
 * gains in euros; then, for each pilot, what he is paid in euros and the
 * commission on it in cents. Returns how many numbers that is, n + 2m. Refusals 1
 * to 9 and 18 are about the ticket and come first, 11 to 16 about the settlement;
 * 17 says that the settlement is not sound, and 10, last, that the list is shorter
 * than the account.
 */
uint32_t exchange_account(const uint8_t *ticket, size_t ticket_length,
                          const uint8_t *settlement, size_t settlement_length,
                          uint32_t *list, size_t list_length);

/*
 * Makes a new ticket of a ticket and everybody's windows: the hours of the week, 0 to
 * 167, at which a grower opens his fields and a pilot flies. The windows are a list of
 * numbers: for each party, growers first, a count up to EXCHANGE_WINDOWS, and then two
 * hours for each window, its first and its closing hour, which itself is outside. A
 * pair's tariff cap falls to the hours that lie in a window of each, its free cap to
 * those of them that are left after the new tariff cap; a cap that becomes 0 clears its
 * amounts, and all else is kept. Returns the new ticket's length in bytes. Refusals 1 to
 * 9 and 18 are about the ticket and come first. Then, party by party, 21 says that the
 * list ends early or a count is above EXCHANGE_WINDOWS, and 22 that a window is empty,
 * past EXCHANGE_WEEK_HOURS, or begins before the last one of its party has closed; 21 is
 * for numbers that are left, too. 10, last, says that the buffer is shorter than the new
 * ticket.
 */
uint32_t exchange_windows(const uint8_t *ticket, size_t ticket_length,
                          const uint16_t *windows, size_t windows_length,
                          uint8_t *new_ticket, size_t new_ticket_length);

#define EXCHANGE_WINDOWS 8      /* of a party at most */
#define EXCHANGE_WEEK_HOURS 168 /* the latest closing hour */

/*
 * Marks a settlement against its ticket. Returns a mark, from which the functions
 * below read the refusal or the verdict. Nothing is written.
 */
uint64_t exchange_mark(const uint8_t *ticket, size_t ticket_length,
                       const uint8_t *settlement, size_t settlement_length);

/* Why a mark is none: 1 to 9 and 18 the ticket, 11 to 16 the settlement. 0 if it is one. */
static inline uint32_t exchange_mark_refusal(uint64_t mark)
{
    return (uint32_t)(mark >> 56);
}

/* The verdicts. */
#define EXCHANGE_SOUND 1
#define EXCHANGE_TARIFF_OVER_CAP 2
#define EXCHANGE_FREE_OVER_CAP 3
#define EXCHANGE_WRONG_PAY 4
#define EXCHANGE_GROWER_OVER_HOURS 5
#define EXCHANGE_PILOT_OVER_HOURS 6
#define EXCHANGE_IDLE 7
#define EXCHANGE_BLOCKS 8

/* The verdict, 0 for a refusal. */
static inline uint32_t exchange_mark_verdict(uint64_t mark)
{
    return (uint32_t)(mark & 0xff);
}

/* The grower and the pilot at fault, from 0; 0 where the verdict names none. */
static inline uint32_t exchange_mark_grower(uint64_t mark)
{
    return (uint32_t)(mark >> 8 & 0xff);
}

static inline uint32_t exchange_mark_pilot(uint64_t mark)
{
    return (uint32_t)(mark >> 16 & 0xff);
}

/* Their deal: 0 tariff, 1 free; 0 where the verdict names none. */
static inline uint32_t exchange_mark_deal(uint64_t mark)
{
    return (uint32_t)(mark >> 24 & 0xff);
}

/* The deals that were looked at for idle and blocking ones: 2nm if sound. */
static inline uint32_t exchange_mark_count(uint64_t mark)
{
    return (uint32_t)(mark >> 32 & 0xffffff);
}

/*
 * Marks a settlement against its ticket, and returns the worth that is given with
 * the verdict: what all free-deal hours gain together, in euros. No settlement of
 * that ticket is worth more. It is 0 where the verdict is not EXCHANGE_SOUND, where a
 * tariff cap is above 0, and where nothing is gained; the number does not tell these
 * apart. Refusal k is returned as k times 2^56, which is more than any worth. Nothing
 * is written.
 */
uint64_t exchange_worth(const uint8_t *ticket, size_t ticket_length,
                        const uint8_t *settlement, size_t settlement_length);

/* Why a worth is none, as exchange_mark_refusal says it of a mark. 0 if it is one. */
static inline uint32_t exchange_worth_refusal(uint64_t worth)
{
    return (uint32_t)(worth >> 56);
}

/*
 * A market that is held open is the caller's list of EXCHANGE_MARKET_NUMBERS numbers:
 *
 *   from 0                                     a ticket's list, as exchange_unpack writes it
 *   from EXCHANGE_TICKET_NUMBERS               a sound settlement of it, in its file's order
 *   from EXCHANGE_MARKET_GROWER_FREE_HOURS     the free hours of each grower
 *   from EXCHANGE_MARKET_PILOT_FREE_HOURS      the free hours of each pilot
 *
 * After each stand zeros up to the next, or to the end. Somebody's free hours are his
 * hours less those in all his deals of the settlement. Copy the list to keep a market;
 * write to it only by exchange_open and exchange_call.
 */
#define EXCHANGE_MARKET_GROWER_FREE_HOURS 2086
#define EXCHANGE_MARKET_PILOT_FREE_HOURS 2102
#define EXCHANGE_PARTIES 16 /* growers at most, and pilots at most */

/*
 * Opens a market from a ticket. Returns EXCHANGE_MARKET_NUMBERS. Refusals 1 to 9 and
 * 18 are about the ticket; 10, last, says that the list is shorter than a market.
 */
uint32_t exchange_open(const uint8_t *ticket, size_t ticket_length,
                       uint16_t *market, size_t market_length);

/*
 * Does calls on a market, one after another, of EXCHANGE_CALL_NUMBERS numbers each:
 *
 *   1 GROWER HOURS 0 0 0 0 0       sets a grower's hours
 *   2 PILOT HOURS 0 0 0 0 0        sets a pilot's hours
 *   3 GROWER PILOT TC A B FC C     sets the five numbers of a pair, as in the ticket
 *
 * What stands after HOURS is not looked at. Hours of 0 set the numbers of all the
 * party's pairs to 0, too. After each call the settlement is sound for the ticket as
 * the accepted calls left it, and the free hours are what it leaves to everybody. A
 * call that is refused changes nothing; the calls after it are done. Returns
 * EXCHANGE_MARKET_NUMBERS if all were accepted, else the first refusal: 19 says that
 * there is no such party, 20 that a number breaks the ticket's limits, or that this is
 * no call: another first number, or fewer than 8 numbers at the list's end. 10, before
 * all else, says that the market's list is too short, and nothing is done.
 */
uint32_t exchange_call(uint16_t *market, size_t market_length,
                       const uint16_t *calls, size_t calls_length);

/* One call. If it is refused, the market is as it was. */
static inline uint32_t exchange_set_grower_hours(uint16_t *market, size_t market_length,
                                                 uint16_t grower, uint16_t hours)
{
    const uint16_t call[EXCHANGE_CALL_NUMBERS] = {1, grower, hours, 0, 0, 0, 0, 0};
    return exchange_call(market, market_length, call, EXCHANGE_CALL_NUMBERS);
}

static inline uint32_t exchange_set_pilot_hours(uint16_t *market, size_t market_length,
                                                uint16_t pilot, uint16_t hours)
{
    const uint16_t call[EXCHANGE_CALL_NUMBERS] = {2, pilot, hours, 0, 0, 0, 0, 0};
    return exchange_call(market, market_length, call, EXCHANGE_CALL_NUMBERS);
}

static inline uint32_t exchange_set_pair(uint16_t *market, size_t market_length,
                                         uint16_t grower, uint16_t pilot,
                                         uint16_t tariff_cap, uint16_t a, uint16_t b,
                                         uint16_t free_cap, uint16_t c)
{
    const uint16_t call[EXCHANGE_CALL_NUMBERS] = {3, grower, pilot, tariff_cap, a, b, free_cap, c};
    return exchange_call(market, market_length, call, EXCHANGE_CALL_NUMBERS);
}

/*
 * How many of a market's numbers are the ticket's: so many, from the first on, are
 * exchange_pack's list.
 */
static inline size_t exchange_market_ticket_numbers(const uint16_t *market)
{
    return 3 + (size_t)market[1] + market[2] + 5 * (size_t)market[1] * market[2];
}

/* The free hours of a grower, and of a pilot, which the market holds; 0 if there is no such party. */
static inline uint16_t exchange_market_grower_free_hours(const uint16_t *market, uint16_t grower)
{
    return grower < EXCHANGE_PARTIES ? market[EXCHANGE_MARKET_GROWER_FREE_HOURS + grower] : 0;
}

static inline uint16_t exchange_market_pilot_free_hours(const uint16_t *market, uint16_t pilot)
{
    return pilot < EXCHANGE_PARTIES ? market[EXCHANGE_MARKET_PILOT_FREE_HOURS + pilot] : 0;
}

/*
 * Writes the file of the settlement that a market holds. Returns its length in bytes.
 * Refusal 10 says that the market's list or the buffer is too short; a list that
 * exchange_open and exchange_call wrote has no other.
 */
uint32_t exchange_market_settlement(const uint16_t *market, size_t market_length,
                                    uint8_t *settlement, size_t settlement_length);

/* What exchange_text tells. */
#define EXCHANGE_TEXT_REFUSAL 0
#define EXCHANGE_TEXT_VERDICT 1

/*
 * Writes the words of a refusal, as `ticket: it ends early`, or of a verdict, as
 * `blocks`, in ASCII. `what` is EXCHANGE_TEXT_REFUSAL; any other number is taken for
 * EXCHANGE_TEXT_VERDICT. A number that no refusal or no verdict has is told so, in
 * words too. Returns the text's length in bytes; no zero byte and no line end is
 * written after it. The only refusal is 10: the buffer is shorter than the text.
 */
uint32_t exchange_text(uint32_t what, uint32_t number, uint8_t *text, size_t text_length);

#ifdef __cplusplus
}
#endif

#endif
