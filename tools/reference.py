"""What the programs `cases` and `exchange desk` must print, worked out apart from them.

    python3 tools/reference.py crates/cases/stdin PROGRAM_OUTPUT > expected

reads the cases and writes the report that is expected of them. Unpacking, packing, marking, worths, accounts and weekly windows follow the
words of the paper, with every spare listed one by one, and with every hour of a window. For `settle` and for the `sheet` of a ticket that can
be settled many answers are right: there the program's own answer is taken from PROGRAM_OUTPUT, judged, and written through only if it is a
sound settlement, or the sheet of one. Otherwise a line says what is wrong. So the program is right if `expected` is the same as PROGRAM_OUTPUT.

    python3 tools/reference.py desk TICKET LINES PROGRAM_OUTPUT > expected

does the same for a desk: TICKET is the file that it was opened with, LINES is its standard input. Which settlement is held is left to the
program: of a `sheet` it is judged that it shows a sound settlement of the ticket as the accepted calls left it, and the same one as before
if no call was accepted since. Of `free` it is judged that the figures are what the settlement of the sheet leaves of everybody's hours, be
the sheet printed before or after it; where no sheet is printed between two accepted calls, that all growers together have as many hours in
deals as all pilots, and nobody more than his own. `save` may say OK or FAILED, and `help` is a line for each kind of line; both are written
through.

The head of crates/cases/stdin says how the cases are written. Python 3, without packages.
"""
import fractions
import functools
import itertools
import math
import re
import sys

TARIFF, FREE = "tariff", "free"
ROOM = 8300  # the longest buffer that the program can lend
LONGEST = 2200  # the longest document that it can read
SHOWN = 160  # so much of a line is printed again
DIGITS = 20  # as many as a number of 64 bits can have
LONGEST_LINE = 4096  # the most bytes of a desk's line
WEEK = 168  # the hours of a week
GROWER, PILOT = 0, 1


class Refused(Exception):
    """A refusal with its number."""

    def __init__(self, why):
        super().__init__(why)
        self.why = why


class NotUnderstood(Exception):
    """A line that is no case."""


# Numbers in groups of seven bits


def read_number(data, at, ends, top_bit, padded):
    """The number at a place and the place after it. The last three say with which number to refuse."""
    if at >= len(data):
        raise Refused(ends)
    if data[at] < 0x80:
        return data[at], at + 1
    if at + 1 >= len(data):
        raise Refused(ends)
    if data[at + 1] >= 0x80:
        raise Refused(top_bit)
    if data[at + 1] == 0:
        raise Refused(padded)
    return (data[at] & 0x7F) + (data[at + 1] << 7), at + 2


def number_bytes(x):
    return [x] if x < 0x80 else [(x & 0x7F) | 0x80, x >> 7]


def all_bytes(numbers):
    return [byte for x in numbers for byte in number_bytes(x)]


# Tickets and settlements. `take()` hands out the next number of a file or a list, and `left()` says whether anything is left.


def from_bytes(data, ends, top_bit, padded):
    place = [0]

    def take():
        x, place[0] = read_number(data, place[0], ends, top_bit, padded)
        return x

    return take, lambda: place[0] < len(data)


def from_list(numbers, ends, largest=None, too_large=None):
    rest = list(numbers)

    def take():
        if not rest:
            raise Refused(ends)
        x = rest.pop(0)
        if largest is not None and x > largest:
            raise Refused(too_large)
        return x

    return take, lambda: bool(rest)


def ticket_numbers(take, left):
    numbers = []

    def take_checked(wrong, why):
        x = take()
        if wrong(x):
            raise Refused(why)
        numbers.append(x)
        return x

    take_checked(lambda x: x != 1, 4)
    n = take_checked(lambda x: not 1 <= x <= 16, 5)
    m = take_checked(lambda x: not 1 <= x <= 16, 5)
    grower_hours, pilot_hours = ([take_checked(lambda x: x > 60, 6) for _ in range(parties)] for parties in (n, m))
    for of_grower, of_pilot in itertools.product(grower_hours, pilot_hours):
        for amounts in (2, 1):  # a tariff deal has two amounts, a free deal one
            cap = take_checked(lambda x: x > 60, 7)
            if cap > 0 and (of_grower == 0 or of_pilot == 0):
                raise Refused(18)
            for _ in range(amounts):
                amount = take_checked(lambda x: x > 500, 7)
                if cap == 0 and amount != 0:
                    raise Refused(8)
    if left():
        raise Refused(9)
    return numbers


def settlement_numbers(n, m, take, left):
    numbers = [take()]
    if numbers[0] != 2:
        raise Refused(14)
    for wanted in (n, m):
        numbers.append(take())
        if numbers[-1] != wanted:
            raise Refused(15)
    for _ in range(3 * n * m):
        numbers.append(take())
    if left():
        raise Refused(16)
    return numbers


def unpack(data):
    return ticket_numbers(*from_bytes(data, 1, 2, 3))


def pack(numbers):
    return all_bytes(ticket_numbers(*from_list(numbers, 1)))


def read_settlement(data, n, m):
    return settlement_numbers(n, m, *from_bytes(data, 11, 12, 13))


def write_settlement(numbers, n, m):
    return all_bytes(settlement_numbers(n, m, *from_list(numbers, 11, 0x3FFF, 12)))


# Soundness


class Ticket:
    def __init__(self, numbers):
        self.n, self.m = numbers[1:3]
        rest = numbers[3:]
        self.grower_hours = rest[: self.n]
        self.pilot_hours = rest[self.n : self.n + self.m]
        rest = rest[self.n + self.m :]
        self.pairs = list(itertools.product(range(self.n), range(self.m)))
        self.terms = {pair: rest[5 * k : 5 * k + 5] for k, pair in enumerate(self.pairs)}

    def cap(self, pair, deal):
        return self.terms[pair][0 if deal == TARIFF else 3]

    def numbers(self):
        """In the order of the file."""
        return [1, self.n, self.m, *self.grower_hours, *self.pilot_hours, *itertools.chain(*self.terms.values())]


class Settlement:
    def __init__(self, ticket, numbers):
        rest = numbers[3:]
        self.ticket = ticket
        self.rows = {pair: rest[3 * k : 3 * k + 3] for k, pair in enumerate(ticket.pairs)}

    def hours(self, pair, deal):
        return self.rows[pair][0 if deal == TARIFF else 1]

    def worth(self, party, pair, deal):
        """What an hour of a deal earns the grower (0) or the pilot (1) of the pair."""
        _, a, b, _, c = self.ticket.terms[pair]
        v = self.rows[pair][2]
        return {(0, TARIFF): a, (1, TARIFF): b, (0, FREE): c - v, (1, FREE): v}[party, deal]

    def own_deals(self, party, who):
        return [(pair, deal) for pair in self.ticket.pairs if pair[party] == who for deal in (TARIFF, FREE)]

    def own_hours(self, party, who):
        return (self.ticket.grower_hours, self.ticket.pilot_hours)[party][who]

    def free_hours(self, party, who):
        return self.own_hours(party, who) - sum(self.hours(*deal) for deal in self.own_deals(party, who))

    def spares(self, party, pair, deal):
        """The worth of each spare that the grower or the pilot of a pair has for a deal, hour by hour."""
        who = pair[party]
        worths = [0] * self.free_hours(party, who)
        for other in self.own_deals(party, who):
            if other != (pair, deal):
                worths += [self.worth(party, *other)] * self.hours(*other)
        return worths

    def is_idle(self, pair, deal):
        return all(self.free_hours(party, pair[party]) > 0 for party in (0, 1))

    def blocks(self, pair, deal):
        _, a, b, _, c = self.ticket.terms[pair]
        of_grower, of_pilot = self.spares(0, pair, deal), self.spares(1, pair, deal)
        if deal == TARIFF:
            return any(spare < a for spare in of_grower) and any(spare < b for spare in of_pilot)
        return bool(of_grower) and bool(of_pilot) and c > min(of_grower) + min(of_pilot)

    def verdict(self):
        """Verdict, grower, pilot, deal, count."""
        ticket = self.ticket
        for pair in ticket.pairs:
            tariff_hours, free_deal_hours, v = self.rows[pair]
            if tariff_hours > ticket.cap(pair, TARIFF):
                return (2, *pair, TARIFF, 0)
            if free_deal_hours > ticket.cap(pair, FREE):
                return (3, *pair, FREE, 0)
            if v > ticket.terms[pair][4] or (free_deal_hours == 0 and v != 0):
                return (4, *pair, FREE, 0)
        for grower in range(ticket.n):
            if self.free_hours(0, grower) < 0:
                return (5, grower, 0, TARIFF, 0)
        for pilot in range(ticket.m):
            if self.free_hours(1, pilot) < 0:
                return (6, 0, pilot, TARIFF, 0)
        count = 0
        for pair in ticket.pairs:
            for deal in (TARIFF, FREE):
                count += 1
                if self.hours(pair, deal) < ticket.cap(pair, deal):
                    if self.is_idle(pair, deal):
                        return (7, *pair, deal, count)
                    if self.blocks(pair, deal):
                        return (8, *pair, deal, count)
        return (1, 0, 0, TARIFF, count)

    def sheet(self):
        lines = ["SHEET %d %d" % (self.ticket.n, self.ticket.m)]
        for (i, j), (tariff_hours, free_deal_hours, v) in self.rows.items():
            if tariff_hours + free_deal_hours > 0:
                _, a, b, _, c = self.ticket.terms[i, j]
                lines.append("%d %d %d %d %d %d %d %d" % (i, j, tariff_hours, a, b, free_deal_hours, c - v if free_deal_hours else 0, v))
        lines.append("SOUND %d" % self.verdict()[4])
        return "".join(line + "\n" for line in lines)

    def total(self):
        """The worth that is given with the verdict: free-deal hours times c, but 0 with a tariff cap or if not sound."""
        if self.verdict()[0] != 1 or any(self.ticket.cap(pair, TARIFF) > 0 for pair in self.ticket.pairs):
            return 0
        return sum(self.hours(pair, FREE) * self.ticket.terms[pair][4] for pair in self.ticket.pairs)

    def account(self):
        """Each grower's gain, then each pilot's pay and commission in cents."""
        ticket = self.ticket
        gains, pays = [0] * ticket.n, [0] * ticket.m
        for (i, j), (tariff_hours, free_deal_hours, v) in self.rows.items():
            _, a, b, _, c = ticket.terms[i, j]
            gains[i] += tariff_hours * a + free_deal_hours * (c - v)
            pays[j] += tariff_hours * b + free_deal_hours * v
        return gains + [x for pay in pays for x in (pay, commission(pay))]


def commission(euros):
    """65 per mille of the first 200 euros, 42 of the next 600, 25 of the rest; added, then rounded to the cent, a half going up."""
    per_mille_cents = 100 * (65 * min(euros, 200) + 42 * min(max(euros - 200, 0), 600) + 25 * max(euros - 800, 0))
    return math.floor(fractions.Fraction(per_mille_cents, 1000) + fractions.Fraction(1, 2))


def account(ticket_data, settlement_data):
    ticket = Ticket(unpack(ticket_data))
    settlement = Settlement(ticket, read_settlement(settlement_data, ticket.n, ticket.m))
    if settlement.verdict()[0] != 1:
        raise Refused(17)
    return settlement.account()


def mark(ticket_data, settlement_data):
    ticket = Ticket(unpack(ticket_data))
    return Settlement(ticket, read_settlement(settlement_data, ticket.n, ticket.m)).verdict()


def worth(ticket_data, settlement_data):
    """The number of the verdict, and the worth."""
    ticket = Ticket(unpack(ticket_data))
    settlement = Settlement(ticket, read_settlement(settlement_data, ticket.n, ticket.m))
    return settlement.verdict()[0], settlement.total()


# The open market


class OpenMarket:
    """A ticket and the calls that change it. Each raises a refusal, or returns once the ticket is changed."""

    def __init__(self, data):
        self.ticket = Ticket(unpack(data))

    def hours(self, party):
        return (self.ticket.grower_hours, self.ticket.pilot_hours)[party]

    def find(self, party, who):
        if who >= len(self.hours(party)):
            raise Refused(19)

    def set_hours(self, party, who, hours):
        self.find(party, who)
        if hours > 60:
            raise Refused(20)
        self.hours(party)[who] = hours
        if hours == 0:
            for pair in self.ticket.pairs:
                if pair[party] == who:
                    self.ticket.terms[pair] = [0] * 5

    def set_pair(self, grower, pilot, *terms):
        self.find(GROWER, grower)
        self.find(PILOT, pilot)
        tariff_cap, a, b, free_cap, c = terms
        for cap, amounts in (tariff_cap, (a, b)), (free_cap, (c,)):
            if cap > 60 or any(amount > 500 for amount in amounts):
                raise Refused(20)
            if cap == 0 and any(amounts):
                raise Refused(20)
            if cap > 0 and 0 in (self.hours(GROWER)[grower], self.hours(PILOT)[pilot]):
                raise Refused(20)
        self.ticket.terms[grower, pilot] = list(terms)


# Weekly windows


def hours_within(windows):
    """The hours in a party's windows, each a bit of a number. A window is a first hour and a closing hour."""
    hours = closed = 0
    for first, closing in windows:
        if closing <= first or closing > WEEK or first < closed:
            raise Refused(22)
        hours |= sum(1 << hour for hour in range(first, closing))
        closed = closing
    return hours


def hours_of_parties(parties, numbers):
    """The hours of each of so many parties, of a list with a count and two hours a window for each."""
    of_parties = []
    for _ in range(parties):
        count, numbers = numbers[:1], numbers[1:]
        if not count or count[0] > 8 or len(numbers) < 2 * count[0]:
            raise Refused(21)
        own, numbers = numbers[: 2 * count[0]], numbers[2 * count[0] :]
        of_parties.append(hours_within(zip(own[::2], own[1::2])))
    if numbers:
        raise Refused(21)
    return of_parties


def narrow(data, numbers):
    """The file of the new ticket that windows make of a ticket's."""
    ticket = Ticket(unpack(data))
    of_parties = hours_of_parties(ticket.n + ticket.m, numbers)
    for grower, pilot in ticket.pairs:
        common = bin(of_parties[grower] & of_parties[ticket.n + pilot]).count("1")
        tariff_cap, a, b, free_cap, c = ticket.terms[grower, pilot]
        tariff_cap = min(tariff_cap, common)
        free_cap = min(free_cap, common - tariff_cap)
        tariff_deal = [tariff_cap, a, b] if tariff_cap > 0 else [0, 0, 0]
        free_deal = [free_cap, c] if free_cap > 0 else [0, 0]
        ticket.terms[grower, pilot] = tariff_deal + free_deal
    return pack(ticket.numbers())


# The lines of the cases


def decimal(word, most):
    if not word or any(digit not in "0123456789" for digit in word) or int(word) > most:
        raise NotUnderstood
    return int(word)


def hexadecimal(word):
    if not word or any(digit not in "0123456789abcdef" for digit in word) or int(word, 16) > 0xFF:
        raise NotUnderstood
    return int(word, 16)


def document(text, number):
    """A list of numbers: `x *3` is x three times, `( x y ) *3` is x y three times."""
    numbers, item, group = [], 0, 0
    for word in filter(None, text.split(" ")):
        if word == "(":
            group = len(numbers)
        elif word == ")":
            item = group
        elif word[0] == "*":
            times = decimal(word[1:], 99999)
            if times == 0:
                raise NotUnderstood
            numbers += numbers[item:] * (times - 1)
        else:
            item = len(numbers)
            numbers.append(number(word))
        if len(numbers) > LONGEST:
            raise NotUnderstood
    return numbers


def list_word(word):
    return decimal(word, 0xFFFF)


# Answers


def reply(work, room, spell):
    """An operation that writes a list or bytes into a lent buffer of `room` places, all of them or none."""
    try:
        written = work()
        if len(written) > room:
            raise Refused(10)
    except Refused as refusal:
        return "  refused %d, %d kept\n" % (refusal.why, room)
    return "  done %d, %d kept:%s\n" % (len(written), room - len(written), "".join(" " + spell(x) for x in written))


def hex_byte(x):
    return "%02x" % x


def verdict_line(work):
    try:
        return "  %d %d %d %s %d\n" % work()
    except Refused as refusal:
        return "  refused %d\n" % refusal.why


def worth_line(work):
    try:
        return "  %d worth %d\n" % work()
    except Refused as refusal:
        return "  refused %d\n" % refusal.why


def account_line(work):
    try:
        listed = work()
        return "  done %d:%s\n" % (len(listed), "".join(" %d" % x for x in listed))
    except Refused as refusal:
        return "  refused %d\n" % refusal.why


WRONG = "  WRONG: "


def wrong(what):
    return WRONG + what + "\n"


def settled(data, room, answer):
    """The expected answer to `settle`, given the program's own."""
    try:
        ticket = Ticket(unpack(data))
        if room < 3 + 4 * ticket.n * ticket.m:
            raise Refused(10)
    except Refused as refusal:
        return "  refused %d, %d kept\n" % (refusal.why, room)
    head, _, listed = answer.partition("\n")[0].partition(":")
    if not head.startswith("  done "):
        return wrong("the ticket can be settled")
    try:
        written = [hexadecimal(word) for word in listed.split()]
        verdict = Settlement(ticket, read_settlement(written, ticket.n, ticket.m)).verdict()
    except NotUnderstood:
        return wrong("no bytes")
    except Refused as refusal:
        return wrong("no settlement of this ticket, refused with %d" % refusal.why)
    if verdict != (1, 0, 0, TARIFF, 2 * ticket.n * ticket.m):
        return wrong("not sound, verdict %d %d %d %s %d" % verdict)
    return reply(lambda: written, room, hex_byte) + verdict_line(lambda: verdict)


def shown_settlement(ticket, text):
    """The settlement that a sheet shows, if it is laid out as a sheet of this ticket."""
    rows = {pair: [0, 0, 0] for pair in ticket.pairs}
    for line in text.split("\n")[1:-2]:
        i, j, tariff_hours, _, _, free_deal_hours, _, v = (int(word) for word in line.split(" "))
        rows[i, j] = [tariff_hours, free_deal_hours, v]
    return Settlement(ticket, [2, ticket.n, ticket.m, *itertools.chain(*rows.values())])


def sound_sheet(ticket, text):
    """The sheet of the settlement that a text shows, if it is a sound one of this ticket."""
    try:
        settlement = shown_settlement(ticket, text)
    except (ValueError, KeyError):
        return wrong("not laid out as a sheet")
    verdict = settlement.verdict()
    if verdict[0] != 1:
        return wrong("shows a settlement with verdict %d %d %d %s %d" % verdict)
    return settlement.sheet()


def sheet(data, room, answer):
    """The expected answer to `sheet`, given the program's own."""
    try:
        ticket = Ticket(unpack(data))
    except Refused as refusal:
        return text_reply("REFUSED %d\n" % refusal.why, room)
    if room < 24 + 32 * ticket.n * ticket.m:
        return no_room(room)
    head, _, text = answer.partition("\n")
    if not head.startswith("  done "):
        return wrong("the ticket can be settled")
    text = sound_sheet(ticket, text)
    return text if text.startswith(WRONG) else text_reply(text, room)


def numeral(parts):
    """A number in decimal at the end of DIGITS places, given by its parts of 16 bits."""
    text = str(functools.reduce(lambda number, part: (number * 2**16 + part) % 2**64, parts, 0))
    first = DIGITS - len(text)
    return "  from %d, %d kept: %s\n" % (first, first, text)


def no_room(room):
    return "  refused 10, %d kept\n" % room


def text_reply(text, room):
    if room < len(text):
        return no_room(room)
    return "  done %d, %d kept\n%s" % (len(text), room - len(text), text)


def answer_to(line, own):
    """The expected answer to a line. `own` is the program's."""
    words = line.split(" ")
    operation = words[0]
    if operation in ("mark", "worth", "account"):
        ticket, _, settlement = line[len(operation) + 1 :].partition("/")
        ticket, settlement = document(ticket, hexadecimal), document(settlement, hexadecimal)
        if operation == "mark":
            return verdict_line(lambda: mark(ticket, settlement))
        if operation == "worth":
            return worth_line(lambda: worth(ticket, settlement))
        return account_line(lambda: account(ticket, settlement))
    if operation == "numeral":
        parts, _, second = line[len(operation) + 1 :].partition("/")
        if document(second, list_word):
            raise NotUnderstood
        return numeral(document(parts, list_word))
    heads = {"unpack": 1, "pack": 1, "read": 3, "write": 3, "settle": 1, "sheet": 1, "windows": 1}
    if operation not in heads or len(words) <= heads[operation]:
        raise NotUnderstood
    *parties, room = words[1 : 1 + heads[operation]]
    parties = [decimal(word, 99999) for word in parties]
    room = decimal(room, ROOM)
    text, _, second = " ".join(words[1 + heads[operation] :]).partition("/")
    number = list_word if operation in ("pack", "write") else hexadecimal
    data = document(text, number)
    if operation == "windows":
        windows = document(second, list_word)
        return reply(lambda: narrow(data, windows), room, hex_byte)
    if document(second, number):
        raise NotUnderstood
    if operation == "unpack":
        return reply(lambda: unpack(data), room, str)
    if operation == "pack":
        return reply(lambda: pack(data), room, hex_byte)
    if operation == "read":
        return reply(lambda: read_settlement(data, *parties), room, str)
    if operation == "write":
        return reply(lambda: write_settlement(data, *parties), room, hex_byte)
    return (settled if operation == "settle" else sheet)(data, room, own)


# The lines of a desk


class Desk:
    """A desk's answers, line by line. `own` has the lines that the program printed, of which each answer takes its part."""

    def __init__(self, data, own):
        self.market = OpenMarket(data)
        self.own = own
        # The sheet and the free hours, once they were printed and while no call was accepted since.
        self.shown = None
        self.free = None

    def take(self, count):
        """The program's next lines, fewer at their end."""
        taken, self.own = self.own[:count], self.own[count:]
        return taken

    def answer(self, line):
        words = re.findall(r"[^ \t\r]+", line)
        if not words and len(line) <= LONGEST_LINE:
            return ""
        try:
            if len(line) > LONGEST_LINE:
                raise NotUnderstood
            return self.spoken(words)
        except NotUnderstood:
            self.take(1)
            return "?\n"

    def spoken(self, words):
        if len(words) == 4 and words[0] in ("grower", "pilot") and words[2] == "hours":
            party = GROWER if words[0] == "grower" else PILOT
            who, hours = (list_word(word) for word in (words[1], words[3]))
            return self.call(lambda: self.market.set_hours(party, who, hours))
        if len(words) == 8 and words[0] == "pair":
            numbers = [list_word(word) for word in words[1:]]
            return self.call(lambda: self.market.set_pair(*numbers))
        if words == ["sheet"]:
            return self.sheet()
        if words == ["free"]:
            return self.free_hours()
        if words == ["ticket"]:
            listed = ticket_lines(self.market.ticket)
            self.take(len(listed))
            return "".join(line + "\n" for line in listed)
        if words == ["help"]:
            return self.help()
        if len(words) == 3 and words[0] == "save":
            return self.saved()
        raise NotUnderstood

    def call(self, change):
        self.take(1)
        try:
            change()
        except Refused as refusal:
            return "REFUSED %d\n" % refusal.why
        self.shown = self.free = None
        return "OK\n"

    def sheet(self):
        length = next((k + 1 for k, line in enumerate(self.own) if line.startswith("SOUND ")), 1)
        own = "".join(line + "\n" for line in self.take(length))
        expected = sound_sheet(self.market.ticket, own)
        if expected.startswith(WRONG):
            return expected
        if self.shown not in (None, expected):
            return wrong("another sheet than before, though no call was accepted")
        if self.free not in (None, free_lines(shown_settlement(self.market.ticket, expected))):
            return wrong("leaves other free hours than were printed before")
        self.shown = expected
        return expected

    def free_hours(self):
        own = self.take(2)
        if self.shown is not None:
            expected = free_lines(shown_settlement(self.market.ticket, self.shown))
        elif self.free is not None:
            expected = self.free
        elif may_be_free(self.market.ticket, own):
            expected = own
        else:
            return wrong("not everybody's free hours, whatever the settlement")
        self.free = expected
        return "".join(line + "\n" for line in expected)

    def help(self):
        kinds = ("grower", "pilot", "pair", "sheet", "free", "ticket", "save", "help")
        own = self.take(len(kinds))
        if [line.split(" ")[0] for line in own] != list(kinds):
            return wrong("not a line for each kind of line")
        return "".join(line + "\n" for line in own)

    def saved(self):
        own = self.take(1)
        return own[0] + "\n" if own in (["OK"], ["FAILED"]) else wrong("neither OK nor FAILED")


def free_lines(settlement):
    """Everybody's free hours, a line for the growers and one for the pilots."""
    ticket = settlement.ticket
    return [
        " ".join([name, *(str(settlement.free_hours(party, who)) for who in range(parties))])
        for name, party, parties in (("growers", GROWER, ticket.n), ("pilots", PILOT, ticket.m))
    ]


def may_be_free(ticket, lines):
    """Whether two lines are laid out as everybody's free hours, and some settlement may leave so many of this ticket's."""
    if len(lines) != 2:
        return False
    in_deals = []
    for line, name, all_hours in zip(lines, ("growers", "pilots"), (ticket.grower_hours, ticket.pilot_hours)):
        if not re.fullmatch(name + r"( (0|[1-9][0-9]*)){%d}" % len(all_hours), line):
            return False
        figures = [int(word) for word in line.split(" ")[1:]]
        if any(free > hours for free, hours in zip(figures, all_hours)):
            return False
        in_deals.append(sum(all_hours) - sum(figures))
    return in_deals[0] == in_deals[1]


def ticket_lines(ticket):
    """A ticket as `exchange unpack` prints it."""
    lines = ["ticket kind 1 growers %d pilots %d" % (ticket.n, ticket.m)]
    for name, all_hours in ("grower", ticket.grower_hours), ("pilot", ticket.pilot_hours):
        lines += ["%s %d hours %d" % (name, who, hours) for who, hours in enumerate(all_hours)]
    for pair, terms in ticket.terms.items():
        lines.append("pair %d %d tariff cap %d gain %d pay %d free cap %d joint gain %d" % (*pair, *terms))
    return lines


def desk_report(data, lines, own):
    """What a desk that was opened with a ticket must print for these lines. `own` has the lines that the program printed."""
    try:
        desk = Desk(data, own)
    except Refused as refusal:
        return "REFUSED %d\n" % refusal.why
    return "".join(desk.answer(line) for line in lines)


# Reports


def echo(line):
    return (line[:SHOWN] + " .." if len(line) > SHOWN else line) + "\n"


def own_answers(lines, output):
    """The program's answer to each line but the last: what it printed between that line and the next."""
    answers, at = [], 0
    for line, following in zip(lines, lines[1:]):
        if output.startswith(echo(line), at):
            at += len(echo(line))
        end = max(at, output.find("\n" + echo(following), at - 1) + 1)
        answers.append(output[at:end])
        at = end
    return answers


def cases_report(text, output):
    lines = text.split("\n")[:-1]
    last = "  %d bytes read" % len(text)
    answers = own_answers(lines + [last], output)
    run = unknown = 0
    report = []
    for line, own in zip(lines, answers):
        report.append(echo(line))
        if line and not line.startswith("#"):
            try:
                report.append(answer_to(line, own))
                run += 1
            except NotUnderstood:
                report.append("  ?\n")
                unknown += 1
    return "".join(report) + echo(last) + "  %d cases\n  %d not understood\n" % (run, unknown)


def text_of(name):
    with open(name, encoding="latin-1", newline="") as file:
        return file.read()


def main():
    if sys.argv[1] == "desk":
        with open(sys.argv[2], "rb") as ticket:
            data = list(ticket.read())
        sys.stdout.write(desk_report(data, *(text_of(name).removesuffix("\n").split("\n") for name in sys.argv[3:5])))
    else:
        sys.stdout.write(cases_report(*(text_of(name) for name in sys.argv[1:3])))


main()
