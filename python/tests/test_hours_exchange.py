"""Tries the module over the library that HOURS_EXCHANGE_LIBRARY names:

    HOURS_EXCHANGE_LIBRARY=target/make/libhours_exchange.so.1 PYTHONPATH=python python3 -m unittest discover -s python/tests
"""

import os
import random
import re
import subprocess
import sys
import threading
import unittest
from pathlib import Path

import hours_exchange
from hours_exchange import Account, Deal, Flown, Mark, Market, Refusal, Refused, Settlement, Terms, Ticket, Verdict

ROOT = Path(__file__).resolve().parents[2]
EXAMPLES = ROOT / "examples"

REFUSALS = range(1, 23)  # all of docs/FORMAT.md
TARIFF, FREE = Deal.TARIFF, Deal.FREE

# The tickets A to D and the ten sittings of the paper: verdict, grower, pilot, deal, count.
TICKETS = {
    "A": bytes.fromhex("01 01 01 03 02 01 04 03 00 00"),
    "B": bytes.fromhex("01 01 02 01 01 01 00 00 00 01 0A 00 00 00 01 07"),
    "C": bytes.fromhex("01 01 01 01 01 01 05 05 01 0C"),
    "D": bytes.fromhex("01 01 01 01 02 00 00 00 02 0A"),
}
SITTINGS = [
    ("A", "02 01 01 01 00 00", (1, 0, 0, TARIFF, 2)),
    ("A", "02 01 01 00 00 00", (7, 0, 0, TARIFF, 1)),
    ("A", "02 01 01 02 00 00", (2, 0, 0, TARIFF, 0)),
    ("A", "02 01 01 01 00 05", (4, 0, 0, FREE, 0)),
    ("B", "02 01 02 00 01 03 00 00 00", (1, 0, 0, TARIFF, 4)),
    ("B", "02 01 02 00 01 04 00 00 00", (8, 0, 1, FREE, 4)),
    ("B", "02 01 02 00 00 00 00 01 00", (8, 0, 0, FREE, 2)),
    ("C", "02 01 01 01 00 00", (8, 0, 0, FREE, 2)),
    ("C", "02 01 01 00 01 0C", (1, 0, 0, TARIFF, 2)),
    ("D", "02 01 01 00 01 05", (1, 0, 0, TARIFF, 2)),
]

# The settlements in examples: their ticket, and the mark or the refusal.
EXAMPLE_MARKS = [
    ("small", "small-no_hours", (7, 0, 0, TARIFF, 1)),
    ("two_pilots", "two_pilots-sound", (1, 0, 0, TARIFF, 4)),
    ("two_pilots", "two_pilots-pay_above_3", (8, 0, 1, FREE, 4)),
    ("both_deals", "both_deals-sound", (1, 0, 0, TARIFF, 2)),
    ("both_deals", "both_deals-tariff_hour", (8, 0, 0, FREE, 2)),
    ("week", "week-sound", (1, 0, 0, TARIFF, 18)),
    ("week", "week-one_hour_less", (7, 0, 0, TARIFF, 1)),
    ("week", "week-grower_over_hours", (5, 1, 0, TARIFF, 0)),
    ("week_pilot_off", "week-sound", 18),
    ("week", "week-cut_short", 11),
    ("week", "small-no_hours", 15),
]

# The ticket's refusals, each by bytes that have no other fault before it.
REFUSED_TICKETS = [
    ("", 1),
    ("01 01 01 03", 1),
    ("80 80", 2),
    ("81 00", 3),
    ("02", 4),
    ("01 00", 5),
    ("01 11", 5),
    ("01 01 01 3D", 6),
    ("01 01 01 03 02 3D", 7),
    ("01 01 01 03 02 01 F5 03", 7),
    ("01 01 01 03 02 00 01", 8),
    ("01 01 01 03 02 01 04 03 00 00 00", 9),
    ("01 01 01 00 02 01", 18),
]

# Those of a settlement of ticket A.
REFUSED_SETTLEMENTS = [
    ("", 11),
    ("02 80 80", 12),
    ("02 81 00", 13),
    ("01", 14),
    ("02 02", 15),
    ("02 01 01 01 00 00 00", 16),
]


def example(name: str) -> bytes:
    return (EXAMPLES / name).read_bytes()


def values(mark: Mark):
    return int(mark.verdict), mark.grower, mark.pilot, mark.deal, mark.count


def drawn_ticket(draw: random.Random) -> Ticket:
    """A ticket that passes its checks."""
    growers, pilots = draw.randint(1, 16), draw.randint(1, 16)
    hours = tuple(draw.randint(0, 12) for _ in range(growers)), tuple(draw.randint(0, 12) for _ in range(pilots))

    def terms(grower, pilot):
        most = 5 if hours[0][grower] and hours[1][pilot] else 0
        tariff, free = draw.randint(0, most), draw.randint(0, most)
        gain, pay = (draw.randint(0, 500), draw.randint(0, 500)) if tariff else (0, 0)
        return Terms(tariff, gain, pay, free, draw.randint(0, 500) if free else 0)

    return Ticket(*hours, tuple(tuple(terms(i, j) for j in range(pilots)) for i in range(growers)))


class Texts(unittest.TestCase):
    def test_every_refusal_has_words_of_its_own(self):
        texts = [hours_exchange.refusal_text(number) for number in REFUSALS]
        self.assertTrue(all(texts))
        self.assertEqual(len(set(texts)), len(texts), texts)

    def test_every_verdict_has_words(self):
        texts = {verdict: hours_exchange.verdict_text(verdict) for verdict in Verdict}
        self.assertTrue(all(texts.values()))
        # A deal over its cap is one fault, whichever deal it is, and so is a party over its hours.
        same = {Verdict.FREE_OVER_CAP: Verdict.TARIFF_OVER_CAP, Verdict.PILOT_OVER_HOURS: Verdict.GROWER_OVER_HOURS}
        distinct = {same.get(verdict, verdict) for verdict in Verdict}
        self.assertEqual(len({texts[verdict] for verdict in distinct}), len(distinct), texts)

    def test_every_refusal_has_a_name(self):
        self.assertEqual([int(refusal) for refusal in Refusal], list(REFUSALS))

    def test_known_words(self):
        self.assertEqual(hours_exchange.refusal_text(1), "ticket: it ends early")
        self.assertEqual(hours_exchange.refusal_text(11), "settlement: it ends early")
        self.assertEqual(hours_exchange.refusal_text(7), "ticket: a cap above 60 or an amount above 500")
        self.assertEqual(hours_exchange.verdict_text(8), "blocks")

    def test_the_exception_says_number_and_words(self):
        with self.assertRaises(Refused) as caught:
            Ticket.from_bytes(b"")
        self.assertIsInstance(caught.exception, ValueError)
        self.assertEqual(caught.exception.number, 1)
        self.assertEqual(str(caught.exception), "1: ticket: it ends early")


class Refusals(unittest.TestCase):
    def refused(self, number, function, *arguments):
        with self.assertRaises(Refused) as caught:
            function(*arguments)
        self.assertEqual(caught.exception.number, number)
        self.assertEqual(caught.exception.text, hours_exchange.refusal_text(number))

    def test_tickets(self):
        sound = bytes.fromhex(SITTINGS[0][1])
        for code, number in REFUSED_TICKETS:
            data = bytes.fromhex(code)
            with self.subTest(ticket=code):
                self.refused(number, Ticket.from_bytes, data)
                self.refused(number, hours_exchange.settle, data)
                self.refused(number, hours_exchange.sheet, data)
                self.refused(number, hours_exchange.mark, data, sound)
                self.refused(number, hours_exchange.account, data, sound)
                self.refused(number, hours_exchange.windows, data, [[], []])
                self.refused(number, Market, data)

    def test_settlements(self):
        for code, number in REFUSED_SETTLEMENTS:
            data = bytes.fromhex(code)
            with self.subTest(settlement=code):
                self.refused(number, hours_exchange.mark, TICKETS["A"], data)
                self.refused(number, hours_exchange.account, TICKETS["A"], data)
                self.refused(number, hours_exchange.read_settlement, data, 1, 1)

    def test_settlements_by_the_parties_that_they_name(self):
        for code, number in [("", 11), ("02", 11), ("02 00", 15), ("02 11", 15), ("02 01 FF", 11), ("02 02 01 00 00 00", 11), ("01 02 01", 14)]:
            with self.subTest(settlement=code):
                self.refused(number, Settlement.from_bytes, bytes.fromhex(code))

    def test_lists(self):
        self.refused(1, Ticket.from_numbers, [1, 1, 1])
        self.refused(9, Ticket.from_numbers, [*Ticket.from_bytes(TICKETS["A"]).numbers, 0])
        self.refused(7, Ticket((3,), (2,), ((Terms(tariff_cap=61),),)).to_bytes)
        self.refused(5, Ticket((), (), ()).to_bytes)
        self.refused(11, hours_exchange.write_settlement, [2, 1, 1, 1, 0], 1, 1)
        self.refused(15, hours_exchange.write_settlement, [2, 1, 1, 1, 0, 0], 1, 2)
        self.refused(16, hours_exchange.write_settlement, [2, 1, 1, 1, 0, 0, 0], 1, 1)

    def test_account_of_what_is_not_sound(self):
        self.refused(17, hours_exchange.account, TICKETS["A"], bytes.fromhex("02 01 01 00 00 00"))

    def test_windows(self):
        self.refused(21, hours_exchange.windows, TICKETS["A"], [[(0, 168)]])
        self.refused(21, hours_exchange.windows, TICKETS["A"], [[(0, 168)], [], []])
        self.refused(22, hours_exchange.windows, TICKETS["A"], [[(8, 8)], []])
        self.refused(22, hours_exchange.windows, TICKETS["A"], [[(0, 9), (8, 10)], []])

    def test_what_is_no_number_of_16_bits_is_not_cut(self):
        for hours in (-1, 65536 + 3):
            with self.subTest(hours=hours), self.assertRaises(ValueError) as caught:
                Ticket((hours,), (2,), ((Terms(),),)).to_bytes()
            self.assertNotIsInstance(caught.exception, Refused)

    def test_pairs_that_are_no_rectangle(self):
        with self.assertRaises(ValueError):
            Ticket((3, 3), (2,), ((Terms(), Terms()),))
        with self.assertRaises(ValueError):
            Settlement(((Flown(), Flown()), (Flown(),)))


class Documents(unittest.TestCase):
    def test_tickets_of_the_examples(self):
        for path in sorted(EXAMPLES.glob("*.ticket")):
            data = path.read_bytes()
            with self.subTest(ticket=path.name):
                if path.stem == "week_pilot_off":
                    continue
                ticket = Ticket.from_bytes(data)
                self.assertEqual(ticket.to_bytes(), data)
                self.assertEqual(Ticket.from_numbers(ticket.numbers), ticket)

    def test_settlements_of_the_examples(self):
        for path in sorted(EXAMPLES.glob("*.settlement")):
            data = path.read_bytes()
            with self.subTest(settlement=path.name):
                if path.stem == "week-cut_short":
                    continue
                settlement = Settlement.from_bytes(data)
                self.assertEqual(settlement.to_bytes(), data)
                self.assertEqual(hours_exchange.read_settlement(data, settlement.growers, settlement.pilots), settlement)

    def test_a_ticket_read(self):
        self.assertEqual(
            Ticket.from_bytes(TICKETS["B"]),
            Ticket((1,), (1, 1), ((Terms(free_cap=1, joint_gain=10), Terms(free_cap=1, joint_gain=7)),)),
        )

    def test_a_settlement_read(self):
        settlement = Settlement.from_bytes(bytes.fromhex("02 01 02 00 01 03 00 00 00"))
        self.assertEqual(settlement, Settlement(((Flown(0, 1, 3), Flown()),)))

    def test_numbers_of_two_bytes(self):
        settlement = Settlement(tuple(tuple(Flown(16383, 128, 127) for _ in range(16)) for _ in range(16)))
        data = settlement.to_bytes()
        self.assertEqual(len(data), 3 + 256 * 5)
        self.assertEqual(Settlement.from_bytes(data), settlement)

    def test_drawn_tickets_settle_soundly(self):
        draw = random.Random(24)
        for _ in range(200):
            ticket = drawn_ticket(draw)
            self.assertEqual(Ticket.from_bytes(ticket.to_bytes()), ticket)
            settlement = hours_exchange.settle(ticket)
            self.assertEqual((settlement.growers, settlement.pilots), (ticket.growers, ticket.pilots))
            mark = hours_exchange.mark(ticket, settlement)
            self.assertTrue(mark.is_sound)
            self.assertEqual(mark.count, 2 * ticket.growers * ticket.pilots)
            self.assertEqual(Settlement.from_bytes(settlement.to_bytes()), settlement)


class Marks(unittest.TestCase):
    def test_the_sittings_of_the_paper(self):
        for name, code, expected in SITTINGS:
            with self.subTest(ticket=name, settlement=code):
                mark = hours_exchange.mark(TICKETS[name], bytes.fromhex(code))
                self.assertEqual(values(mark), expected)
                self.assertEqual(mark.is_sound, expected[0] == 1)
                self.assertEqual(mark.text, hours_exchange.verdict_text(expected[0]))

    def test_the_examples(self):
        for ticket, settlement, expected in EXAMPLE_MARKS:
            with self.subTest(ticket=ticket, settlement=settlement):
                files = example(f"{ticket}.ticket"), example(f"{settlement}.settlement")
                if isinstance(expected, int):
                    with self.assertRaises(Refused) as caught:
                        hours_exchange.mark(*files)
                    self.assertEqual(caught.exception.number, expected)
                else:
                    self.assertEqual(values(hours_exchange.mark(*files)), expected)

    def test_documents_mark_as_their_bytes_do(self):
        ticket, settlement = TICKETS["B"], bytes.fromhex(SITTINGS[5][1])
        self.assertEqual(
            hours_exchange.mark(Ticket.from_bytes(ticket), Settlement.from_bytes(settlement)),
            hours_exchange.mark(ticket, settlement),
        )

    def test_worth(self):
        self.assertEqual(hours_exchange.mark(TICKETS["B"], bytes.fromhex(SITTINGS[4][1])).worth, 10)
        self.assertEqual(hours_exchange.mark(TICKETS["B"], bytes.fromhex(SITTINGS[5][1])).worth, 0)
        self.assertEqual(hours_exchange.mark(TICKETS["A"], bytes.fromhex(SITTINGS[0][1])).worth, 0)

    def test_in_words(self):
        said = [str(hours_exchange.mark(TICKETS[name], bytes.fromhex(code))) for name, code, _ in SITTINGS]
        self.assertEqual(said[5], "grower 0, pilot 1, free deal: blocks")
        self.assertEqual(said[2], "grower 0, pilot 0, tariff deal: " + hours_exchange.verdict_text(2))
        week = example("week.ticket")
        self.assertEqual(
            str(hours_exchange.mark(week, example("week-grower_over_hours.settlement"))),
            "grower 1: " + hours_exchange.verdict_text(5),
        )


class Accounts(unittest.TestCase):
    def test_week(self):
        account = hours_exchange.account(example("week.ticket"), example("week-sound.settlement"))
        self.assertEqual(account, Account((140, 60, 210), (300, 280, 285), (1720, 1636, 1657)))

    def test_of_the_paper(self):
        account = hours_exchange.account(TICKETS["A"], bytes.fromhex("02 01 01 01 00 00"))
        self.assertEqual(account, Account((4,), (3,), (20,)))


class Sheets(unittest.TestCase):
    def test_of_the_paper(self):
        self.assertEqual(hours_exchange.sheet(TICKETS["A"]), "SHEET 1 1\n0 0 1 4 3 0 0 0\nSOUND 2\n")

    def test_it_shows_what_settle_writes(self):
        ticket = Ticket.from_bytes(example("week.ticket"))
        settlement = hours_exchange.settle(ticket)
        lines = hours_exchange.sheet(ticket).splitlines()
        self.assertEqual(lines[0], "SHEET 3 3")
        self.assertEqual(lines[-1], "SOUND 18")
        shown = {}
        for line in lines[1:-1]:
            grower, pilot, tariff, gain, pay, free, share, free_pay = map(int, line.split())
            shown[grower, pilot] = Flown(tariff, free, free_pay)
            terms = ticket.pairs[grower][pilot]
            self.assertEqual((gain, pay), (terms.tariff_gain, terms.tariff_pay))
            self.assertEqual(share, terms.joint_gain - free_pay if free else 0)
        for grower, row in enumerate(settlement.pairs):
            for pilot, flown in enumerate(row):
                self.assertEqual(shown.get((grower, pilot), Flown()), flown)


class Windows(unittest.TestCase):
    def test_six_hours_in_common(self):
        ticket = bytes.fromhex("01 01 01 09 09 05 04 03 04 0A")
        narrowed = hours_exchange.windows(ticket, [[(8, 16)], [(10, 20)]])
        self.assertEqual(narrowed.to_bytes(), bytes.fromhex("01 01 01 09 09 05 04 03 01 0A"))
        narrowed = hours_exchange.windows(ticket, [[(8, 12)], [(10, 20)]])
        self.assertEqual(narrowed.to_bytes(), bytes.fromhex("01 01 01 09 09 02 04 03 00 00"))

    def test_the_whole_week_changes_nothing(self):
        ticket = Ticket.from_bytes(example("week.ticket"))
        self.assertEqual(hours_exchange.windows(ticket, [[(0, 168)]] * 6), ticket)


class Markets(unittest.TestCase):
    def flown(self, market, grower=None, pilot=None):
        return sum(
            flown.tariff_hours + flown.free_deal_hours
            for i, row in enumerate(market.settlement.pairs)
            for j, flown in enumerate(row)
            if grower in (None, i) and pilot in (None, j)
        )

    def holds(self, market):
        """What is held is sound, and its free hours are what it leaves."""
        ticket, settlement = market.ticket, market.settlement
        self.assertTrue(hours_exchange.mark(ticket, settlement).is_sound)
        free = tuple(hours - self.flown(market, grower=i) for i, hours in enumerate(ticket.grower_hours))
        self.assertEqual(market.grower_free_hours, free)
        free = tuple(hours - self.flown(market, pilot=j) for j, hours in enumerate(ticket.pilot_hours))
        self.assertEqual(market.pilot_free_hours, free)

    def test_a_week(self):
        ticket = Ticket.from_bytes(example("week.ticket"))
        market = Market(ticket)
        self.assertEqual(market.ticket, ticket)
        self.holds(market)
        market.set_pilot_hours(1, 0)
        self.assertEqual(market.ticket.pilot_hours, (5, 0, 5))
        self.assertEqual([row[1] for row in market.ticket.pairs], [Terms()] * 3)
        self.holds(market)
        terms = Terms(tariff_cap=3, tariff_gain=40, tariff_pay=50, free_cap=2, joint_gain=100)
        market.set_pair(1, 2, terms)
        self.assertEqual(market.ticket.pairs[1][2], terms)
        self.holds(market)
        market.set_grower_hours(0, 2)
        self.assertEqual(market.ticket.grower_hours, (2, 4, 5))
        self.holds(market)

    def test_refused_calls_change_nothing(self):
        market = Market(example("week.ticket"))
        before = market.ticket, market.settlement, market.grower_free_hours, market.pilot_free_hours
        for number, call in [
            (19, lambda: market.set_grower_hours(3, 1)),
            (19, lambda: market.set_pilot_hours(16, 1)),
            (19, lambda: market.set_pair(0, 3, Terms())),
            (20, lambda: market.set_pilot_hours(0, 61)),
            (20, lambda: market.set_pair(0, 0, Terms(tariff_gain=1))),
        ]:
            with self.assertRaises(Refused) as caught:
                call()
            self.assertEqual(caught.exception.number, number)
            self.assertEqual((market.ticket, market.settlement, market.grower_free_hours, market.pilot_free_hours), before)

    def test_free_hours_of_the_paper(self):
        market = Market(TICKETS["A"])
        self.assertEqual((market.grower_free_hours, market.pilot_free_hours), ((2,), (1,)))
        market.set_pilot_hours(0, 0)
        self.assertEqual((market.grower_free_hours, market.pilot_free_hours), ((3,), (0,)))


class Packaging(unittest.TestCase):
    def test_version(self):
        self.assertEqual(hours_exchange.__version__, (ROOT / "VERSION").read_text().strip())

    def test_numbers_of_the_header(self):
        header = (ROOT / "include" / "hours_exchange.h").read_text()
        defined = dict(re.findall(r"#define EXCHANGE_(\w+) (\d+)", header))
        for name in ["TICKET_BYTES", "TICKET_NUMBERS", "SETTLEMENT_BYTES", "SETTLEMENT_NUMBERS", "SHEET_BYTES", "ACCOUNT_NUMBERS", "TEXT_BYTES"]:
            self.assertEqual(getattr(hours_exchange, f"_{name}"), int(defined[name]), name)
        for name in ["MARKET_NUMBERS", "PARTIES"]:
            self.assertEqual(getattr(hours_exchange, f"_{name}"), int(defined[name]), name)
        self.assertEqual(hours_exchange._GROWER_FREE_HOURS, int(defined["MARKET_GROWER_FREE_HOURS"]))
        self.assertEqual(hours_exchange._PILOT_FREE_HOURS, int(defined["MARKET_PILOT_FREE_HOURS"]))
        for named in (*Verdict, *Refusal):
            self.assertEqual(named, int(defined[named.name]), named)

    def test_no_library(self):
        environment = dict(os.environ, HOURS_EXCHANGE_LIBRARY="/nonexistent.so", PYTHONPATH=str(ROOT / "python"))
        tried = subprocess.run([sys.executable, "-c", "import hours_exchange"], env=environment, capture_output=True, text=True)
        self.assertEqual(tried.returncode, 1)
        self.assertIn("ImportError: hours_exchange: no library: /nonexistent.so", tried.stderr)

    def test_threads(self):
        draw = random.Random(7)
        tickets = [drawn_ticket(draw) for _ in range(40)]
        expected = [hours_exchange.settle(ticket) for ticket in tickets]
        found = [[] for _ in range(4)]
        threads = [threading.Thread(target=lambda f=f: f.extend(map(hours_exchange.settle, tickets))) for f in found]
        for thread in threads:
            thread.start()
        for thread in threads:
            thread.join()
        self.assertEqual(found, [expected] * 4)


if __name__ == "__main__":
    unittest.main()
