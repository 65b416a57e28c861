"""Tries the installed command, target/make/exchange, or the one that the environment variable EXCHANGE names.

    python3 tests/program.py [-v] [TEST..]

Documents, faults and texts that it must print are worked out in tests/documents.py. Python 3.9 or newer, without packages.
"""

import json
import os
import random
import re
import shutil
import signal
import stat
import subprocess
import tempfile
import time
import unittest
from pathlib import Path

import documents
from documents import FREE, TARIFF, Settlement, Ticket, encoded

ROOT = Path(__file__).resolve().parents[1]
EXAMPLES = ROOT / "examples"
PROGRAM = os.environ.get("EXCHANGE", str(ROOT / "target" / "make" / "exchange"))
COMMANDS = ["sheet", "settle", "mark", "account", "unpack", "pack", "draw", "windows", "desk"]
WEEK = EXAMPLES / "week.ticket"
SOUND = EXAMPLES / "week-sound.settlement"
ONE_LESS = EXAMPLES / "week-one_hour_less.settlement"
CUT_SHORT = EXAMPLES / "week-cut_short.settlement"
PILOT_OFF = EXAMPLES / "week_pilot_off.ticket"
TWO_PILOTS = EXAMPLES / "two_pilots.ticket"

# Ticket A of the paper: its settlements by verdict.
SMALL = Ticket((3,), (2,), (((1, 4, 3, 0, 0),),))

# A ticket with numbers of one byte and of two.
MIXED = Ticket((3, 60), (2, 9), (((1, 400, 3, 2, 10), (0, 0, 0, 5, 128)), ((2, 127, 500, 0, 0), (60, 1, 0, 60, 500))))


def run(*words, feed=b"", **more):
    """What the program answers: exit status, standard output, and the lines of standard error."""
    if "stdin" not in more:
        more["input"] = feed
    more.setdefault("stdout", subprocess.PIPE)
    done = subprocess.run([PROGRAM, *map(str, words)], stderr=subprocess.PIPE, timeout=60, **more)
    return done.returncode, done.stdout, done.stderr.decode().splitlines()


class Tries(unittest.TestCase):
    def setUp(self):
        room = tempfile.TemporaryDirectory()
        self.addCleanup(room.cleanup)
        self.room = Path(room.name)
        self.addCleanup(os.chdir, os.getcwd())
        os.chdir(self.room)

    def file(self, name, content):
        path = self.room / name
        path.write_bytes(content if isinstance(content, bytes) else content.encode())
        return path

    def document(self, name, document):
        return self.file(name, encoded(document.numbers()))

    def done(self, *words, **more):
        """Standard output of a run that must end well and say nothing on standard error."""
        status, said, errors = run(*words, **more)
        self.assertEqual((status, errors), (0, []), words)
        return said

    def settled(self, ticket):
        """A sound settlement, by the program."""
        data = self.done("settle", "-", "-", feed=encoded(ticket.numbers()))
        return documents.settlement_of(documents.decoded(data))

    def fails(self, *words, says=None, **more):
        """A run that must end with 2, print nothing, and say what is wrong in lines that begin as they must."""
        status, said, errors = run(*words, **more)
        self.assertEqual((status, said), (2, b""), (words, errors))
        self.assertTrue(errors, words)
        for line in errors:
            self.assertTrue(line.startswith("exchange: "), line)
        if says is not None:
            self.assertRegex(errors[0], says)
        return errors


class Usage(Tries):
    def test_version(self):
        version = (ROOT / "VERSION").read_text().strip()
        self.assertEqual(self.done("--version"), f"exchange {version}\n".encode())
        header = (ROOT / "include" / "hours_exchange.h").read_text()
        self.assertEqual(re.findall(r'#define EXCHANGE_VERSION "(.*)"', header), [version])
        page = (ROOT / "man" / "exchange.1").read_text()
        self.assertIn(f'"exchange {version}"', page.splitlines()[0])

    def test_help_of_every_command(self):
        overview = self.done("--help").decode()
        self.assertEqual(self.done("help").decode(), overview)
        pages = set()
        for command in COMMANDS:
            with self.subTest(command=command):
                self.assertIn(f"exchange {command} ", overview)
                page = self.done(command, "--help").decode()
                self.assertEqual(self.done("help", command).decode(), page)
                self.assertIn(f"exchange {command} ", page.splitlines()[0])
                self.assertGreaterEqual(len(page.splitlines()), 3, page)
                self.assertGreaterEqual(page.count(f"exchange {command}"), 2, "a form and an example")
                pages.add(page)
        self.assertEqual(len(pages), len(COMMANDS))

    def test_every_option_is_in_the_help_and_in_the_man_page(self):
        options = {"sheet": ["--table", "--names", "--json"], "mark": ["--all", "--model", "--json"], "unpack": ["--json"]}
        page = (ROOT / "man" / "exchange.1").read_text().replace("\\-", "-")
        for command, names in options.items():
            text = self.done(command, "--help").decode()
            for name in names:
                self.assertIn(name, text)
                self.assertIn(name, page)

    def test_nearest_command(self):
        for word, nearest in [("marc", "mark"), ("shet", "sheet"), ("setle", "settle"), ("unpak", "unpack"), ("acount", "account"), ("window", "windows")]:
            with self.subTest(word=word):
                errors = self.fails(word, "a", "b")
                self.assertEqual(errors[0], f"exchange: no command `{word}`; did you mean `{nearest}`?")

    def test_wrong_usage(self):
        for words in [
            (),
            ("mark",),
            ("mark", WEEK),
            ("sheet",),
            ("sheet", WEEK, WEEK),
            ("settle", WEEK),
            ("account", WEEK),
            ("unpack",),
            ("pack", WEEK),
            ("draw", 1, 2, 2),
            ("windows", WEEK, WEEK),
            ("desk",),
            ("sheet", "--wrong", WEEK),
            ("unpack", "--table", WEEK),
            ("sheet", "--names"),
            ("draw", "x", 2, 2, self.room / "t"),
            ("draw", 65536, 2, 2, self.room / "t"),
            ("mark", "-", "-"),
            ("account", "-", "-"),
            ("--wrong",),
        ]:
            with self.subTest(words=words):
                self.fails(*words)
        self.assertEqual(list(self.room.iterdir()), [])

    def test_a_command_says_what_it_needs(self):
        errors = self.fails("mark", WEEK)
        self.assertIn("exchange: mark needs a ticket and a settlement; see exchange mark --help", errors)

    def test_options_stand_anywhere_and_end(self):
        first = self.done("unpack", "--json", WEEK)
        self.assertEqual(self.done("unpack", WEEK, "--json"), first)
        odd = self.file("--json", WEEK.read_bytes())
        self.assertEqual(self.done("unpack", "--json", "--", odd.name, cwd=self.room), first)
        self.assertTrue(self.done("unpack", "--", odd.name, cwd=self.room).startswith(b"ticket kind 1 "))


class Statuses(Tries):
    def test_mark(self):
        for ticket, settlement, expected in [
            (WEEK, SOUND, 0),
            (WEEK, ONE_LESS, 1),
            (WEEK, EXAMPLES / "week-grower_over_hours.settlement", 1),
            (WEEK, CUT_SHORT, 2),
            (PILOT_OFF, SOUND, 2),
            (WEEK, self.room / "missing", 2),
            (self.room / "missing", SOUND, 2),
        ]:
            with self.subTest(ticket=ticket.name, settlement=settlement.name):
                self.assertEqual(run("mark", ticket, settlement)[0], expected)
                self.assertEqual(run("mark", "--json", ticket, settlement)[0], expected)
                self.assertEqual(run("mark", "--all", ticket, settlement)[0], expected)

    def test_the_greatest_of_several_counts(self):
        self.assertEqual(run("mark", WEEK, SOUND, SOUND)[0], 0)
        self.assertEqual(run("mark", WEEK, SOUND, ONE_LESS, SOUND)[0], 1)
        self.assertEqual(run("mark", WEEK, CUT_SHORT, ONE_LESS, SOUND)[0], 2)
        self.assertEqual(run("mark", WEEK, ONE_LESS, self.room / "missing", SOUND)[0], 2)

    def test_account(self):
        self.assertEqual(run("account", WEEK, SOUND)[0], 0)
        self.assertEqual(run("account", WEEK, ONE_LESS)[0], 1)
        self.assertEqual(run("account", WEEK, CUT_SHORT)[0], 2)

    def test_others(self):
        out = self.room / "out"
        text = self.file("text", SMALL.text())
        windows = EXAMPLES / "week.windows"
        for words in [
            ("sheet", WEEK),
            ("settle", WEEK, out),
            ("unpack", WEEK),
            ("unpack", SOUND),
            ("pack", text, out),
            ("draw", 7, 2, 2, out),
            ("windows", WEEK, windows, out),
            ("desk", WEEK),
            ("help",),
        ]:
            with self.subTest(words=words):
                self.done(*words)
        missing = self.room / "missing"
        for words in [
            ("sheet", missing),
            ("settle", missing, out),
            ("unpack", missing),
            ("pack", missing, out),
            ("windows", WEEK, missing, out),
            ("desk", missing),
            ("sheet", "--table", "--names", missing, WEEK),
        ]:
            with self.subTest(words=words):
                self.fails(*words, says=f"^exchange: {re.escape(str(missing))}: No such file or directory$")
        self.fails("settle", WEEK, self.room / "none" / "out", says=f"^exchange: {re.escape(str(self.room / 'none' / 'out'))}: No such file")
        self.fails("unpack", self.room, says=f"^exchange: {re.escape(str(self.room))}: Is a directory$")

    def test_refused(self):
        bad = self.file("bad", b"\x01\x00")
        for words in [("sheet", bad), ("settle", bad, self.room / "out"), ("unpack", bad), ("windows", bad, EXAMPLES / "week.windows", self.room / "out"), ("desk", bad)]:
            with self.subTest(words=words):
                status, said, errors = run(*words)
                self.assertEqual((status, said), (2, b"REFUSED 5\n"))
                self.assertEqual(errors[0], f"exchange: {bad}: ticket: growers or pilots not 1 to 16")
        self.assertEqual(sorted(path.name for path in self.room.iterdir()), ["bad"])
        status, said, errors = run("mark", WEEK, CUT_SHORT)
        self.assertEqual((status, said.splitlines()[0]), (2, b"REFUSED 11"))
        self.assertEqual(errors[0], f"exchange: {CUT_SHORT}: settlement: it ends early")


class Marks(Tries):
    def test_one_settlement_is_marked_in_words(self):
        status, said, errors = run("mark", TWO_PILOTS, EXAMPLES / "two_pilots-pay_above_3.settlement")
        self.assertEqual((status, errors), (1, []))
        self.assertEqual(
            said.decode().splitlines(),
            [
                "MARK 8 0 1 free 4",
                "grower 0, pilot 1, free deal: blocks",
                "an hour more earns them 7 together",
                "grower 0 gives up an hour with pilot 0, free deal, worth 6",
                "pilot 1 gives up a free hour, worth 0",
                *self.done("sheet", TWO_PILOTS).decode().splitlines(),
            ],
        )

    def test_several_are_a_line_each(self):
        status, said, errors = run("mark", WEEK, SOUND, ONE_LESS, CUT_SHORT)
        self.assertEqual(status, 2)
        self.assertEqual(
            said.decode().splitlines(),
            [f"{SOUND}: MARK 1 0 0 tariff 18", f"{ONE_LESS}: MARK 7 0 0 tariff 1", f"{CUT_SHORT}: REFUSED 11"],
        )
        self.assertEqual(errors[0], f"exchange: {CUT_SHORT}: settlement: it ends early")

    def test_model(self):
        sheet = self.done("sheet", WEEK).decode().splitlines()
        said = self.done("mark", "--model", WEEK, SOUND, SOUND).decode().splitlines()
        self.assertEqual(said, [f"{SOUND}: MARK 1 0 0 tariff 18"] * 2 + sheet)

    def test_a_refused_ticket_is_told_once(self):
        for words in [(SOUND,), (SOUND, ONE_LESS, CUT_SHORT)]:
            status, said, errors = run("mark", "--model", PILOT_OFF, *words)
            self.assertEqual((status, said), (2, b"REFUSED 18\n"))
            self.assertEqual(errors[0], f"exchange: {PILOT_OFF}: ticket: a cap above 0, but the grower or the pilot has no hours")

    def test_forty_in_a_fifth_of_a_second(self):
        ticket = self.room / "ticket"
        self.done("draw", 7, 16, 16, ticket)
        data = self.done("settle", ticket, "-")
        sound = documents.settlement_of(documents.decoded(data))
        draw = random.Random(40)
        answers = [self.document(f"answer-{k}", documents.disturbed(draw, sound, k % 3)) for k in range(40)]
        taken = []
        for _ in range(5):
            start = time.perf_counter()
            status, said, _ = run("mark", ticket, *answers)
            taken.append(time.perf_counter() - start)
            self.assertEqual(status, 1)
            self.assertEqual(len(said.splitlines()), 40)
        print(f"\nforty settlements of 16 by 16 marked in {sorted(taken)[2] * 1000:.1f} ms, the slowest of five runs {max(taken) * 1000:.1f} ms")
        self.assertLess(sorted(taken)[2], 0.2)

    # What a fault is called, by its verdict.
    WORDS = {
        2: "more hours than its cap",
        3: "more hours than its cap",
        4: "wrong pay",
        5: "more hours than his own",
        6: "more hours than his own",
        7: "idle, below its cap",
        8: "blocks",
    }

    def words(self, verdict, grower, pilot, deal):
        who = {5: f"grower {grower}", 6: f"pilot {pilot}"}.get(verdict, f"grower {grower}, pilot {pilot}, {deal} deal")
        return f"{who}: {self.WORDS[verdict]}"

    def test_all_faults(self):
        draw = random.Random(24)
        seen = {}
        for k in range(300):
            ticket = documents.drawn_ticket(draw)
            settlement = documents.disturbed(draw, self.settled(ticket), draw.randint(0, 4))
            files = self.document("ticket", ticket), self.document("settlement", settlement)
            faults = documents.faults(ticket, settlement)
            status, said, errors = run("mark", "--all", *files)
            lines = said.decode().splitlines()
            mark = "MARK " + " ".join(map(str, documents.mark(ticket, settlement)))
            told = [line for line in lines if line.startswith("FAULT ")]
            with self.subTest(number=k, ticket=ticket, settlement=settlement):
                self.assertEqual((status, errors), (1 if faults else 0, []))
                self.assertEqual(lines[0], mark)
                self.assertEqual(told, [f"FAULT {v} {i} {j} {deal}: {self.words(v, i, j, deal)}" for v, i, j, deal in faults])
                self.assertEqual(lines[1 : 1 + len(told)], told)
            status, said, errors = run("mark", "--all", "--json", *files)
            answer = json.loads(said)
            with self.subTest(number=k, json=answer):
                self.assertEqual([(f["verdict"], f["grower"], f["pilot"], f["deal"]) for f in answer["faults"]], faults)
                self.assertEqual([f["text"] for f in answer["faults"]], [self.words(*fault) for fault in faults])
                self.assertEqual("MARK {verdict} {grower} {pilot} {deal} {count}".format(**answer), mark)
            for fault in faults:
                seen[fault[0]] = seen.get(fault[0], 0) + 1
        self.assertEqual(sorted(seen), [2, 3, 4, 5, 6, 7, 8])
        self.assertGreater(min(seen.values()), 20, seen)

    def test_all_of_several(self):
        status, said, _ = run("mark", "--all", WEEK, ONE_LESS, SOUND)
        self.assertEqual(status, 1)
        lines = said.decode().splitlines()
        self.assertEqual(lines[0], f"{ONE_LESS}: MARK 7 0 0 tariff 1")
        self.assertEqual(lines[1], f"{ONE_LESS}: FAULT 7 0 0 tariff: grower 0, pilot 0, tariff deal: idle, below its cap")
        self.assertEqual(lines[-1], f"{SOUND}: MARK 1 0 0 tariff 18")

    def test_json(self):
        status, said, _ = run("mark", "--json", WEEK, SOUND, ONE_LESS, CUT_SHORT)
        self.assertEqual(status, 2)
        answers = [json.loads(line) for line in said.splitlines()]
        self.assertEqual(
            answers,
            [
                {"settlement": str(SOUND), "refusal": 0, "verdict": 1, "grower": 0, "pilot": 0, "deal": TARIFF, "count": 18, "worth": 0, "text": "sound: no deal is idle or blocks"},
                {"settlement": str(ONE_LESS), "refusal": 0, "verdict": 7, "grower": 0, "pilot": 0, "deal": TARIFF, "count": 1, "worth": 0, "text": "grower 0, pilot 0, tariff deal: idle, below its cap"},
                {"settlement": str(CUT_SHORT), "refusal": 11, "text": "settlement: it ends early"},
            ],
        )
        sound = EXAMPLES / "two_pilots-sound.settlement"
        self.assertEqual(json.loads(self.done("mark", "--json", TWO_PILOTS, sound))["worth"], 10)

    def test_json_of_an_odd_name(self):
        name = 'a "quoted" back\\slash\ttab\nline\x01.settlement'
        odd = self.file(name, SOUND.read_bytes())
        self.assertEqual(json.loads(self.done("mark", "--json", WEEK, odd))["settlement"], str(odd))


class Texts(Tries):
    def tickets(self):
        draw = random.Random(3)
        return [SMALL, MIXED] + [documents.drawn_ticket(draw) for _ in range(60)]

    def test_tickets_there_and_back(self):
        for ticket in self.tickets():
            data = encoded(ticket.numbers())
            text = self.done("unpack", "-", feed=data)
            self.assertEqual(text.decode(), ticket.text())
            self.assertEqual(self.done("pack", "-", "-", feed=text), data)

    def test_settlements_there_and_back(self):
        draw = random.Random(4)
        for ticket in self.tickets():
            settlement = documents.disturbed(draw, self.settled(ticket), 3)
            data = encoded(settlement.numbers())
            text = self.done("unpack", "-", feed=data)
            self.assertEqual(text.decode(), settlement.text())
            self.assertEqual(self.done("pack", "-", "-", feed=text), data)

    def test_the_greatest_documents(self):
        pair = (60, 500, 500, 60, 500)
        ticket = Ticket((60,) * 16, (60,) * 16, ((pair,) * 16,) * 16)
        settlement = Settlement((((16383, 16383, 16383),) * 16,) * 16)
        for document in (ticket, settlement):
            data = encoded(document.numbers())
            text = self.done("unpack", "-", feed=data)
            self.assertEqual(text.decode(), document.text())
            self.assertEqual(self.done("pack", "-", "-", feed=text), data)

    def test_plain_lists(self):
        for document in (MIXED, documents.settlement_of([2, 1, 2, 0, 1, 200, 0, 0, 0])):
            numbers = " ".join(map(str, document.numbers()))
            self.assertEqual(self.done("pack", "-", "-", feed=numbers.encode()), encoded(document.numbers()))

    def test_comments_and_white_space(self):
        text = "# an answer\n" + SMALL.text().replace(" ", " \t ").replace("\n", "   # so many\r\n\n") + "# the end"
        self.assertEqual(self.done("pack", "-", "-", feed=text.encode()), encoded(SMALL.numbers()))

    def test_the_example_list(self):
        self.assertEqual(self.done("pack", EXAMPLES / "two_pilots.list", "-"), TWO_PILOTS.read_bytes())

    def test_what_is_no_text(self):
        lines = SMALL.text().splitlines(keepends=True)
        for number, (old, new) in [(2, ("grower", "growler")), (3, ("hours", "hour")), (4, ("tariff", "tarif")), (1, ("kind", "kin")), (4, ("cap 1", "cap one")), (2, ("hours 3", "hours 65536"))]:
            changed = list(lines)
            self.assertIn(old, changed[number - 1])
            changed[number - 1] = changed[number - 1].replace(old, new, 1)
            bad = self.file("bad.txt", "".join(changed))
            with self.subTest(line=changed[number - 1]):
                errors = self.fails("pack", bad, self.room / "out")
                self.assertTrue(errors[0].startswith(f"exchange: {bad}: line {number}: "), errors)
        self.assertFalse((self.room / "out").exists())

    def test_json(self):
        draw = random.Random(5)
        for ticket in self.tickets():
            settlement = documents.disturbed(draw, self.settled(ticket), 2)
            for document in (ticket, settlement):
                said = self.done("unpack", "--json", "-", feed=encoded(document.numbers()))
                self.assertEqual(said.count(b"\n"), 1)
                self.assertEqual(json.loads(said), document.json())

    def test_json_of_a_refusal(self):
        bad = self.file("bad", b"\x01\x00")
        for command in ("unpack", "sheet"):
            status, said, _ = run(command, "--json", bad)
            self.assertEqual((status, json.loads(said)), (2, {"refusal": 5, "text": "ticket: growers or pilots not 1 to 16"}))


class Sheets(Tries):
    def test_json(self):
        said = json.loads(self.done("sheet", "--json", WEEK))
        lines = [list(map(int, line.split())) for line in self.done("sheet", WEEK).decode().splitlines()[1:-1]]
        names = ["grower", "pilot", "tariff_hours", "tariff_gain", "tariff_pay", "free_deal_hours", "grower_share", "pilot_share"]
        self.assertEqual(said, {"growers": 3, "pilots": 3, "pairs": [dict(zip(names, line)) for line in lines], "count": 18})

    def test_table(self):
        names = self.file("names", "Orchard\nNorth field\nMeadow\nDüne\n\nBlue\n")
        plain = [list(map(int, line.split())) for line in self.done("sheet", WEEK).decode().splitlines()[1:-1]]
        table = self.done("sheet", "--table", WEEK).decode()
        named = self.done("sheet", "--table", "--names", names, WEEK).decode()
        for name in ("Orchard", "North field", "Meadow", "Düne", "Blue"):
            self.assertNotIn(name, table)
            self.assertIn(name, named)
        # The lines of the pairs have the sheet's numbers in its order.
        rows = [list(map(int, line.split())) for line in table.splitlines() if re.fullmatch(r"[ 0-9]+", line)]
        self.assertEqual([row[:8] for row in rows if len(row) >= 8], plain)
        # Everybody's hours and euros: those of the account, and all of them in the totals.
        data = self.done("settle", WEEK, "-")
        account = [line.split() for line in self.done("account", WEEK, "-", feed=data).decode().splitlines()]
        for line in account[:-1]:
            self.assertRegex(table, rf"(?m)^{line[0]} +{line[1]} .*\b{line[3]}\b")
        hours = sum(row[2] + row[5] for row in plain)
        total = [line for line in table.splitlines() if line.startswith(("all", "total"))]
        self.assertTrue(total and any(str(hours) in line.split() for line in total), table)

    def test_names_that_are_missing_leave_the_number(self):
        names = self.file("names", "Ahrend\n")
        table = self.done("sheet", "--table", WEEK).decode().split()
        named = self.done("sheet", "--table", "--names", names, WEEK).decode().split()
        self.assertIn("Ahrend", named)
        self.assertEqual([word for word in named if word != "Ahrend"].count("1"), table.count("1"))


class Places(Tries):
    """Where a refusal is: the place of the number, what stands there, and its byte or its line."""

    def names(self, ticket):
        growers, pilots = len(ticket.growers), len(ticket.pilots)
        names = ["ticket kind", "growers", "pilots"]
        names += [f"grower {i}, hours" for i in range(growers)] + [f"pilot {j}, hours" for j in range(pilots)]
        fields = ["tariff cap", "gain", "pay", "free cap", "joint gain"]
        return names + [f"pair {i} {j}, {field}" for i in range(growers) for j in range(pilots) for field in fields]

    def place(self, errors, path):
        """The number, what stands there, and byte or line, of the one line that says so."""
        form = re.compile(rf"exchange: {re.escape(str(path))}: at number (\d+) \((.*)\), (byte|line) (\d+)")
        found = [form.fullmatch(line) for line in errors]
        found = [match.groups() for match in found if match]
        self.assertEqual(len(found), 1, errors)
        number, name, kind, where = found[0]
        return int(number), name, kind, int(where)

    def test_every_number_of_a_ticket(self):
        for ticket in (SMALL, MIXED):
            numbers = ticket.numbers()
            for at, name in enumerate(self.names(ticket)):
                bad = self.file("bad", encoded(numbers[:at] + [600] + numbers[at + 1 :]))
                status, said, errors = run("unpack", bad)
                with self.subTest(name=name):
                    self.assertEqual(status, 2)
                    self.assertRegex(said, rb"^REFUSED \d+\n$")
                    self.assertEqual(self.place(errors, bad), (at, name, "byte", len(encoded(numbers[:at]))))

    def test_every_end_of_a_ticket(self):
        data = encoded(MIXED.numbers())
        for length in range(len(data)):
            bad = self.file("bad", data[:length])
            status, said, errors = run("sheet", bad)
            self.assertEqual((status, said), (2, b"REFUSED 1\n"))
            # A number of two bytes that has lost its second begins before the end.
            whole = documents.decoded(data[:length] if length == 0 or data[length - 1] < 0x80 else data[: length - 1])
            number, _, kind, byte = self.place(errors, bad)
            self.assertEqual((number, kind, byte), (len(whole), "byte", len(encoded(whole))))

    def test_what_is_left(self):
        data = encoded(MIXED.numbers())
        bad = self.file("bad", data + b"\x00\x00")
        status, said, errors = run("settle", bad, self.room / "out")
        self.assertEqual((status, said), (2, b"REFUSED 9\n"))
        number, _, kind, byte = self.place(errors, bad)
        self.assertEqual((number, kind, byte), (len(MIXED.numbers()), "byte", len(data)))

    def test_a_settlement(self):
        ticket = self.document("ticket", MIXED)
        numbers = self.settled(MIXED).numbers()
        for at, new in [(0, 1), (1, 3), (2, 1)]:
            bad = self.file("bad", encoded(numbers[:at] + [new] + numbers[at + 1 :]))
            status, said, errors = run("mark", ticket, bad)
            self.assertEqual(status, 2)
            self.assertEqual(self.place(errors, bad)[::3], (at, at))
        data = encoded(numbers)
        padded = len(encoded(numbers[:4]))
        bad = self.file("bad", data[:padded] + b"\x81\x00" + data[padded + 1 :])
        status, said, errors = run("mark", ticket, bad)
        self.assertEqual((status, said.splitlines()[0]), (2, b"REFUSED 13"))
        self.assertEqual(self.place(errors, bad), (4, "pair 0 0, free-deal hours", "byte", padded))

    def test_a_text(self):
        lines = MIXED.text().splitlines(keepends=True)
        places = self.names(MIXED)
        for name, line, old, new in [("pair 0 1, joint gain", 7, "joint gain 128", "joint gain 501"), ("pilot 1, hours", 5, "hours 9", "hours 61"), ("pair 1 1, tariff cap", 9, "tariff cap 60", "tariff cap 61")]:
            changed = list(lines)
            self.assertIn(old, changed[line - 1])
            changed[line - 1] = changed[line - 1].replace(old, new)
            bad = self.file("bad.txt", "".join(changed))
            status, said, errors = run("pack", bad, self.room / "out")
            with self.subTest(name=name):
                self.assertEqual(status, 2)
                self.assertRegex(said, rb"^REFUSED \d+\n$")
                self.assertEqual(self.place(errors, bad), (places.index(name), name, "line", line))
        self.assertFalse((self.room / "out").exists())


    def test_windows(self):
        whole = (EXAMPLES / "week.windows").read_text()
        for number, line, bad in [
            (5, 3, whole.replace("53 55 55 57", "53 56 55 57")),
            (7, 4, whole.replace("\n1 42 46", "\n9 42 46")),
            (27, 8, "".join(whole.splitlines(keepends=True)[:-1])),
            (34, 9, whole + "5\n"),
        ]:
            windows = self.file("bad.windows", bad)
            status, said, errors = run("windows", WEEK, windows, self.room / "out")
            with self.subTest(number=number):
                self.assertEqual((status, said), (2, b"REFUSED 22\n" if number == 5 else b"REFUSED 21\n"))
                place = self.place(errors, windows)
                self.assertEqual((place[0], *place[2:]), (number, "line", line))
        self.assertFalse((self.room / "out").exists())


class Streams(Tries):
    def test_standard_input_and_output(self):
        week, sound = WEEK.read_bytes(), SOUND.read_bytes()
        out = self.room / "out"
        for words, feed in [
            (("settle", "-", out), week),
            (("pack", "-", out), SMALL.text().encode()),
            (("windows", "-", EXAMPLES / "week.windows", out), week),
            (("windows", WEEK, "-", out), (EXAMPLES / "week.windows").read_bytes()),
            (("draw", 7, 2, 2, out), b""),
        ]:
            with self.subTest(words=words):
                self.assertEqual(self.done(*words, feed=feed), b"")
                to_output = [*words[:-1], "-"]
                self.assertEqual(self.done(*to_output, feed=feed), out.read_bytes())
        self.assertEqual(self.done("sheet", "-", feed=week), self.done("sheet", WEEK))
        self.assertEqual(self.done("mark", WEEK, "-", feed=sound), self.done("mark", WEEK, SOUND))
        self.assertEqual(self.done("mark", "-", SOUND, feed=week), self.done("mark", WEEK, SOUND))
        self.assertEqual(self.done("account", WEEK, "-", feed=sound), self.done("account", WEEK, SOUND))

    def test_input_in_pieces(self):
        data = WEEK.read_bytes()
        process = subprocess.Popen([PROGRAM, "sheet", "-"], stdin=subprocess.PIPE, stdout=subprocess.PIPE)
        for byte in data:
            process.stdin.write(bytes([byte]))
            process.stdin.flush()
        said, _ = process.communicate(timeout=60)
        self.assertEqual(said, self.done("sheet", WEEK))

    def test_a_full_device(self):
        if not stat.S_ISCHR(os.stat("/dev/full").st_mode):
            self.skipTest("no /dev/full")
        for words in [("sheet", WEEK), ("sheet", "--table", WEEK), ("unpack", WEEK), ("mark", WEEK, SOUND), ("mark", "--all", WEEK, *[ONE_LESS] * 40), ("account", WEEK, SOUND), ("settle", WEEK, "-"), ("help",), ("--version",)]:
            with self.subTest(words=words), open("/dev/full", "wb") as full:
                status, _, errors = run(*words, stdout=full)
                self.assertEqual(status, 2)
                self.assertEqual(len(errors), 1, errors)
                self.assertRegex(errors[0], "^exchange: .*No space left on device$")

    def test_closed_output(self):
        for words in [("sheet", WEEK), ("mark", WEEK, SOUND), ("--version",), ("settle", WEEK, "-")]:
            done = subprocess.run([PROGRAM, *map(str, words)], preexec_fn=lambda: os.close(1), stderr=subprocess.PIPE, stdin=subprocess.DEVNULL, timeout=60)
            with self.subTest(words=words):
                self.assertEqual(done.returncode, 2)
                self.assertEqual(len(done.stderr.splitlines()), 1, done.stderr)
                self.assertRegex(done.stderr.decode(), "^exchange: .*Bad file descriptor$")

    def test_a_reader_that_goes_away(self):
        """A pipe that nobody reads is a failed write, of which nothing is said."""
        for words in [("sheet", WEEK), ("mark", WEEK, SOUND), ("--version",), ("settle", WEEK, "-")]:
            behind, front = os.pipe()
            os.close(behind)
            with self.subTest(words=words), os.fdopen(front, "wb") as pipe:
                status, _, errors = run(*words, stdout=pipe)
                self.assertEqual((status, errors), (2, []))

    def test_a_file_is_not_written_over_when_its_output_is_closed(self):
        """With standard output closed a file that is opened may get its number: no answer may end up in it."""
        out = self.file("out", b"old")
        done = subprocess.run([PROGRAM, "settle", str(WEEK), str(out)], preexec_fn=lambda: os.close(1), stderr=subprocess.PIPE, stdin=subprocess.DEVNULL, timeout=60)
        self.assertEqual(done.returncode, 0, done.stderr)
        self.assertEqual(run("mark", WEEK, out)[0], 0)

    def test_closed_input(self):
        done = subprocess.run([PROGRAM, "sheet", "-"], preexec_fn=lambda: os.close(0), stdout=subprocess.PIPE, stderr=subprocess.PIPE, timeout=60)
        self.assertEqual((done.returncode, done.stdout), (2, b""))
        self.assertRegex(done.stderr.decode(), "^exchange: .*Bad file descriptor$")

    def test_messages_name_the_file_as_the_user_did(self):
        errors = self.fails("sheet", "./nosuch", cwd=self.room)
        self.assertEqual(errors, ["exchange: ./nosuch: No such file or directory"])


class Files(Tries):
    def settle(self, out, **more):
        self.assertEqual(self.done("settle", WEEK, out, **more), b"")
        self.assertEqual(run("mark", WEEK, out)[0], 0)

    def test_mode_is_kept(self):
        out = self.file("out", b"old")
        for mode in (0o600, 0o640, 0o664, 0o755):
            out.chmod(mode)
            with self.subTest(mode=oct(mode)):
                self.settle(out)
                self.assertEqual(oct(stat.S_IMODE(out.stat().st_mode)), oct(mode))

    def test_owner_is_kept(self):
        if os.geteuid() != 0:
            self.skipTest("only root can give a file away")
        out = self.file("out", b"old")
        os.chown(out, 65534, 65533)
        self.settle(out)
        self.assertEqual((out.stat().st_uid, out.stat().st_gid), (65534, 65533))

    def test_a_new_file_has_the_usual_mode(self):
        for mask in (0o022, 0o077, 0o002):
            out = self.room / f"new-{mask:o}"
            self.settle(out, preexec_fn=lambda: os.umask(mask))
            self.assertEqual(oct(stat.S_IMODE(out.stat().st_mode)), oct(0o666 & ~mask))

    def test_a_link_is_followed_and_kept(self):
        (self.room / "folder").mkdir()
        target = self.file("folder/target", b"old")
        target.chmod(0o640)
        for name, to in [("relative", "folder/target"), ("absolute", target), ("twice", "relative")]:
            link = self.room / name
            link.symlink_to(to)
            target.write_bytes(b"old")
            with self.subTest(link=name):
                self.settle(link)
                self.assertEqual(os.readlink(link), str(to))
                self.assertNotEqual(target.read_bytes(), b"old")
                self.assertEqual(oct(stat.S_IMODE(target.stat().st_mode)), oct(0o640))
        self.assertEqual([path.name for path in (self.room / "folder").iterdir()], ["target"])

    def test_a_link_to_itself(self):
        link = self.room / "loop"
        link.symlink_to("loop")
        self.fails("settle", WEEK, link, says=f"^exchange: {re.escape(str(link))}: Too many levels of symbolic links$")
        self.assertTrue(link.is_symlink())

    def test_a_name_that_is_not_utf8(self):
        """It names no file that could be read or written, and neither does the text of a link to be written through."""
        name = os.fsencode(self.room) + b"/\xff"
        path = Path(os.fsdecode(name))
        path.write_bytes(WEEK.read_bytes())
        for words in [("sheet", path), ("settle", WEEK, path)]:
            with self.subTest(words=words):
                done = subprocess.run([PROGRAM, *map(os.fsencode, words)], capture_output=True, timeout=60)
                self.assertEqual((done.returncode, done.stdout, done.stderr), (2, b"", b"exchange: " + name + b": invalid filename\n"))
        link = self.room / "link"
        link.symlink_to(path)
        self.assertEqual(self.done("sheet", link), self.done("sheet", WEEK))
        self.fails("settle", WEEK, link, says=f"^exchange: {re.escape(str(link))}: invalid filename$")
        self.assertEqual(path.read_bytes(), WEEK.read_bytes())

    def test_a_pipe_is_written_to_and_stays(self):
        pipe = self.room / "pipe"
        os.mkfifo(pipe)
        expected = self.done("settle", WEEK, "-")
        # The reader may come before the writer or after it.
        for wait in (0.0, 0.2):
            reader = subprocess.Popen(["sh", "-c", f"sleep {wait}; exec cat pipe"], stdout=subprocess.PIPE)
            try:
                time.sleep(0.2 - wait)
                self.assertEqual(run("settle", WEEK, pipe)[0], 0)
                said, _ = reader.communicate(timeout=10)
            finally:
                reader.kill()
                reader.communicate()
            self.assertEqual(said, expected)
            self.assertTrue(stat.S_ISFIFO(pipe.stat().st_mode))

    def test_a_device_is_written_to_and_stays(self):
        if os.geteuid() != 0:
            self.skipTest("only root can replace a device")
        null = self.room / "null"
        try:
            os.mknod(null, stat.S_IFCHR | 0o666, os.makedev(1, 3))
        except OSError:
            self.skipTest("no device can be made here")
        self.done("settle", WEEK, null)
        self.assertTrue(stat.S_ISCHR(null.stat().st_mode))

    def test_what_the_system_does_not_tell_is_left(self):
        """By strace where it is there: a name of which the system does not say whether it is a file's or a device's."""
        if shutil.which("strace") is None:
            self.skipTest("no strace")
        out = self.file("out", b"old")
        command = ["strace", "-qq", "-o", "/dev/null", "-e", "inject=statx:error=EPERM", PROGRAM, "settle", str(WEEK), str(out)]
        done = subprocess.run(command, capture_output=True, text=True, timeout=60)
        self.assertEqual((done.returncode, done.stdout, done.stderr), (2, "", f"exchange: {out}: Operation not permitted\n"))
        self.assertEqual(out.read_bytes(), b"old")
        self.assertEqual(list(self.room.iterdir()), [out])

    def test_a_folder_is_not_replaced(self):
        folder = self.room / "folder"
        folder.mkdir()
        self.fails("settle", WEEK, folder, says=f"^exchange: {re.escape(str(folder))}: Is a directory$")
        self.assertEqual(list(self.room.iterdir()), [folder])

    def test_nothing_is_left_beside(self):
        self.settle(self.room / "out")
        self.assertEqual([path.name for path in self.room.iterdir()], ["out"])

    def test_the_same_file_read_and_written(self):
        ticket = self.file("ticket", WEEK.read_bytes())
        self.done("windows", ticket, EXAMPLES / "week.windows", ticket)
        self.assertEqual(ticket.read_bytes(), self.done("windows", WEEK, EXAMPLES / "week.windows", "-"))

    def test_a_run_that_is_killed_leaves_the_old_file(self):
        """Runs are killed at all moments of their time; after each the file is whole, the old or the new."""
        old = self.done("settle", EXAMPLES / "two_pilots.ticket", "-")
        new = self.done("settle", WEEK, "-")
        out = self.room / "out"
        start = time.perf_counter()
        self.done("settle", WEEK, out)
        whole = time.perf_counter() - start
        draw = random.Random(9)
        killed = replaced = 0
        for _ in range(400):
            out.write_bytes(old)
            process = subprocess.Popen([PROGRAM, "settle", str(WEEK), str(out)], stderr=subprocess.DEVNULL)
            time.sleep(draw.uniform(0, whole))
            process.send_signal(signal.SIGKILL)
            killed += process.wait(timeout=60) == -signal.SIGKILL
            content = out.read_bytes()
            self.assertIn(content, (old, new))
            replaced += content == new
        self.assertGreater(killed, 50, "too few runs were killed")
        self.assertLess(replaced, 400, "no run was killed in time")
        self.settle(out)
        print(f"\n400 runs: {killed} killed, {replaced} files replaced, {len(list(self.room.iterdir())) - 1} temporary files left")

    def test_killed_at_every_system_call(self):
        """The same by strace where it is there: a run is killed at each of its system calls in turn."""
        if shutil.which("strace") is None:
            self.skipTest("no strace")
        old = self.done("settle", EXAMPLES / "two_pilots.ticket", "-")
        new = self.done("settle", WEEK, "-")
        out = self.file("out", old)
        command = [PROGRAM, "settle", str(WEEK), str(out)]
        subprocess.run(["strace", "-qq", "-o", "calls", *command], check=True, timeout=60)
        calls = [line.split("(")[0] for line in Path("calls").read_text().splitlines()]
        calls = [call for call in calls if call != "execve" and re.fullmatch(r"\w+", call)]
        self.assertIn("rename", calls)
        after_rename = 0
        for at, call in enumerate(calls):
            out.write_bytes(old)
            kill = f"inject={call}:signal=KILL:when={calls[: at + 1].count(call)}"
            subprocess.run(["strace", "-qq", "-o", "/dev/null", "-e", kill, *command], stderr=subprocess.DEVNULL, timeout=60)
            content = out.read_bytes()
            self.assertIn(content, (old, new), kill)
            after_rename += content == new
            self.settle(out)
        # Before the file is renamed it is the old one; so the kills did come at all places.
        self.assertLess(after_rename, len(calls) - calls.index("rename") + 1)
        self.assertGreater(after_rename, 0)

    def test_two_runs_at_once(self):
        """Both end, and leave a whole file of one of them."""
        answers = [self.done("settle", ticket, "-") for ticket in (WEEK, TWO_PILOTS)]
        out = self.room / "out"
        for _ in range(100):
            runs = [subprocess.Popen([PROGRAM, "settle", str(ticket), str(out)], stderr=subprocess.PIPE) for ticket in (WEEK, TWO_PILOTS)]
            ends = [process.communicate(timeout=60)[1] for process in runs]
            self.assertEqual([process.returncode for process in runs], [0, 0], ends)
            self.assertIn(out.read_bytes(), answers)
        self.assertEqual([path.name for path in self.room.iterdir()], ["out"])


class Pages(Tries):
    def test_man_pages_render(self):
        if shutil.which("man") is None:
            self.skipTest("no man")
        for name in ("exchange.1", "hours_exchange.3"):
            done = subprocess.run(["man", "-l", "--warnings=w", str(ROOT / "man" / name)], capture_output=True, text=True, env=dict(os.environ, MANWIDTH="80"))
            self.assertEqual((done.returncode, done.stderr), (0, ""), name)
            self.assertIn("NAME", done.stdout)

    def test_the_man_page_has_every_command(self):
        page = (ROOT / "man" / "exchange.1").read_text()
        for command in COMMANDS:
            self.assertRegex(page, rf'(?m)^\.BI "{command} "')


if __name__ == "__main__":
    unittest.main()
