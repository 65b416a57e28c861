"""Tickets, settlements and their faults in plain Python, written from docs/FORMAT.md and apart from the program that the tests try."""

import random
from dataclasses import dataclass
from typing import List, Tuple

TARIFF, FREE = "tariff", "free"


@dataclass(frozen=True)
class Ticket:
    """Hours of growers and pilots, and for each pair the five numbers tariff cap, a, b, free cap, c."""

    growers: Tuple[int, ...]
    pilots: Tuple[int, ...]
    pairs: Tuple[Tuple[Tuple[int, ...], ...], ...]

    def numbers(self) -> List[int]:
        return [1, len(self.growers), len(self.pilots), *self.growers, *self.pilots, *(x for row in self.pairs for pair in row for x in pair)]

    def text(self) -> str:
        lines = [f"ticket kind 1 growers {len(self.growers)} pilots {len(self.pilots)}"]
        lines += [f"grower {i} hours {hours}" for i, hours in enumerate(self.growers)]
        lines += [f"pilot {j} hours {hours}" for j, hours in enumerate(self.pilots)]
        for i, row in enumerate(self.pairs):
            for j, (cap, gain, pay, free_cap, joint) in enumerate(row):
                lines.append(f"pair {i} {j} tariff cap {cap} gain {gain} pay {pay} free cap {free_cap} joint gain {joint}")
        return "".join(line + "\n" for line in lines)

    def json(self) -> dict:
        names = ["tariff_cap", "tariff_gain", "tariff_pay", "free_cap", "joint_gain"]
        return {
            "kind": 1,
            "growers": len(self.growers),
            "pilots": len(self.pilots),
            "grower_hours": list(self.growers),
            "pilot_hours": list(self.pilots),
            "pairs": [
                {"grower": i, "pilot": j, **dict(zip(names, pair))} for i, row in enumerate(self.pairs) for j, pair in enumerate(row)
            ],
        }


@dataclass(frozen=True)
class Settlement:
    """For each pair tariff hours, free-deal hours and pay."""

    pairs: Tuple[Tuple[Tuple[int, int, int], ...], ...]

    def numbers(self) -> List[int]:
        return [2, len(self.pairs), len(self.pairs[0]), *(x for row in self.pairs for pair in row for x in pair)]

    def text(self) -> str:
        lines = [f"settlement kind 2 growers {len(self.pairs)} pilots {len(self.pairs[0])}"]
        for i, row in enumerate(self.pairs):
            for j, (tariff, free, pay) in enumerate(row):
                lines.append(f"pair {i} {j} tariff hours {tariff} free-deal hours {free} pay {pay}")
        return "".join(line + "\n" for line in lines)

    def json(self) -> dict:
        names = ["tariff_hours", "free_deal_hours", "pay"]
        return {
            "kind": 2,
            "growers": len(self.pairs),
            "pilots": len(self.pairs[0]),
            "pairs": [
                {"grower": i, "pilot": j, **dict(zip(names, pair))} for i, row in enumerate(self.pairs) for j, pair in enumerate(row)
            ],
        }


def encoded(numbers: List[int]) -> bytes:
    """Numbers as bytes, the low seven bits first."""
    return b"".join(bytes([x]) if x < 0x80 else bytes([x & 0x7F | 0x80, x >> 7]) for x in numbers)


def decoded(data: bytes) -> List[int]:
    numbers, at = [], 0
    while at < len(data):
        two = data[at] >= 0x80
        numbers.append((data[at] & 0x7F) + (data[at + 1] << 7) if two else data[at])
        at += 2 if two else 1
    return numbers


def settlement_of(numbers: List[int]) -> Settlement:
    _, growers, pilots, *rest = numbers
    pairs = [tuple(rest[at : at + 3]) for at in range(0, len(rest), 3)]
    return Settlement(tuple(tuple(pairs[i * pilots : (i + 1) * pilots]) for i in range(growers)))


# Faults


class Sitting:
    """A settlement beside its ticket: what everybody has in which deal, and what it earns him."""

    def __init__(self, ticket: Ticket, settlement: Settlement) -> None:
        self.ticket, self.settlement = ticket, settlement
        self.growers, self.pilots = range(len(ticket.growers)), range(len(ticket.pilots))

    def hours(self, i: int, j: int, deal: str) -> int:
        return self.settlement.pairs[i][j][0 if deal == TARIFF else 1]

    def cap(self, i: int, j: int, deal: str) -> int:
        return self.ticket.pairs[i][j][0 if deal == TARIFF else 3]

    def earned(self, i: int, j: int, deal: str) -> Tuple[int, int]:
        """What an hour earns the grower and the pilot."""
        _, a, b, _, c = self.ticket.pairs[i][j]
        pay = self.settlement.pairs[i][j][2]
        return (a, b) if deal == TARIFF else (max(c - pay, 0), pay)

    def free_hours(self, party: str, k: int) -> int:
        own = self.ticket.growers[k] if party == "grower" else self.ticket.pilots[k]
        return own - sum(self.hours(i, j, deal) for i, j, deal in self.deals() if (i if party == "grower" else j) == k)

    def deals(self):
        return [(i, j, deal) for i in self.growers for j in self.pilots for deal in (TARIFF, FREE)]

    def spares(self, party: str, k: int, but: Tuple[int, int, str]) -> List[int]:
        """The worths of a party's spares for a deal: his free hours, and the hours that he has in other deals."""
        worths = [0] if self.free_hours(party, k) > 0 else []
        for i, j, deal in self.deals():
            if (i if party == "grower" else j) == k and (i, j, deal) != but and self.hours(i, j, deal) > 0:
                worths.append(self.earned(i, j, deal)[0 if party == "grower" else 1])
        return worths

    def unfilled(self, i: int, j: int, deal: str) -> bool:
        return self.hours(i, j, deal) < self.cap(i, j, deal)

    def idle(self, i: int, j: int, deal: str) -> bool:
        return self.unfilled(i, j, deal) and self.free_hours("grower", i) > 0 and self.free_hours("pilot", j) > 0

    def blocks(self, i: int, j: int, deal: str) -> bool:
        grower, pilot = self.spares("grower", i, (i, j, deal)), self.spares("pilot", j, (i, j, deal))
        if not self.unfilled(i, j, deal) or not grower or not pilot:
            return False
        _, a, b, _, c = self.ticket.pairs[i][j]
        return (min(grower) < a and min(pilot) < b) if deal == TARIFF else min(grower) + min(pilot) < c


def faults(ticket: Ticket, settlement: Settlement) -> List[Tuple[int, int, int, str]]:
    """Every fault: verdict, grower, pilot and deal, in the order of docs/FORMAT.md, Verdicts."""
    sitting = Sitting(ticket, settlement)
    found = []
    for i in sitting.growers:
        for j in sitting.pilots:
            tariff, free, pay = settlement.pairs[i][j]
            cap, _, _, free_cap, c = ticket.pairs[i][j]
            found += [(2, i, j, TARIFF)] if tariff > cap else []
            found += [(3, i, j, FREE)] if free > free_cap else []
            found += [(4, i, j, FREE)] if pay > c or (pay > 0 and free == 0) else []
    found += [(5, i, 0, TARIFF) for i in sitting.growers if sitting.free_hours("grower", i) < 0]
    found += [(6, 0, j, TARIFF) for j in sitting.pilots if sitting.free_hours("pilot", j) < 0]
    for place in sitting.deals():
        if sitting.idle(*place):
            found.append((7, *place))
        elif sitting.blocks(*place):
            found.append((8, *place))
    return found


def mark(ticket: Ticket, settlement: Settlement) -> Tuple[int, int, int, str, int]:
    """The first fault and the count of deals looked at."""
    found = faults(ticket, settlement)
    places = Sitting(ticket, settlement).deals()
    if not found:
        return 1, 0, 0, TARIFF, len(places)
    verdict, i, j, deal = found[0]
    return verdict, i, j, deal, places.index((i, j, deal)) + 1 if verdict >= 7 else 0


# Draws


def drawn_ticket(draw: random.Random, most: int = 4) -> Ticket:
    """A ticket that passes its checks, of up to so many growers and pilots."""
    growers = tuple(draw.randint(0, 6) for _ in range(draw.randint(1, most)))
    pilots = tuple(draw.randint(0, 6) for _ in range(draw.randint(1, most)))

    def pair(grower: int, pilot: int) -> Tuple[int, ...]:
        cap, free_cap = [draw.randint(0, 3) if grower and pilot else 0 for _ in range(2)]
        a, b = [draw.choice([0, 1, 5, 127, 128, 500]) if cap else 0 for _ in range(2)]
        return cap, a, b, free_cap, draw.choice([0, 1, 9, 10, 300, 500]) if free_cap else 0

    return Ticket(growers, pilots, tuple(tuple(pair(g, p) for p in pilots) for g in growers))


def disturbed(draw: random.Random, settlement: Settlement, times: int) -> Settlement:
    """The settlement with some numbers changed, half of them to one less."""
    numbers = settlement.numbers()
    for _ in range(times):
        at = draw.randrange(3, len(numbers))
        numbers[at] = draw.choice([max(numbers[at] - 1, 0), draw.choice([0, 1, 2, 3, 4, 7, 61, 130, 501])])
    return settlement_of(numbers)
