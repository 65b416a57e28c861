"""The hours exchange: growers book pilots by the hour, and a ticket is settled so that nobody can do better.

    >>> import hours_exchange
    >>> ticket = hours_exchange.Ticket.from_bytes(open("week.ticket", "rb").read())
    >>> settlement = hours_exchange.settle(ticket)
    >>> hours_exchange.mark(ticket, settlement).is_sound
    True

A ticket and a settlement are given as the bytes of their files or as `Ticket` and `Settlement`; what comes back is a dataclass. Whatever is
refused raises `Refused`, with the number of docs/FORMAT.md. All work is done by the proved library libhours_exchange, and every word about a
refusal or a verdict is the library's own.

The shared object is looked for where the environment variable HOURS_EXCHANGE_LIBRARY says; then beside this file; then by the system's
loader. Functions keep no state, and may be called from several threads; a `Market` belongs to one thread at a time.
"""

from __future__ import annotations

import ctypes
import enum
import os
from dataclasses import astuple, dataclass
from pathlib import Path
from typing import Any, Iterable, Sequence, Union

__version__ = "1.7.0"

__all__ = [
    "Account",
    "Deal",
    "Flown",
    "Mark",
    "Market",
    "Refusal",
    "Refused",
    "Settlement",
    "Terms",
    "Ticket",
    "Verdict",
    "account",
    "mark",
    "read_settlement",
    "refusal_text",
    "settle",
    "sheet",
    "verdict_text",
    "windows",
    "write_settlement",
]

_SHARED_OBJECT = "libhours_exchange.so.1"

# Elements that always suffice, as in hours_exchange.h.
_TICKET_BYTES = 2083
_TICKET_NUMBERS = 1315
_SETTLEMENT_BYTES = 1027
_SETTLEMENT_NUMBERS = 771
_LONGEST_SETTLEMENT = 2 * _SETTLEMENT_NUMBERS  # one that is not sound may have numbers of two bytes everywhere
_SHEET_BYTES = 8216
_ACCOUNT_NUMBERS = 48
_MARKET_NUMBERS = 2118
_GROWER_FREE_HOURS = 2086
_PILOT_FREE_HOURS = 2102
_PARTIES = 16
_TEXT_BYTES = 96

_REFUSED = 65536
_LARGEST_NUMBER = 65535
_REFUSAL_TEXT, _VERDICT_TEXT = 0, 1


# The library


def _load() -> ctypes.CDLL:
    named = os.environ.get("HOURS_EXCHANGE_LIBRARY")
    beside = Path(__file__).with_name(_SHARED_OBJECT)
    name = named or (str(beside) if beside.exists() else _SHARED_OBJECT)
    try:
        return ctypes.CDLL(name)
    except OSError as error:
        raise ImportError(f"hours_exchange: no library: {error}; HOURS_EXCHANGE_LIBRARY can name it") from error


def _declare(library: ctypes.CDLL) -> None:
    """The types of the functions. A buffer is a pointer and how many elements stand there."""
    read = [ctypes.c_char_p, ctypes.c_size_t]
    written = [ctypes.POINTER(ctypes.c_uint8), ctypes.c_size_t]
    numbers = [ctypes.POINTER(ctypes.c_uint16), ctypes.c_size_t]
    sizes = [ctypes.c_size_t, ctypes.c_size_t]
    wide = [ctypes.POINTER(ctypes.c_uint32), ctypes.c_size_t]
    number = ctypes.c_uint32
    types: dict[str, tuple[list[Any], Any]] = {
        "exchange_unpack": (read + numbers, number),
        "exchange_pack": (numbers + written, number),
        "exchange_read_settlement": (read + sizes + numbers, number),
        "exchange_write_settlement": (numbers + sizes + written, number),
        "exchange_settle": (read + written, number),
        "exchange_sheet": (read + written, number),
        "exchange_account": (read + read + wide, number),
        "exchange_windows": (read + numbers + written, number),
        "exchange_mark": (read + read, ctypes.c_uint64),
        "exchange_worth": (read + read, ctypes.c_uint64),
        "exchange_open": (read + numbers, number),
        "exchange_call": (numbers + numbers, number),
        "exchange_market_settlement": (numbers + written, number),
        "exchange_text": ([number, number] + written, number),
    }
    for name, (arguments, result) in types.items():
        function = getattr(library, name)
        function.argtypes = arguments
        function.restype = result


_library = _load()
_declare(_library)


def _numbers(values: Iterable[int]) -> ctypes.Array[ctypes.c_uint16]:
    """A list of numbers of 16 bits. A number that does not fit is no number of any list: it is not cut to fit."""
    listed = list(values)
    for value in listed:
        if not 0 <= value <= _LARGEST_NUMBER:
            raise ValueError(f"{value} is not a number of 0 to {_LARGEST_NUMBER}")
    return (ctypes.c_uint16 * len(listed))(*listed)


def _checked(reply: int) -> int:
    """How many elements were written, unless the reply is a refusal."""
    if reply >= _REFUSED:
        raise Refused(reply - _REFUSED)
    return reply


def _written(buffer: ctypes.Array[ctypes.c_uint8], reply: int) -> bytes:
    return bytes(buffer[: _checked(reply)])


# Words


def _text(what: int, number: int) -> str:
    buffer = (ctypes.c_uint8 * _TEXT_BYTES)()
    return _written(buffer, _library.exchange_text(what, number, buffer, _TEXT_BYTES)).decode("ascii")


def refusal_text(number: int) -> str:
    """What a refusal means, as `ticket: it ends early`."""
    return _text(_REFUSAL_TEXT, number)


def verdict_text(number: int) -> str:
    """What a verdict means, as `blocks`."""
    return _text(_VERDICT_TEXT, number)


class Refusal(enum.IntEnum):
    """Why something is refused, by its number in docs/FORMAT.md. Those with SETTLEMENT are of settlements as those without are of tickets."""

    ENDS_EARLY = 1
    LONG_NUMBER = 2
    PADDED_NUMBER = 3
    OTHER_KIND = 4
    PARTIES_OUT_OF_RANGE = 5
    HOURS_ABOVE_LIMIT = 6
    ABOVE_LIMIT = 7
    AMOUNT_WITHOUT_CAP = 8
    LEFT_AT_END = 9
    NO_ROOM = 10
    SETTLEMENT_ENDS_EARLY = 11
    SETTLEMENT_LONG_NUMBER = 12
    SETTLEMENT_PADDED_NUMBER = 13
    SETTLEMENT_OTHER_KIND = 14
    SETTLEMENT_OTHER_PARTIES = 15
    SETTLEMENT_LEFT_AT_END = 16
    NOT_SOUND = 17
    CAP_WITHOUT_HOURS = 18
    NO_PARTY = 19
    AGAINST_LIMITS = 20
    NOT_WINDOWS = 21
    BAD_WINDOW = 22


class Refused(ValueError):
    """What was given is refused: its `number` is one of `Refusal`, its `text` says what it means."""

    def __init__(self, number: int) -> None:
        self.number = Refusal(number)
        self.text = refusal_text(number)
        super().__init__(number)

    def __str__(self) -> str:
        return f"{int(self.number)}: {self.text}"


# Tickets


def _check_square(pairs: Sequence[Sequence[object]], growers: int, pilots: int) -> None:
    if len(pairs) != growers or any(len(row) != pilots for row in pairs):
        raise ValueError(f"the pairs are not {growers} rows of {pilots}")


@dataclass(frozen=True)
class Terms:
    """On what terms a pair may fly: its five numbers of a ticket. Caps are hours, amounts euros per hour."""

    tariff_cap: int = 0
    tariff_gain: int = 0
    tariff_pay: int = 0
    free_cap: int = 0
    joint_gain: int = 0


@dataclass(frozen=True)
class Ticket:
    """Everybody's hours, and the terms of each pair: `ticket.pairs[grower][pilot]`."""

    grower_hours: tuple[int, ...]
    pilot_hours: tuple[int, ...]
    pairs: tuple[tuple[Terms, ...], ...]

    def __post_init__(self) -> None:
        _check_square(self.pairs, self.growers, self.pilots)

    @property
    def growers(self) -> int:
        return len(self.grower_hours)

    @property
    def pilots(self) -> int:
        return len(self.pilot_hours)

    @property
    def numbers(self) -> list[int]:
        """The ticket's numbers, in the file's order."""
        terms = [number for row in self.pairs for pair in row for number in astuple(pair)]
        return [1, self.growers, self.pilots, *self.grower_hours, *self.pilot_hours, *terms]

    @classmethod
    def from_bytes(cls, data: bytes) -> Ticket:
        """The ticket that a file's bytes are."""
        buffer = (ctypes.c_uint16 * _TICKET_NUMBERS)()
        count = _checked(_library.exchange_unpack(data, len(data), buffer, len(buffer)))
        _, growers, pilots, *rest = buffer[:count]
        terms = [Terms(*rest[at : at + 5]) for at in range(growers + pilots, len(rest), 5)]
        return cls(tuple(rest[:growers]), tuple(rest[growers : growers + pilots]), _rows(terms, pilots))

    @classmethod
    def from_numbers(cls, numbers: Iterable[int]) -> Ticket:
        """The ticket that a list of numbers is, in the file's order."""
        return cls.from_bytes(_packed(numbers))

    def to_bytes(self) -> bytes:
        """The bytes of the ticket's file."""
        return _packed(self.numbers)


def _rows(items: Sequence[Any], length: int) -> tuple[tuple[Any, ...], ...]:
    return tuple(tuple(items[at : at + length]) for at in range(0, len(items), length))


def _packed(numbers: Iterable[int]) -> bytes:
    listed = _numbers(numbers)
    buffer = (ctypes.c_uint8 * _TICKET_BYTES)()
    return _written(buffer, _library.exchange_pack(listed, len(listed), buffer, len(buffer)))


# Settlements


@dataclass(frozen=True)
class Flown:
    """What a pair flies: tariff hours, free-deal hours, and the pilot's pay per free-deal hour."""

    tariff_hours: int = 0
    free_deal_hours: int = 0
    pay: int = 0


@dataclass(frozen=True)
class Settlement:
    """What each pair flies: `settlement.pairs[grower][pilot]`."""

    pairs: tuple[tuple[Flown, ...], ...]

    def __post_init__(self) -> None:
        _check_square(self.pairs, self.growers, self.pilots)

    @property
    def growers(self) -> int:
        return len(self.pairs)

    @property
    def pilots(self) -> int:
        return len(self.pairs[0]) if self.pairs else 0

    @property
    def numbers(self) -> list[int]:
        """The settlement's numbers, in the file's order."""
        return [2, self.growers, self.pilots, *(number for row in self.pairs for pair in row for number in astuple(pair))]

    @classmethod
    def from_bytes(cls, data: bytes) -> Settlement:
        """The settlement that a file's bytes are, of as many growers and pilots as it names."""
        return read_settlement(data, _named(data, 1), _named(data, 2))

    def to_bytes(self) -> bytes:
        """The bytes of the settlement's file."""
        return write_settlement(self.numbers, self.growers, self.pilots)


def _named(data: bytes, place: int) -> int:
    """How many parties a settlement names at a place. If that is out of range, whatever is expected is refused there."""
    return data[place] if place < len(data) and 1 <= data[place] <= _PARTIES else 1


def read_settlement(data: bytes, growers: int, pilots: int) -> Settlement:
    """The settlement that bytes are, of a ticket with so many growers and pilots."""
    buffer = (ctypes.c_uint16 * _SETTLEMENT_NUMBERS)()
    reply = _library.exchange_read_settlement(data, len(data), growers, pilots, buffer, len(buffer))
    count = _checked(reply)
    return Settlement(_rows([Flown(*buffer[at : at + 3]) for at in range(3, count, 3)], pilots))


def write_settlement(numbers: Iterable[int], growers: int, pilots: int) -> bytes:
    """The bytes of the settlement that a list of numbers is, in the file's order, of a ticket with so many growers and pilots."""
    listed = _numbers(numbers)
    buffer = (ctypes.c_uint8 * _LONGEST_SETTLEMENT)()
    return _written(buffer, _library.exchange_write_settlement(listed, len(listed), growers, pilots, buffer, len(buffer)))


# What is made of them

TicketLike = Union[bytes, Ticket]
SettlementLike = Union[bytes, Settlement]


def _bytes_of(document: Union[bytes, Ticket, Settlement]) -> bytes:
    return document if isinstance(document, bytes) else document.to_bytes()


def settle(ticket: TicketLike) -> Settlement:
    """A sound settlement of a ticket."""
    data = _bytes_of(ticket)
    buffer = (ctypes.c_uint8 * _SETTLEMENT_BYTES)()
    return Settlement.from_bytes(_written(buffer, _library.exchange_settle(data, len(data), buffer, len(buffer))))


class Verdict(enum.IntEnum):
    """What marking finds, by its number on paper."""

    SOUND = 1
    TARIFF_OVER_CAP = 2
    FREE_OVER_CAP = 3
    WRONG_PAY = 4
    GROWER_OVER_HOURS = 5
    PILOT_OVER_HOURS = 6
    IDLE = 7
    BLOCKS = 8


class Deal(enum.Enum):
    """The two deals of a pair."""

    TARIFF = "tariff"
    FREE = "free"


@dataclass(frozen=True)
class Mark:
    """The first fault of a settlement, or that it is sound.

    Grower, pilot and deal are those at fault, or 0, 0 and the tariff deal where the verdict has no use for them. `count` says how many deals
    were looked at for idle and blocking ones. `worth` is what a sound settlement gains in all, in euros, where the ticket has free deals only,
    and else 0: no settlement of that ticket gains more.
    """

    verdict: Verdict
    grower: int
    pilot: int
    deal: Deal
    count: int
    worth: int

    @property
    def is_sound(self) -> bool:
        return self.verdict is Verdict.SOUND

    @property
    def text(self) -> str:
        """What the verdict means, in the library's words, as `blocks`."""
        return verdict_text(self.verdict)

    def __str__(self) -> str:
        """Who is at fault, and the text: `grower 0, pilot 1, free deal: blocks`."""
        if self.is_sound:
            return self.text
        if self.verdict is Verdict.GROWER_OVER_HOURS:
            return f"grower {self.grower}: {self.text}"
        if self.verdict is Verdict.PILOT_OVER_HOURS:
            return f"pilot {self.pilot}: {self.text}"
        return f"grower {self.grower}, pilot {self.pilot}, {self.deal.value} deal: {self.text}"


def mark(ticket: TicketLike, settlement: SettlementLike) -> Mark:
    """The mark of a settlement of a ticket."""
    terms, answer = _bytes_of(ticket), _bytes_of(settlement)
    files = (terms, len(terms), answer, len(answer))
    number: int = _library.exchange_mark(*files)
    if number >> 56:
        raise Refused(number >> 56)
    return Mark(
        verdict=Verdict(number & 0xFF),
        grower=number >> 8 & 0xFF,
        pilot=number >> 16 & 0xFF,
        deal=Deal.FREE if number >> 24 & 0xFF else Deal.TARIFF,
        count=number >> 32 & 0xFFFFFF,
        worth=_library.exchange_worth(*files),
    )


@dataclass(frozen=True)
class Account:
    """What a sound settlement brings: each grower's gain in euros, each pilot's pay in euros and the commission on it in cents."""

    gains: tuple[int, ...]
    pays: tuple[int, ...]
    commissions: tuple[int, ...]


def account(ticket: TicketLike, settlement: SettlementLike) -> Account:
    """The account of a ticket and a sound settlement of it; another is refused with 17."""
    terms, answer = _bytes_of(ticket), _bytes_of(settlement)
    buffer = (ctypes.c_uint32 * _ACCOUNT_NUMBERS)()
    count = _checked(_library.exchange_account(terms, len(terms), answer, len(answer), buffer, len(buffer)))
    growers = terms[1]  # of a ticket that passed, the second byte
    return Account(tuple(buffer[:growers]), tuple(buffer[growers:count:2]), tuple(buffer[growers + 1 : count : 2]))


def sheet(ticket: TicketLike) -> str:
    """The sheet of a ticket: the ticket settled, as lines of text."""
    data = _bytes_of(ticket)
    buffer = (ctypes.c_uint8 * _SHEET_BYTES)()
    text = _written(buffer, _library.exchange_sheet(data, len(data), buffer, len(buffer))).decode("ascii")
    if text.startswith("REFUSED "):
        raise Refused(int(text.split()[1]))
    return text


def windows(ticket: TicketLike, parties: Iterable[Iterable[tuple[int, int]]]) -> Ticket:
    """The ticket whose caps fit everybody's weekly windows.

    For each party, growers first, come its windows: the first and the closing hour of each, of the hours 0 to 168 of a week.
    """
    data = _bytes_of(ticket)
    listed = _numbers(number for party in parties for number in _windows_of(party))
    buffer = (ctypes.c_uint8 * _TICKET_BYTES)()
    reply = _library.exchange_windows(data, len(data), listed, len(listed), buffer, len(buffer))
    return Ticket.from_bytes(_written(buffer, reply))


def _windows_of(party: Iterable[tuple[int, int]]) -> list[int]:
    stretches = [(first, closing) for first, closing in party]
    return [len(stretches), *(hour for stretch in stretches for hour in stretch)]


class Market:
    """A market that is held open: calls change its ticket, and after each a sound settlement stands by, with everybody's free hours.

    A call that is refused raises `Refused` and changes nothing.
    """

    def __init__(self, ticket: TicketLike) -> None:
        data = _bytes_of(ticket)
        self._numbers = (ctypes.c_uint16 * _MARKET_NUMBERS)()
        _checked(_library.exchange_open(data, len(data), self._numbers, len(self._numbers)))

    def set_grower_hours(self, grower: int, hours: int) -> None:
        """Sets a grower's hours; 0 also clears the terms of all his pairs."""
        self._call(1, grower, hours, 0, 0, 0, 0, 0)

    def set_pilot_hours(self, pilot: int, hours: int) -> None:
        """Sets a pilot's hours; 0 also clears the terms of all his pairs."""
        self._call(2, pilot, hours, 0, 0, 0, 0, 0)

    def set_pair(self, grower: int, pilot: int, terms: Terms) -> None:
        """Sets the terms of a pair."""
        self._call(3, grower, pilot, *astuple(terms))

    def _call(self, *numbers: int) -> None:
        call = _numbers(numbers)
        _checked(_library.exchange_call(self._numbers, len(self._numbers), call, len(call)))

    @property
    def ticket(self) -> Ticket:
        """The ticket as the calls left it."""
        growers, pilots = self._numbers[1:3]
        return Ticket.from_numbers(self._numbers[: 3 + growers + pilots + 5 * growers * pilots])

    @property
    def settlement(self) -> Settlement:
        """The sound settlement of it that is held."""
        buffer = (ctypes.c_uint8 * _SETTLEMENT_BYTES)()
        reply = _library.exchange_market_settlement(self._numbers, len(self._numbers), buffer, len(buffer))
        return Settlement.from_bytes(_written(buffer, reply))

    @property
    def grower_free_hours(self) -> tuple[int, ...]:
        """Each grower's hours that are in no deal."""
        return tuple(self._numbers[_GROWER_FREE_HOURS : _GROWER_FREE_HOURS + self._numbers[1]])

    @property
    def pilot_free_hours(self) -> tuple[int, ...]:
        """Each pilot's hours that are in no deal."""
        return tuple(self._numbers[_PILOT_FREE_HOURS : _PILOT_FREE_HOURS + self._numbers[2]])
