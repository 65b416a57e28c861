"""Marks a settlement file against its ticket file, says the verdict in words, and prints the worth and the account of a sound settlement.

    python3 mark.py TICKET SETTLEMENT

The exit status is 0 for a sound settlement, 1 for another, and 2 for a refusal.
"""

import sys
from pathlib import Path

import hours_exchange


def account_lines(account):
    """What everybody has of a sound settlement, a line for each."""
    for grower, gain in enumerate(account.gains):
        yield f"grower {grower} gains {gain} euros"
    for pilot, (pay, cents) in enumerate(zip(account.pays, account.commissions)):
        yield f"pilot {pilot} is paid {pay} euros, commission {cents // 100}.{cents % 100:02} euros"


def main():
    if len(sys.argv) != 3:
        sys.exit("usage: mark.py TICKET SETTLEMENT")
    ticket, settlement = (Path(name).read_bytes() for name in sys.argv[1:])
    try:
        mark = hours_exchange.mark(ticket, settlement)
    except hours_exchange.Refused as refused:
        print(f"refused with {refused}")
        return 2
    print(mark)
    if not mark.is_sound:
        return 1
    # 0 where there is a tariff deal too, so that only a greater worth is a promise.
    if mark.worth > 0:
        print(f"worth {mark.worth} euros: no settlement of this ticket is worth more")
    print("\n".join(account_lines(hours_exchange.account(ticket, settlement))))
    return 0


if __name__ == "__main__":
    sys.exit(main())
