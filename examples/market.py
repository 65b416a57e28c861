"""Opens a week's market, and lets a pilot fall ill."""
import sys
import hours_exchange

with open(sys.argv[1], "rb") as file:
    market = hours_exchange.Market(file.read())
print("free hours of growers:", *market.grower_free_hours)
market.set_pilot_hours(1, 0)
print("without pilot 1:", *market.grower_free_hours)
print(hours_exchange.mark(market.ticket, market.settlement))
try:
    market.set_pilot_hours(3, 5)
except hours_exchange.Refused as refused:
    print("refused with", refused)
