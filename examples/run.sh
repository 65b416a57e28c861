#!/usr/bin/env bash
# Builds mark.c, market.c and windows.c over the library that make built, and runs them, mark.py and market.py on the example files. Each says
# what it must: the verdict, and of a sound settlement its worth, if there is no tariff deal, and the account; of an open market everybody's free
# hours; of weekly windows the caps that they leave. So does the command exchange, in its own words; and what its desk saves is what it holds,
# and sound. Marking ends with the same exit status in all three: 0 for sound, 1 for not sound, 2 for a refusal.
# The exit status is 1 if any does not, or if something cannot be built.
set -eu
root=$(cd "$(dirname "$0")/.." && pwd)
examples=$root/examples
built=$root/target/make
archive=$built/libhours_exchange.a
program=$built/exchange
out=$root/target/examples

if [ ! -f "$archive" ] || [ ! -x "$program" ]; then
    echo "building the library and the command: make"
    make -C "$root" >/dev/null || { echo "run.sh: make failed"; exit 1; }
fi
mkdir -p "$out"
for name in mark market windows; do
    gcc -std=c11 -O2 -Wall -Wextra -pedantic -Werror -I"$root/include" "$examples/$name.c" "$archive" -o "$out/$name" || exit 1
done
export HOURS_EXCHANGE_LIBRARY=$built/libhours_exchange.so.1 PYTHONPATH=$root/python PYTHONDONTWRITEBYTECODE=1

passed=0
failed=0

# compare NAME EXPECTED COMMAND..
compare() {
    local name=$1 expected=$2 said
    shift 2
    said=$("$@" 2>&1) || true
    if [ "$said" = "$expected" ]; then
        passed=$((passed + 1))
    else
        failed=$((failed + 1))
        printf 'FAILED %s\n  expected: %s\n  said:     %s\n' "$name" "$expected" "$said"
    fi
}

# What a command prints, and its exit status.
with_status() {
    local status=0
    "$@" || status=$?
    echo "status $status"
}

# expect TICKET SETTLEMENT STATUS LINE..
expect() {
    local name="$1 $2" ticket=$examples/$1.ticket settlement=$examples/$2.settlement shown=$2 status=$3 lines line
    shift 3
    lines=$(printf '%s\n' "$@" "status $status")
    for line in "$@"; do
        printf '%-28s %s\n' "$shown" "$line"
        shown=
    done
    compare "mark.c $name" "$lines" with_status "$out/mark" "$ticket" "$settlement"
    compare "mark.py $name" "$lines" with_status python3 "$examples/mark.py" "$ticket" "$settlement"
    compare "exchange mark $name" "status $status" with_status eval "\"$program\" mark \"$ticket\" \"$settlement\" >/dev/null 2>&1"
}

# What `exchange mark` says before its own sheet.
marked() {
    "$program" mark "$1" "$2" | sed '/^SHEET/,$d'
}

# expect_program TICKET SETTLEMENT LINE..
expect_program() {
    local name="$1 $2" ticket=$examples/$1.ticket settlement=$examples/$2.settlement
    shift 2
    compare "exchange mark $name" "$(printf '%s\n' "$@")" marked "$ticket" "$settlement"
}

# What the desk answers to the lines that are given, over a ticket; reasons are on standard error.
desk() {
    local ticket=$1
    shift
    printf '%s\n' "$@" | "$program" desk "$ticket" 2>/dev/null
}

# What the desk answers to a line, before another is written: it must not wait for more.
answer_at_once() {
    local answer
    coproc DESK { "$program" desk "$1" 2>/dev/null; }
    printf '%s\n' "$2" >&"${DESK[1]}"
    read -r -t 10 answer <&"${DESK[0]}"
    printf '%s\n' "$answer"
    exec {DESK[1]}>&-
    wait
}

# What `exchange windows` prints for the example week and a list, and then whether there is a new ticket; reasons are on standard error.
narrowed() {
    rm -f "$out/new.ticket"
    "$program" windows "$examples/week.ticket" "$1" "$out/new.ticket" 2>/dev/null
    [ -e "$out/new.ticket" ] && echo written
}

# settled_and_marked TICKET
settled_and_marked() {
    "$program" settle "$1" "$out/new.settlement"
    marked "$1" "$out/new.settlement"
}

expect small small-no_hours 1 "grower 0, pilot 0, tariff deal: idle, below its cap"
expect two_pilots two_pilots-sound 0 "sound: no deal is idle or blocks" \
    "worth 10 euros: no settlement of this ticket is worth more" \
    "grower 0 gains 7 euros" \
    "pilot 0 is paid 3 euros, commission 0.20 euros" \
    "pilot 1 is paid 0 euros, commission 0.00 euros"
expect two_pilots two_pilots-pay_above_3 1 "grower 0, pilot 1, free deal: blocks"
expect both_deals both_deals-sound 0 "sound: no deal is idle or blocks" \
    "grower 0 gains 0 euros" \
    "pilot 0 is paid 12 euros, commission 0.78 euros"
expect both_deals both_deals-tariff_hour 1 "grower 0, pilot 0, free deal: blocks"
expect week week-sound 0 "sound: no deal is idle or blocks" \
    "grower 0 gains 140 euros" \
    "grower 1 gains 60 euros" \
    "grower 2 gains 210 euros" \
    "pilot 0 is paid 300 euros, commission 17.20 euros" \
    "pilot 1 is paid 280 euros, commission 16.36 euros" \
    "pilot 2 is paid 285 euros, commission 16.57 euros"
expect week week-one_hour_less 1 "grower 0, pilot 0, tariff deal: idle, below its cap"
expect week week-grower_over_hours 1 "grower 1: more hours than his own"
expect week_pilot_off week-sound 2 "refused with 18: ticket: a cap above 0, but the grower or the pilot has no hours"
expect week week-cut_short 2 "refused with 11: settlement: it ends early"
expect week small-no_hours 2 "refused with 15: settlement: growers or pilots unlike the ticket's"

expect_program two_pilots two_pilots-sound "MARK 1 0 0 tariff 4" \
    "sound: no deal is idle or blocks" \
    "worth 10: no settlement of this ticket is worth more"
expect_program both_deals both_deals-sound "MARK 1 0 0 tariff 2" \
    "sound: no deal is idle or blocks"
expect_program two_pilots two_pilots-pay_above_3 "MARK 8 0 1 free 4" \
    "grower 0, pilot 1, free deal: blocks" \
    "an hour more earns them 7 together" \
    "grower 0 gives up an hour with pilot 0, free deal, worth 6" \
    "pilot 1 gives up a free hour, worth 0"

saved=$out/desk.ticket
settlement=$out/desk.settlement
rm -f "$saved" "$settlement"
compare "exchange desk: save" "$(printf '%s\n' OK "REFUSED 19" "REFUSED 20" "?" OK)" \
    desk "$examples/two_pilots.ticket" "pair 0 1 0 0 0 1 12" "pilot 2 hours 1" "grower 0 hours 61" "save $saved" \
    "save $saved $settlement"
compare "exchange desk: the saved ticket" "$("$program" unpack "$examples/two_pilots.ticket" | sed '$s/gain 7$/gain 12/')" \
    "$program" unpack "$saved"
compare "exchange desk: the saved settlement" "$(printf '%s\n' "MARK 1 0 0 tariff 4" "sound: no deal is idle or blocks" \
    "worth 12: no settlement of this ticket is worth more")" marked "$saved" "$settlement"
compare "exchange desk: free hours" "$(printf '%s\n' "growers 0" "pilots 0 1" OK "growers 0" "pilots 1 0" OK "growers 0" "pilots 1 1")" \
    desk "$examples/two_pilots.ticket" free "pair 0 1 0 0 0 1 12" free "grower 0 hours 0" free
compare "exchange desk: save to no folder" FAILED desk "$examples/two_pilots.ticket" "save $out/none/a $out/none/b"
compare "exchange desk: a refused ticket" "REFUSED 18" desk "$examples/week_pilot_off.ticket" sheet
compare "exchange desk: an answer before the next line" "REFUSED 19" answer_at_once "$examples/two_pilots.ticket" "grower 1 hours 1"

compare "market.c week" "$(printf '%s\n' "opened: refusal 0, verdict 1, count 18" \
    "free hours: growers 1 0 0, pilots 0 0 0" \
    "pilot 1 is off: refusal 0, verdict 1, count 18" \
    "free hours: growers 1 4 0, pilots 0 0 0" \
    "a cap with pilot 1: refusal 20, verdict 1, count 18" \
    "free hours: growers 1 4 0, pilots 0 0 0" \
    "grower 16: refusal 19, verdict 1, count 18" \
    "free hours: growers 1 4 0, pilots 0 0 0" \
    "new terms: refusal 0, verdict 1, count 18" \
    "free hours: growers 3 2 0, pilots 0 0 0" \
    "grower 0 is off: refusal 0, verdict 1, count 18" \
    "free hours: growers 0 0 0, pilots 0 0 1")" "$out/market" "$examples/week.ticket"
compare "market.py week" "$(printf '%s\n' "free hours of growers: 1 0 0" "without pilot 1: 1 4 0" "sound: no deal is idle or blocks" \
    "refused with 19: call: no such grower or pilot")" python3 "$examples/market.py" "$examples/week.ticket"
compare "market.c week_pilot_off" "refused with 18" "$out/market" "$examples/week_pilot_off.ticket"

compare "windows.c week" "$(printf '%s\n' "pair 0 0: tariff cap 2, free cap 3 to 1" \
    "pair 0 1: tariff cap 0, free cap 4 to 3" \
    "pair 0 2: tariff cap 3 to 0, free cap 2 to 0" \
    "pair 1 0: tariff cap 3, free cap 0" \
    "pair 1 1: tariff cap 2, free cap 4 to 1" \
    "pair 1 2: tariff cap 0, free cap 3 to 1" \
    "pair 2 0: tariff cap 0, free cap 4 to 0" \
    "pair 2 1: tariff cap 3 to 0, free cap 2 to 0" \
    "pair 2 2: tariff cap 2 to 0, free cap 5 to 0" \
    "settled anew: verdict 1, count 18" \
    "the last hour is missing: refused with 21" \
    "a window begins before the last has closed: refused with 22")" "$out/windows" "$examples/week.ticket"
compare "windows.c week_pilot_off" "refused with 18" "$out/windows" "$examples/week_pilot_off.ticket"

rm -f "$out/answer.settlement"
compare "exchange pack: an answer by hand" "" "$program" pack "$examples/two_pilots-answer.text" "$out/answer.settlement"
compare "exchange pack: its bytes" "" cmp "$examples/two_pilots-pay_above_3.settlement" "$out/answer.settlement"
compare "exchange pack: a mistake" "$(printf '%s\n' "REFUSED 7" "status 2")" \
    with_status eval "\"$program\" pack \"$examples/two_pilots-mistaken.text\" \"$out/mistaken.ticket\" 2>/dev/null"

cut=$out/cut.windows
overlapping=$out/overlapping.windows
sed '$d' "$examples/week.windows" >"$cut"
sed 's/53 55 55 57/53 56 55 57/' "$examples/week.windows" >"$overlapping"
compare "exchange windows: a list that ends early" "REFUSED 21" narrowed "$cut"
compare "exchange windows: windows that overlap" "REFUSED 22" narrowed "$overlapping"
compare "exchange windows: the new ticket" written narrowed "$examples/week.windows"
compare "exchange windows: its numbers" "$("$program" unpack "$examples/week.ticket" | sed '/^pair/d'
    printf '%s\n' "pair 0 0 tariff cap 2 gain 40 pay 45 free cap 1 joint gain 90" \
        "pair 0 1 tariff cap 0 gain 0 pay 0 free cap 3 joint gain 70" \
        "pair 0 2 tariff cap 3 gain 50 pay 50 free cap 0 joint gain 0" \
        "pair 1 0 tariff cap 0 gain 0 pay 0 free cap 0 joint gain 0" \
        "pair 1 1 tariff cap 2 gain 30 pay 55 free cap 0 joint gain 0" \
        "pair 1 2 tariff cap 0 gain 0 pay 0 free cap 0 joint gain 0" \
        "pair 2 0 tariff cap 0 gain 0 pay 0 free cap 2 joint gain 100" \
        "pair 2 1 tariff cap 2 gain 35 pay 30 free cap 0 joint gain 0" \
        "pair 2 2 tariff cap 2 gain 45 pay 60 free cap 2 joint gain 95")" "$program" unpack "$out/new.ticket"
compare "exchange windows: its settlement" "$(printf '%s\n' "MARK 1 0 0 tariff 18" "sound: no deal is idle or blocks")" \
    settled_and_marked "$out/new.ticket"

echo "examples: $passed passed, $failed failed"
[ "$failed" -eq 0 ]
