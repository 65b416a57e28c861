//! Marking as the proved marker does it, the yardstick for its speed: what is certified is sound, and else deals are tested by
//! cheapest spares.

use super::certificate::certified;
use super::mark::{FreeHours, Market, Place, Verdict, grower_earns, mark_by, pilot_earns};
use super::settlement::{Agreement, Settlement};
use super::squares::{SettlementSquares, TicketSquares};
use super::ticket::{Terms, Ticket};
use super::{Deal, Refusal};

/// Answers as `mark::mark` does.
pub fn mark(ticket: &[u8], settlement: &[u8]) -> Result<Verdict, Refusal> {
    mark_by(judge, ticket, settlement)
}

/// Answers as `mark::judge` does.
pub fn judge(ticket: &Ticket, settlement: &Settlement) -> Verdict {
    let market = Market { ticket, settlement };
    if certified(
        &TicketSquares::of(ticket),
        &SettlementSquares::of(settlement),
    ) {
        market.sound()
    } else {
        market.judge_by(blocks)
    }
}

/// An unfilled deal blocks.
fn blocks(market: &Market, free: &FreeHours, place: Place) -> bool {
    let terms = market.ticket.terms(place.grower, place.pilot);
    let Some(of_grower) = cheapest_of_grower(market, free, place) else {
        return false;
    };
    let Some(of_pilot) = cheapest_of_pilot(market, free, place) else {
        return false;
    };
    match place.deal {
        Deal::Tariff => of_grower < terms.tariff_gain && of_pilot < terms.tariff_pay,
        Deal::Free => terms.gain_beyond(of_grower, of_pilot),
    }
}

fn cheapest_of_grower(market: &Market, free: &FreeHours, place: Place) -> Option<u16> {
    let grower = place.grower;
    if free.of_growers[grower] > 0 {
        return Some(0);
    }
    (0..market.ticket.pilots())
        .filter_map(|pilot| {
            let own = (pilot == place.pilot).then_some(place.deal);
            cheaper_deal(market.pair(grower, pilot), own, grower_earns)
        })
        .min()
}

fn cheapest_of_pilot(market: &Market, free: &FreeHours, place: Place) -> Option<u16> {
    let pilot = place.pilot;
    if free.of_pilots[pilot] > 0 {
        return Some(0);
    }
    (0..market.ticket.growers())
        .filter_map(|grower| {
            let own = (grower == place.grower).then_some(place.deal);
            cheaper_deal(market.pair(grower, pilot), own, pilot_earns)
        })
        .min()
}

/// The least worth of an hour in the deals of a pair, but for the deal `own`.
fn cheaper_deal(
    (terms, agreement): (&Terms, &Agreement),
    own: Option<Deal>,
    earns: impl Fn(&Terms, &Agreement, Deal) -> (u16, u16),
) -> Option<u16> {
    Deal::BOTH
        .into_iter()
        .filter(|&deal| Some(deal) != own)
        .filter_map(|deal| {
            let (hours, worth) = earns(terms, agreement, deal);
            (hours > 0).then_some(worth)
        })
        .min()
}
