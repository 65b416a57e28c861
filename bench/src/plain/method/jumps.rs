//! Jumps: the prices of tied pilots rise together, as far as growers and pilots bear it.

use super::{Held, Offer, SIDE, State};

/// More than any hour is worth.
const MANY: u32 = 20_000;

/// More than any price.
const TOP: u32 = 9001;

/// A free deal may offer so many parts less and still tie.
const CLOSE: u32 = 3;

type Marks = [bool; SIDE];

/// Raises the prices of a pilot and of those tied to him, if they all bear it.
pub(super) fn jump(state: &mut State, pilot: usize) -> bool {
    let marks = tied(state, pilot);
    let by = pilots_slack(state, &marks).min(growers_slack(state, &marks));
    for (price, _) in state
        .price
        .iter_mut()
        .zip(marks)
        .filter(|(_, marked)| *marked)
    {
        *price += by;
    }
    by > 0
}

/// A pilot, and the pilots tied to him over growers: rounds over all growers, until one ties nobody.
fn tied(state: &State, pilot: usize) -> Marks {
    let mut marks = [false; SIDE];
    marks[pilot] = true;
    loop {
        let before = marks;
        for grower in 0..state.growers {
            tie_in(state, grower, &mut marks);
        }
        if marks == before {
            return marks;
        }
    }
}

/// Marks every pilot whose free deal offers the grower as much as his least free-deal hour with a marked one, or little less.
fn tie_in(state: &State, grower: usize, marks: &mut Marks) {
    let low = least_worth(state, grower, marks).saturating_sub(CLOSE);
    for ((offer, held, price), mark) in row(state, grower).zip(marks) {
        *mark |= low <= offer.free_chance(held, price);
    }
}

/// What a grower holds with each pilot and on what terms, and the pilot's price.
fn row(state: &State, grower: usize) -> impl Iterator<Item = (&Offer, &Held, u32)> {
    state.offers[grower]
        .iter()
        .zip(&state.held[grower])
        .zip(&state.price[..state.pilots])
        .map(|((offer, held), &price)| (offer, held, price))
}

/// The least that a free-deal hour of a grower with a marked pilot is worth to him, and 1.
fn least_worth(state: &State, grower: usize, marks: &Marks) -> u32 {
    row(state, grower)
        .zip(marks)
        .filter(|(_, marked)| **marked)
        .map(|((offer, held, price), _)| free_hour_worth(offer, held, price))
        .min()
        .map_or(MANY, |worth| worth.min(MANY))
}

fn free_hour_worth(offer: &Offer, held: &Held, price: u32) -> u32 {
    if held.new > 0 {
        (offer.joint_gain + 1).saturating_sub(price)
    } else if held.old > 0 {
        (offer.joint_gain + 2).saturating_sub(price)
    } else {
        MANY
    }
}

/// The greatest of a grower's chances, but for the free deals with marked pilots; at least 1.
fn top_outside(state: &State, grower: usize, marks: &Marks) -> u32 {
    let mut top = 1;
    for ((offer, held, price), &marked) in row(state, grower).zip(marks) {
        top = top.max(offer.tariff_chance(held, price));
        if !marked {
            top = top.max(offer.free_chance(held, price));
        }
    }
    top
}

/// How far prices may rise before a free-deal hour is worth less to some grower than another deal.
fn growers_slack(state: &State, marks: &Marks) -> u32 {
    (0..state.growers)
        .map(|grower| {
            least_worth(state, grower, marks).saturating_sub(top_outside(state, grower, marks))
        })
        .fold(TOP, u32::min)
}

/// How far prices may rise before a tariff hour pays some marked pilot too little: not at all, if one has a free hour.
fn pilots_slack(state: &State, marks: &Marks) -> u32 {
    (0..state.pilots)
        .filter(|&pilot| marks[pilot])
        .map(|pilot| pilot_slack(state, pilot))
        .fold(TOP, u32::min)
}

fn pilot_slack(state: &State, pilot: usize) -> u32 {
    if state.pilot_free[pilot] > 0 {
        return 0;
    }
    let price = state.price[pilot];
    (0..state.growers)
        .filter(|&grower| state.held[grower][pilot].tariff > 0)
        .map(|grower| (state.offers[grower][pilot].tariff_pay + 1).saturating_sub(price))
        .fold(TOP.saturating_sub(price), u32::min)
}
