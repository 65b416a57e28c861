//! Marking by the words of the paper: every spare is listed, hour by hour, and every two spares are tried.

use std::iter::repeat_n;

use super::settlement::{Agreement, Settlement};
use super::ticket::{Terms, Ticket};
use super::{Deal, Refusal};

/// The kinds of verdict; the numbers are the paper's.
#[derive(Clone, Copy, Debug, PartialEq, Eq)]
#[repr(u8)]
pub enum Finding {
    Sound = 1,
    TariffOverCap = 2,
    FreeOverCap = 3,
    WrongPay = 4,
    GrowerOverHours = 5,
    PilotOverHours = 6,
    Idle = 7,
    Blocks = 8,
}

/// A finding with its places. Those that it has no use for are 0, and the deal is then the tariff deal.
#[derive(Clone, Copy, Debug, PartialEq, Eq)]
pub struct Verdict {
    pub finding: Finding,
    pub grower: usize,
    pub pilot: usize,
    pub deal: Deal,
    /// How many deals the last walk looked at.
    pub count: usize,
    /// Of a sound settlement of a ticket without tariff deals, what all its hours gain; else 0.
    pub worth: u64,
}

/// One deal of a ticket.
#[derive(Clone, Copy, Debug, PartialEq, Eq)]
pub struct Place {
    pub grower: usize,
    pub pilot: usize,
    pub deal: Deal,
}

/// Marks a settlement of a ticket.
pub fn mark(ticket: &[u8], settlement: &[u8]) -> Result<Verdict, Refusal> {
    mark_by(judge, ticket, settlement)
}

/// Reads the two files, and has them judged.
pub fn mark_by(
    judge: impl Fn(&Ticket, &Settlement) -> Verdict,
    ticket: &[u8],
    settlement: &[u8],
) -> Result<Verdict, Refusal> {
    let ticket = Ticket::read(ticket)?;
    let settlement = Settlement::read(settlement, &ticket)?;
    Ok(judge(&ticket, &settlement))
}

/// The verdict on a settlement that was read for this ticket.
pub fn judge(ticket: &Ticket, settlement: &Settlement) -> Verdict {
    Market { ticket, settlement }.judge_by(Market::blocks)
}

/// A ticket and a settlement of it.
#[derive(Clone, Copy)]
pub struct Market<'a> {
    pub ticket: &'a Ticket,
    pub settlement: &'a Settlement,
}

impl Market<'_> {
    /// The verdict, by a test whether an unfilled deal blocks.
    pub fn judge_by(&self, blocks: impl Fn(&Self, &FreeHours, Place) -> bool) -> Verdict {
        self.infeasible().unwrap_or_else(|| {
            let free = FreeHours::of(self);
            self.walk_deals(&free, |place| blocks(self, &free, place))
        })
    }

    /// The first fault of pairs, then of growers, then of pilots.
    pub fn infeasible(&self) -> Option<Verdict> {
        self.wrong_pair()
            .or_else(|| self.grower_over())
            .or_else(|| self.pilot_over())
    }

    fn pairs(&self) -> impl Iterator<Item = (usize, usize)> {
        let pilots = self.ticket.pilots();
        (0..self.ticket.pairs()).map(move |pair| (pair / pilots, pair % pilots))
    }

    pub fn pair(&self, grower: usize, pilot: usize) -> (&Terms, &Agreement) {
        (
            self.ticket.terms(grower, pilot),
            self.settlement.agreement(grower, pilot),
        )
    }

    fn wrong_pair(&self) -> Option<Verdict> {
        self.pairs().find_map(|(grower, pilot)| {
            let (terms, agreement) = self.pair(grower, pilot);
            let (finding, deal) = pair_fault(terms, agreement)?;
            Some(Verdict {
                finding,
                grower,
                pilot,
                deal,
                count: 0,
                worth: 0,
            })
        })
    }

    fn grower_over(&self) -> Option<Verdict> {
        let over = |&grower: &usize| self.used_by_grower(grower) > self.grower_hours(grower);
        let grower = (0..self.ticket.growers()).find(over)?;
        Some(party_verdict(Finding::GrowerOverHours, grower, 0))
    }

    fn pilot_over(&self) -> Option<Verdict> {
        let over = |&pilot: &usize| self.used_by_pilot(pilot) > self.pilot_hours(pilot);
        let pilot = (0..self.ticket.pilots()).find(over)?;
        Some(party_verdict(Finding::PilotOverHours, 0, pilot))
    }

    fn grower_hours(&self, grower: usize) -> u32 {
        u32::from(self.ticket.grower_hours[grower])
    }

    fn pilot_hours(&self, pilot: usize) -> u32 {
        u32::from(self.ticket.pilot_hours[pilot])
    }

    fn used_by_grower(&self, grower: usize) -> u32 {
        (0..self.ticket.pilots())
            .map(|pilot| hours_of_both(self.settlement.agreement(grower, pilot)))
            .sum()
    }

    fn used_by_pilot(&self, pilot: usize) -> u32 {
        (0..self.ticket.growers())
            .map(|grower| hours_of_both(self.settlement.agreement(grower, pilot)))
            .sum()
    }

    /// The last walk: the first deal that is idle or blocks, or sound.
    pub fn walk_deals(&self, free: &FreeHours, blocks: impl Fn(Place) -> bool) -> Verdict {
        let mut count = 0;
        for (grower, pilot) in self.pairs() {
            for deal in Deal::BOTH {
                count += 1;
                let place = Place {
                    grower,
                    pilot,
                    deal,
                };
                if !self.is_unfilled(place) {
                    continue;
                }
                if free.of_growers[grower] > 0 && free.of_pilots[pilot] > 0 {
                    return deal_verdict(Finding::Idle, place, count);
                }
                if blocks(place) {
                    return deal_verdict(Finding::Blocks, place, count);
                }
            }
        }
        self.sound()
    }

    /// The verdict on a settlement that is sound.
    pub fn sound(&self) -> Verdict {
        Verdict {
            count: 2 * self.ticket.pairs(),
            worth: self.promised_worth(),
            ..party_verdict(Finding::Sound, 0, 0)
        }
    }

    /// The worth that is given with a sound settlement: 0 where a tariff cap is above 0.
    fn promised_worth(&self) -> u64 {
        if self.ticket.has_tariff_deal() {
            0
        } else {
            self.gain_total()
        }
    }

    /// What all hours of free deals gain together.
    pub fn gain_total(&self) -> u64 {
        let gains = self.pairs().map(|(grower, pilot)| {
            let (terms, agreement) = self.pair(grower, pilot);
            u64::from(agreement.free_deal_hours) * u64::from(terms.joint_gain)
        });
        gains.sum()
    }

    fn is_unfilled(&self, place: Place) -> bool {
        let (terms, agreement) = self.pair(place.grower, place.pilot);
        match place.deal {
            Deal::Tariff => agreement.tariff_hours < terms.tariff_cap,
            Deal::Free => agreement.free_deal_hours < terms.free_cap,
        }
    }

    /// An unfilled deal blocks.
    fn blocks(&self, free: &FreeHours, place: Place) -> bool {
        let terms = self.ticket.terms(place.grower, place.pilot);
        let of_grower = self.spares_of_grower(free, place);
        let of_pilot = self.spares_of_pilot(free, place);
        match place.deal {
            Deal::Tariff => {
                of_grower.iter().any(|&worth| worth < terms.tariff_gain)
                    && of_pilot.iter().any(|&worth| worth < terms.tariff_pay)
            }
            Deal::Free => of_grower
                .iter()
                .any(|&one| of_pilot.iter().any(|&other| terms.gain_beyond(one, other))),
        }
    }

    /// What each spare of the deal's grower is worth to him: his free hours, and his hours in all other deals.
    fn spares_of_grower(&self, free: &FreeHours, place: Place) -> Vec<u16> {
        let grower = place.grower;
        let mut spares = vec![0; free.of_growers[grower] as usize];
        for pilot in 0..self.ticket.pilots() {
            self.add_spares(&mut spares, (grower, pilot), place, grower_earns);
        }
        spares
    }

    /// The same for the deal's pilot.
    fn spares_of_pilot(&self, free: &FreeHours, place: Place) -> Vec<u16> {
        let pilot = place.pilot;
        let mut spares = vec![0; free.of_pilots[pilot] as usize];
        for grower in 0..self.ticket.growers() {
            self.add_spares(&mut spares, (grower, pilot), place, pilot_earns);
        }
        spares
    }

    /// Adds what each hour of a pair earns a party, but for the hours of the deal itself.
    fn add_spares(
        &self,
        spares: &mut Vec<u16>,
        (grower, pilot): (usize, usize),
        place: Place,
        earns: fn(&Terms, &Agreement, Deal) -> (u16, u16),
    ) {
        let (terms, agreement) = self.pair(grower, pilot);
        for deal in Deal::BOTH {
            let other = Place {
                grower,
                pilot,
                deal,
            };
            if other != place {
                let (hours, worth) = earns(terms, agreement, deal);
                spares.extend(repeat_n(worth, usize::from(hours)));
            }
        }
    }
}

/// The hours of each party that are in no deal, of a settlement that gives nobody too many.
pub struct FreeHours {
    pub of_growers: Vec<u32>,
    pub of_pilots: Vec<u32>,
}

impl FreeHours {
    pub fn of(market: &Market) -> FreeHours {
        FreeHours {
            of_growers: (0..market.ticket.growers())
                .map(|grower| market.grower_hours(grower) - market.used_by_grower(grower))
                .collect(),
            of_pilots: (0..market.ticket.pilots())
                .map(|pilot| market.pilot_hours(pilot) - market.used_by_pilot(pilot))
                .collect(),
        }
    }
}

fn pair_fault(terms: &Terms, agreement: &Agreement) -> Option<(Finding, Deal)> {
    if agreement.tariff_hours > terms.tariff_cap {
        return Some((Finding::TariffOverCap, Deal::Tariff));
    }
    if agreement.free_deal_hours > terms.free_cap {
        return Some((Finding::FreeOverCap, Deal::Free));
    }
    let most_pay = if agreement.free_deal_hours == 0 {
        0
    } else {
        terms.joint_gain
    };
    (agreement.pay > most_pay).then_some((Finding::WrongPay, Deal::Free))
}

fn hours_of_both(agreement: &Agreement) -> u32 {
    u32::from(agreement.tariff_hours) + u32::from(agreement.free_deal_hours)
}

/// The hours of a deal, and what each is worth to its grower. The pay of a free-deal hour is at most the joint gain; of no
/// hours the worth means nothing.
pub fn grower_earns(terms: &Terms, agreement: &Agreement, deal: Deal) -> (u16, u16) {
    match deal {
        Deal::Tariff => (agreement.tariff_hours, terms.tariff_gain),
        Deal::Free => (agreement.free_deal_hours, terms.joint_gain - agreement.pay),
    }
}

/// The hours of a deal, and what each is worth to its pilot.
pub fn pilot_earns(terms: &Terms, agreement: &Agreement, deal: Deal) -> (u16, u16) {
    match deal {
        Deal::Tariff => (agreement.tariff_hours, terms.tariff_pay),
        Deal::Free => (agreement.free_deal_hours, agreement.pay),
    }
}

fn party_verdict(finding: Finding, grower: usize, pilot: usize) -> Verdict {
    Verdict {
        finding,
        grower,
        pilot,
        deal: Deal::Tariff,
        count: 0,
        worth: 0,
    }
}

fn deal_verdict(finding: Finding, place: Place, count: usize) -> Verdict {
    Verdict {
        finding,
        grower: place.grower,
        pilot: place.pilot,
        deal: place.deal,
        count,
        worth: 0,
    }
}
