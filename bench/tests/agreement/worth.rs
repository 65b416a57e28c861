//! On tickets without tariff deals every sound settlement has the greatest worth, which a flow of hours finds by itself.

use exchange_bench::draw::generator::Generator;
use exchange_bench::draw::settlements::any_settlement;
use exchange_bench::draw::shapes::shapes;
use exchange_bench::draw::tickets::{STYLES, any_ticket, free_deals_of, ticket};
use exchange_bench::lemon::{Begin, best_total};
use exchange_bench::plain::flow::greatest_worth;
use exchange_bench::plain::mark::{Finding, Market, judge};
use exchange_bench::plain::method::{Rises, settle_ticket};
use exchange_bench::plain::settlement::{Agreement, Settlement};
use exchange_bench::plain::squares::TicketSquares;
use exchange_bench::plain::ticket::Ticket;
use exchange_bench::proved;

use crate::mark::sound_settlement;
use crate::tally::Tally;

const TICKETS: usize = 20_000;
const SETTLEMENTS_OF_EACH: usize = 8;
const LONG_TICKETS_OF_EACH_STYLE: usize = 20;

/// Prices that rise one by one take long: only up to so many pairs.
const FEW_PAIRS: usize = 16;

const ABOVE_0: &str = "ticket, greatest worth above 0";
const SOUND: &str = "sound settlement, worth the greatest";
const OTHER: &str = "sound settlement with other hours, worth as much";
const BY_LEMON: &str = "greatest worth, as LEMON finds it";
const LESS: &str = "feasible settlement, worth less";
const AS_MUCH: &str = "feasible settlement, not sound, worth as much";

/// A ticket without tariff deals, and what its settlements are compared with.
struct Compared {
    ticket: Ticket,
    greatest: u64,
    ours: Settlement,
}

impl Compared {
    /// The settlement that the proved settler makes is worth the greatest.
    fn new(ticket: Ticket, tally: &mut Tally) -> Compared {
        let compared = Compared {
            greatest: greatest_worth(&ticket),
            ours: sound_settlement(&ticket),
            ticket,
        };
        compared.sound(&compared.ours, tally);
        compared.by_lemon(tally);
        if compared.greatest > 0 {
            tally.kind(ABOVE_0);
        }
        compared
    }

    fn worth(&self, settlement: &Settlement) -> Result<u64, u8> {
        proved::worth(&self.ticket.bytes(), &settlement.bytes())
    }

    /// A settlement that is sound.
    fn sound(&self, settlement: &Settlement, tally: &mut Tally) {
        let worth = self.worth(settlement);
        assert_eq!(worth, Ok(self.greatest), "{:?}", self.ticket);
        tally.compared(SOUND);
        if hours(settlement).ne(hours(&self.ours)) {
            tally.kind(OTHER);
        }
    }

    /// LEMON finds the same total, if it is there.
    fn by_lemon(&self, tally: &mut Tally) {
        for begin in Begin::BOTH {
            if let Some(total) = best_total(&TicketSquares::of(&self.ticket), begin) {
                assert_eq!(total, self.greatest, "{:?}", self.ticket);
                tally.compared(BY_LEMON);
            }
        }
    }

    /// A settlement of the same size.
    fn any(&self, settlement: &Settlement, tally: &mut Tally) {
        let ticket = &self.ticket;
        let finding = judge(ticket, settlement).finding;
        if finding == Finding::Sound {
            return self.sound(settlement, tally);
        }
        assert_eq!(self.worth(settlement), Ok(0));
        let market = Market { ticket, settlement };
        match market.infeasible() {
            Some(_) => tally.compared("settlement that is not feasible"),
            None => {
                let gains = market.gain_total();
                assert!(gains <= self.greatest, "{ticket:?} {settlement:?}");
                tally.compared(if gains < self.greatest { LESS } else { AS_MUCH });
            }
        }
    }

    /// Drawn settlements, sound and not.
    fn drawn(&self, generator: &mut Generator, tally: &mut Tally) {
        for _ in 0..SETTLEMENTS_OF_EACH {
            let (_, settlement) = any_settlement(generator, &self.ticket, &self.ours);
            let same_size = settlement.growers == self.ticket.growers()
                && settlement.pilots == self.ticket.pilots();
            if same_size {
                self.any(&settlement, tally);
            }
        }
    }

    /// The settlement that comes of growers as pilots and pilots as growers: it is sound too, and best for the others.
    fn turned(&self, tally: &mut Tally) {
        let of_turned = sound_settlement(&turned(&self.ticket));
        self.any(&turned_back(&self.ticket, &of_turned), tally);
        tally.kind("settled with growers as pilots");
    }

    fn without_jumps(&self, tally: &mut Tally) {
        let (settlement, _) = settle_ticket(&self.ticket, Rises::ByOne);
        self.sound(&settlement, tally);
        tally.kind("settled without jumps");
    }
}

fn hours(settlement: &Settlement) -> impl Iterator<Item = u16> {
    let hours = |agreement: &Agreement| agreement.free_deal_hours;
    settlement.agreements.iter().map(hours)
}

/// The ticket with growers as pilots and pilots as growers.
pub fn turned(ticket: &Ticket) -> Ticket {
    let growers = ticket.growers();
    let terms = |pair| *ticket.terms(pair % growers, pair / growers);
    Ticket {
        grower_hours: ticket.pilot_hours.clone(),
        pilot_hours: ticket.grower_hours.clone(),
        terms: (0..ticket.pairs()).map(terms).collect(),
    }
}

/// A settlement of the turned ticket as one of the ticket itself: what it pays the one is left to the other.
fn turned_back(ticket: &Ticket, of_turned: &Settlement) -> Settlement {
    let pilots = ticket.pilots();
    let mut settlement = Settlement::empty(ticket);
    for (pair, agreement) in settlement.agreements.iter_mut().enumerate() {
        let (grower, pilot) = (pair / pilots, pair % pilots);
        let other = of_turned.agreement(pilot, grower);
        if other.free_deal_hours > 0 {
            *agreement = Agreement {
                pay: ticket.terms(grower, pilot).joint_gain - other.pay,
                ..*other
            };
        }
    }
    settlement
}

#[test]
fn sound_settlements_have_the_greatest_worth() {
    let mut generator = Generator::new(10);
    let mut tally = Tally::default();
    for _ in 0..TICKETS {
        let ticket = free_deals_of(&any_ticket(&mut generator));
        let pairs = ticket.pairs();
        let compared = Compared::new(ticket, &mut tally);
        compared.drawn(&mut generator, &mut tally);
        compared.turned(&mut tally);
        if pairs <= FEW_PAIRS {
            compared.without_jumps(&mut tally);
        }
    }
    tally.report("worths of tickets without tariff deals");
    tally.expect_at_least(TICKETS as u64 / 2, ABOVE_0);
    tally.expect_at_least(TICKETS as u64 / 20, OTHER);
    tally.expect_at_least(TICKETS as u64 / 2, LESS);
    if cfg!(lemon) {
        tally.expect_at_least(2 * TICKETS as u64, BY_LEMON);
    }
}

#[test]
fn long_tickets_have_the_greatest_worth() {
    let mut generator = Generator::new(11);
    let mut tally = Tally::default();
    let mut tickets: Vec<Ticket> = Vec::new();
    for _ in 0..LONG_TICKETS_OF_EACH_STYLE {
        for style in STYLES {
            tickets.push(ticket(&mut generator, 16, 16, style));
            let growers = 9 + generator.below(8);
            let pilots = 9 + generator.below(8);
            tickets.push(ticket(&mut generator, growers, pilots, style));
        }
    }
    tickets.extend(shapes().into_iter().flat_map(|shape| shape.tickets));
    for ticket in &tickets {
        let compared = Compared::new(free_deals_of(ticket), &mut tally);
        compared.drawn(&mut generator, &mut tally);
        compared.turned(&mut tally);
    }
    tally.report("worths of long tickets without tariff deals");
    tally.expect_at_least(tickets.len() as u64 / 2, ABOVE_0);
}
