//! The greatest worth of a ticket without tariff deals, by a flow of hours from growers to pilots: at most a party's hours
//! through the party, at most the free cap through a pair, where each hour gains c. Hours are sent on the path of greatest
//! gain, back over pairs too, as long as one gains anything (Ford and Fulkerson, *Flows in networks*, 1962). Nothing here
//! knows of prices, settlements or soundness.

use super::ticket::Ticket;

/// The most that feasible settlements of a ticket are worth, its tariff deals left aside.
pub fn greatest_worth(ticket: &Ticket) -> u64 {
    let mut network = Network::of(ticket);
    let mut worth = 0;
    while let Some(path) = network.best_path() {
        worth += network.send(&path);
    }
    worth
}

/// How many hours can still be sent to a node, and what each gains.
struct Arc {
    from: usize,
    to: usize,
    room: u16,
    gain: i64,
}

/// Two arcs that stand together, an even place and the next, lead there and back.
struct Network {
    nodes: usize,
    arcs: Vec<Arc>,
}

const SOURCE: usize = 0;
const SINK: usize = 1;

/// The arcs from the source to the sink, the last first.
type Path = Vec<usize>;

impl Network {
    fn of(ticket: &Ticket) -> Network {
        let (growers, pilots) = (ticket.growers(), ticket.pilots());
        let grower_node = |grower| 2 + grower;
        let pilot_node = |pilot| 2 + growers + pilot;
        let mut network = Network {
            nodes: 2 + growers + pilots,
            arcs: Vec::new(),
        };
        for (grower, &hours) in ticket.grower_hours.iter().enumerate() {
            network.connect(SOURCE, grower_node(grower), hours, 0);
        }
        for (pilot, &hours) in ticket.pilot_hours.iter().enumerate() {
            network.connect(pilot_node(pilot), SINK, hours, 0);
        }
        for grower in 0..growers {
            for pilot in 0..pilots {
                let terms = ticket.terms(grower, pilot);
                let gain = i64::from(terms.joint_gain);
                network.connect(grower_node(grower), pilot_node(pilot), terms.free_cap, gain);
            }
        }
        network
    }

    fn connect(&mut self, from: usize, to: usize, room: u16, gain: i64) {
        let there = Arc {
            from,
            to,
            room,
            gain,
        };
        let back = Arc {
            from: to,
            to: from,
            room: 0,
            gain: -gain,
        };
        self.arcs.extend([there, back]);
    }

    /// The path of greatest gain, if it gains anything. No round trip gains, so that nothing is left to do after as many
    /// rounds over all arcs as there are nodes.
    fn best_path(&self) -> Option<Path> {
        let mut gains = vec![None; self.nodes];
        let mut last_arc = vec![None; self.nodes];
        gains[SOURCE] = Some(0);
        let mut changed = true;
        while changed {
            changed = false;
            for (place, arc) in self.arcs.iter().enumerate() {
                let Some(gain) = gains[arc.from].filter(|_| arc.room > 0) else {
                    continue;
                };
                let more = Some(gain + arc.gain);
                if gains[arc.to] < more {
                    gains[arc.to] = more;
                    last_arc[arc.to] = Some(place);
                    changed = true;
                }
            }
        }
        gains[SINK].filter(|&gain| gain > 0)?;
        let mut path = Path::new();
        let mut node = SINK;
        while let Some(place) = last_arc[node] {
            path.push(place);
            node = self.arcs[place].from;
        }
        Some(path)
    }

    /// Sends as many hours on a path as there is room for, and says what they gain.
    fn send(&mut self, path: &Path) -> u64 {
        let room = |&place: &usize| self.arcs[place].room;
        let hours = path.iter().map(room).min().expect("a path has arcs");
        let gain: i64 = path.iter().map(|&place| self.arcs[place].gain).sum();
        for &place in path {
            self.arcs[place].room -= hours;
            self.arcs[place ^ 1].room += hours;
        }
        u64::from(hours) * gain as u64
    }
}

#[cfg(test)]
mod tests {
    use super::super::ticket::{Terms, Ticket};
    use super::greatest_worth;

    /// A ticket of one hour each, and of deals of one hour with these gains.
    fn one_hour_each(gains: [[u16; 2]; 2]) -> Ticket {
        let deal = |joint_gain| Terms {
            free_cap: 1,
            joint_gain,
            ..Terms::default()
        };
        Ticket {
            grower_hours: vec![1; 2],
            pilot_hours: vec![1; 2],
            terms: gains.into_iter().flatten().map(deal).collect(),
        }
    }

    #[test]
    fn not_the_dearest_pair() {
        assert_eq!(greatest_worth(&one_hour_each([[3, 2], [2, 0]])), 4);
        assert_eq!(greatest_worth(&one_hour_each([[5, 2], [2, 0]])), 5);
    }

    #[test]
    fn caps_and_hours_bind() {
        let mut ticket = one_hour_each([[10, 7], [0, 0]]);
        ticket.grower_hours[0] = 60;
        assert_eq!(greatest_worth(&ticket), 17);
        ticket.pilot_hours[0] = 60;
        assert_eq!(greatest_worth(&ticket), 17);
        ticket.terms[0].free_cap = 60;
        assert_eq!(greatest_worth(&ticket), 600);
    }
}
