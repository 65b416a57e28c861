//! Weekly windows: good lists of every shape, and lists with each kind of fault.

use super::generator::Generator;
use crate::plain::Refusal;
use crate::plain::windows::{MOST_WINDOWS, WEEK};

#[derive(Clone, Copy, Debug, PartialEq, Eq)]
pub struct Window {
    pub first: u16,
    pub closing: u16,
}

pub const ALL_WEEK: Window = Window {
    first: 0,
    closing: WEEK,
};

/// The windows of each party, growers first.
pub type Windows = Vec<Vec<Window>>;

/// For each party a count, then two hours a window.
pub fn listed(windows: &[Vec<Window>]) -> Vec<u16> {
    windows.iter().flat_map(|party| listed_of(party)).collect()
}

fn listed_of(party: &[Window]) -> impl Iterator<Item = u16> {
    let hours = party
        .iter()
        .flat_map(|window| [window.first, window.closing]);
    [party.len() as u16].into_iter().chain(hours)
}

/// How the windows of a party lie in the week.
#[derive(Clone, Copy)]
enum Style {
    None,
    AllWeek,
    /// Anywhere. Some last until the next one begins, or to an end of the week.
    Spread,
    /// The whole week in parts.
    Parts,
    /// Of one hour to three, so that few are common.
    Short,
    /// They begin and close at the ends of the week and of words of 64 bits, or an hour beside.
    Edges,
}

const STYLES: [Style; 7] = [
    Style::None,
    Style::AllWeek,
    Style::Spread,
    Style::Spread,
    Style::Parts,
    Style::Short,
    Style::Edges,
];

/// Good windows for so many parties: of one style, or each party's of its own.
pub fn any_windows(generator: &mut Generator, parties: usize) -> Windows {
    let one = generator.one_of(&STYLES);
    let mixed = !generator.once_in(4);
    let mut windows = Windows::new();
    for _ in 0..parties {
        let own = generator.one_of(&STYLES);
        windows.push(windows_of(generator, if mixed { own } else { one }));
    }
    windows
}

/// As many windows as there may be for each of so many parties.
pub fn most_windows(generator: &mut Generator, parties: usize) -> Windows {
    (0..parties)
        .map(|_| spread(generator, MOST_WINDOWS))
        .collect()
}

/// The same hours in more windows: they are cut in two while there may be more of them.
pub fn cut_in_two(generator: &mut Generator, windows: &[Window]) -> Vec<Window> {
    let mut left = MOST_WINDOWS - windows.len();
    let mut parts = Vec::new();
    for &Window { first, closing } in windows {
        if left > 0 && closing - first > 1 {
            let between = generator.between(first + 1, closing - 1);
            parts.push(Window {
                first,
                closing: between,
            });
            parts.push(Window {
                first: between,
                closing,
            });
            left -= 1;
        } else {
            parts.push(Window { first, closing });
        }
    }
    parts
}

fn windows_of(generator: &mut Generator, style: Style) -> Vec<Window> {
    let count = generator.below(MOST_WINDOWS + 1);
    match style {
        Style::None => Vec::new(),
        Style::AllWeek => vec![ALL_WEEK],
        Style::Spread => {
            let windows = spread(generator, count);
            stretched(generator, windows, 3)
        }
        Style::Parts => {
            let windows = spread(generator, count.max(1));
            stretched(generator, windows, 1)
        }
        Style::Short => {
            let mut windows = spread(generator, count);
            for window in &mut windows {
                let closing = window.first + generator.between(1, 3);
                window.closing = window.closing.min(closing);
            }
            windows
        }
        Style::Edges => at_edges(generator),
    }
}

/// So many windows, any that there may be.
fn spread(generator: &mut Generator, count: usize) -> Vec<Window> {
    let last = WEEK - count as u16;
    let mut hours: Vec<u16> = (0..2 * count).map(|_| generator.between(0, last)).collect();
    hours.sort_unstable();
    // Each window has an hour of its own at least, which puts off all that comes after it.
    let ends = hours.chunks_exact(2).zip(0..);
    ends.map(|(ends, before)| Window {
        first: ends[0] + before,
        closing: ends[1] + before + 1,
    })
    .collect()
}

/// Once in `times` a window lasts until the next one begins, the first one begins with the week, the last one ends with it.
fn stretched(generator: &mut Generator, mut windows: Vec<Window>, times: usize) -> Vec<Window> {
    let mut next_first = WEEK;
    for window in windows.iter_mut().rev() {
        if generator.once_in(times) {
            window.closing = next_first;
        }
        next_first = window.first;
    }
    if let (Some(window), true) = (windows.first_mut(), generator.once_in(times)) {
        window.first = 0;
    }
    windows
}

fn at_edges(generator: &mut Generator) -> Vec<Window> {
    const EDGES: [u16; 12] = [0, 1, 2, 63, 64, 65, 127, 128, 129, 166, 167, WEEK];
    let mut windows = Vec::new();
    for ends in EDGES.windows(2) {
        if windows.len() < MOST_WINDOWS && generator.once_in(2) {
            windows.push(Window {
                first: ends[0],
                closing: ends[1],
            });
        }
    }
    windows
}

/// What is wrong with a list, and so how it must be refused.
#[derive(Clone, Copy, Debug, PartialEq, Eq)]
pub enum Fault {
    /// The list ends before a party's count.
    NoCount,
    /// It ends among a party's windows.
    CutShort,
    CountAboveEight,
    NumbersLeft,
    Empty,
    /// It closes before it begins.
    Reversed,
    PastWeek,
    /// It begins when the week is over, or far beyond.
    AfterWeek,
    /// It begins before the last one of the party has closed.
    Overlaps,
    /// A window is at fault, and a count that comes later.
    WindowBeforeCount,
    /// A window is at fault, and the count of its party or of an earlier one.
    CountBeforeWindow,
}

impl Fault {
    pub const ALL: [Fault; 11] = [
        Fault::NoCount,
        Fault::CutShort,
        Fault::CountAboveEight,
        Fault::NumbersLeft,
        Fault::Empty,
        Fault::Reversed,
        Fault::PastWeek,
        Fault::AfterWeek,
        Fault::Overlaps,
        Fault::WindowBeforeCount,
        Fault::CountBeforeWindow,
    ];

    const OF_COUNTS: [Fault; 3] = [Fault::NoCount, Fault::CutShort, Fault::CountAboveEight];

    const OF_WINDOWS: [Fault; 5] = [
        Fault::Empty,
        Fault::Reversed,
        Fault::PastWeek,
        Fault::AfterWeek,
        Fault::Overlaps,
    ];

    pub fn name(self) -> &'static str {
        match self {
            Fault::NoCount => "ends before a count",
            Fault::CutShort => "ends among windows",
            Fault::CountAboveEight => "a count above eight",
            Fault::NumbersLeft => "numbers left",
            Fault::Empty => "an empty window",
            Fault::Reversed => "a window that closes before it begins",
            Fault::PastWeek => "a window past the week",
            Fault::AfterWeek => "a window after the week",
            Fault::Overlaps => "windows that overlap",
            Fault::WindowBeforeCount => "a bad window before a bad count",
            Fault::CountBeforeWindow => "a bad count before a bad window",
        }
    }

    pub fn refusal(self) -> Refusal {
        match self {
            Fault::NoCount
            | Fault::CutShort
            | Fault::CountAboveEight
            | Fault::NumbersLeft
            | Fault::CountBeforeWindow => Refusal::WindowsMiscounted,
            Fault::Empty
            | Fault::Reversed
            | Fault::PastWeek
            | Fault::AfterWeek
            | Fault::Overlaps
            | Fault::WindowBeforeCount => Refusal::IllWindow,
        }
    }
}

/// A list for so many parties, with a fault.
pub fn faulty_list(generator: &mut Generator, parties: usize) -> (Fault, Vec<u16>) {
    loop {
        let fault = generator.one_of(&Fault::ALL);
        let windows = any_windows(generator, parties);
        if let Some(list) = with_fault(generator, windows, fault) {
            return (fault, list);
        }
    }
}

/// The list of good windows with a fault put in, if they allow it.
fn with_fault(generator: &mut Generator, mut windows: Windows, fault: Fault) -> Option<Vec<u16>> {
    let party = generator.below(windows.len());
    match fault {
        Fault::NumbersLeft => Some(with_more(generator, listed(&windows))),
        Fault::WindowBeforeCount => {
            spoil_any(generator, &mut windows[party])?;
            let later = party + 1 + generator.below(windows.len() - party);
            if later == windows.len() {
                return Some(with_more(generator, listed(&windows)));
            }
            let of_count = generator.one_of(&Fault::OF_COUNTS);
            miscount(generator, &windows, later, of_count)
        }
        Fault::CountBeforeWindow => {
            spoil_any(generator, &mut windows[party])?;
            if generator.once_in(2) {
                let mut list = listed(&windows[..=party]);
                list.pop();
                return Some(list);
            }
            let not_later = generator.below(party + 1);
            miscount(generator, &windows, not_later, Fault::CountAboveEight)
        }
        Fault::NoCount | Fault::CutShort | Fault::CountAboveEight => {
            miscount(generator, &windows, party, fault)
        }
        _ => {
            spoil(generator, &mut windows[party], fault)?;
            Some(listed(&windows))
        }
    }
}

fn with_more(generator: &mut Generator, mut list: Vec<u16>) -> Vec<u16> {
    let more = 1 + generator.below(4);
    let number = generator.one_of(&[0, 1, WEEK, 0xffff]);
    list.extend(std::iter::repeat_n(number, more));
    list
}

/// The list with a fault at the count of a party.
fn miscount(
    generator: &mut Generator,
    windows: &Windows,
    party: usize,
    fault: Fault,
) -> Option<Vec<u16>> {
    let mut list = listed(windows);
    let place = listed(&windows[..party]).len();
    let count = windows[party].len();
    match fault {
        Fault::NoCount => list.truncate(place),
        Fault::CutShort if count == 0 => return None,
        Fault::CutShort => list.truncate(place + 1 + generator.below(2 * count)),
        _ => {
            // The low byte of some is a good count, and twice some others is one in 16 bits.
            let low = count as u16;
            list[place] = generator.one_of(&[9, 9, 10, 0x100 + low, 0x8000 + low, 0xffff]);
        }
    }
    Some(list)
}

fn spoil_any(generator: &mut Generator, windows: &mut [Window]) -> Option<()> {
    let fault = generator.one_of(&Fault::OF_WINDOWS);
    spoil(generator, windows, fault)
}

/// Puts a fault into a window of a party, if it has enough of them.
fn spoil(generator: &mut Generator, windows: &mut [Window], fault: Fault) -> Option<()> {
    if windows.is_empty() {
        return None;
    }
    let place = generator.below(windows.len());
    let closed = place.checked_sub(1).map(|last| windows[last].closing);
    let window = &mut windows[place];
    let Window { first, closing } = *window;
    match fault {
        Fault::Empty => window.closing = first,
        Fault::Reversed => (window.first, window.closing) = (closing, first),
        Fault::PastWeek => {
            // The low byte of some is an hour within the week.
            window.closing = generator.one_of(&[WEEK + 1, WEEK + 1, 0xff, 0x100 + closing, 0xffff]);
        }
        Fault::AfterWeek => {
            window.first = generator.one_of(&[WEEK, WEEK + 1, 0x100 + first, 0xfffe, 0xffff]);
            window.closing = window.first.saturating_add(1);
        }
        _ => {
            let closed = closed?;
            window.first = if generator.once_in(2) {
                closed - 1
            } else {
                generator.between(0, closed - 1)
            };
        }
    }
    Some(())
}
