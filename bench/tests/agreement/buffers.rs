//! Lent buffers: shorter than needed, as long, and longer.

use std::fmt::Debug;

use exchange_bench::draw::generator::Generator;
use exchange_bench::plain::Refusal;

#[derive(Clone, Copy)]
pub enum Room {
    Short,
    Exact,
    Longer,
}

impl Room {
    pub const ALL: [Room; 3] = [Room::Short, Room::Exact, Room::Longer];

    pub fn name(self) -> &'static str {
        match self {
            Room::Short => "buffer too short",
            Room::Exact => "buffer as long as needed",
            Room::Longer => "buffer longer than needed",
        }
    }

    /// A length of this kind, if `needed` places are needed, which is above 0.
    pub fn length(self, generator: &mut Generator, needed: usize) -> usize {
        match self {
            Room::Short if generator.once_in(2) => needed - 1,
            Room::Short => generator.below(needed),
            Room::Exact => needed,
            Room::Longer => needed + 1 + generator.below(40),
        }
    }
}

/// Runs both on buffers of this length with the same content. Answers and buffers must be equal, what was refused must
/// leave all places alone, and what was not refused those beyond its count.
pub fn same_answer<T: Copy + Debug + PartialEq + From<u8>>(
    length: usize,
    proved: impl Fn(&mut [T]) -> Result<usize, u8>,
    plain: impl Fn(&mut [T]) -> Result<usize, Refusal>,
) -> Result<usize, u8> {
    let before = content(length);
    let mut by_proved = before.clone();
    let mut by_plain = before.clone();
    let answer = proved(&mut by_proved);
    assert_eq!(
        answer,
        plain(&mut by_plain).map_err(|refusal| refusal as u8)
    );
    assert_eq!(by_proved, by_plain);
    let written = answer.unwrap_or(0);
    assert_eq!(by_proved[written..], before[written..]);
    answer
}

/// Places that differ from one another and from what is written there, for the most part.
fn content<T: From<u8>>(length: usize) -> Vec<T> {
    (0..length)
        .map(|place| T::from((place % 251) as u8 ^ 0xa5))
        .collect()
}
