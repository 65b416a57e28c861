//! What a cap of somebody without hours leads to, whatever the operation.

use exchange_bench::draw::damage::Damage;
use exchange_bench::draw::old_caps::Beside;
use exchange_bench::plain::Refusal;

/// The ticket is refused, and with 18 exactly if nothing is wrong before that cap or with its limit.
pub fn assert_refused(damage: Damage, refusal: Option<u8>) {
    let Damage::OldCap(beside) = damage else {
        return;
    };
    let is_expected = match beside {
        Beside::Nothing | Beside::LaterFault => refusal == Some(Refusal::CapWithoutHours as u8),
        Beside::CapAboveLimit => refusal == Some(Refusal::TermAboveLimit as u8),
        Beside::EarlierFault => matches!(refusal, Some(4..=8)),
    };
    assert!(is_expected, "{beside:?} must not give {refusal:?}");
}

/// The names under which such tickets are counted, after the same words.
pub fn kinds(words: &str) -> [String; 4] {
    Beside::ALL.map(|beside| format!("{words}{}", Damage::OldCap(beside).name()))
}
