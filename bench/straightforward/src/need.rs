//! Need for order, and barriers.

use crate::listing::Kind;

/// "1 SC on x86; 2 SC on ARMv7; 3 x86 on ARMv7; 4 ARMv8 on ARMv7; 5 SC on ARMv8; 6 x86 on ARMv8"
#[derive(Clone, Copy, Debug, PartialEq, Eq)]
pub enum Question {
    ScOnX86,
    ScOnArmv7,
    X86OnArmv7,
    Armv8OnArmv7,
    ScOnArmv8,
    X86OnArmv8,
}

impl Question {
    pub fn is_on_armv8(self) -> bool {
        matches!(self, Question::ScOnArmv8 | Question::X86OnArmv8)
    }
}

/// The column "Pairs that need order".
pub fn needs_order(question: Question, first: Kind, second: Kind, rmw_inside: bool) -> bool {
    let write_then_read = first.is_write() && second.is_read();
    let kept = question.is_on_armv8() && keeps_in_order(first, second);
    match question {
        Question::ScOnX86 => write_then_read,
        Question::ScOnArmv7 | Question::ScOnArmv8 => !kept,
        Question::X86OnArmv7 | Question::X86OnArmv8 => !kept && (!write_then_read || rmw_inside),
        Question::Armv8OnArmv7 => !first.is_write(),
    }
}

/// "Under questions 5 and 6 ARMv8 keeps some accesses in order itself: no need if the first is kind 5 or 9, or the second is kind 6, or
/// the first is kind 6 and the second kind 5."
pub fn keeps_in_order(first: Kind, second: Kind) -> bool {
    matches!(first, Kind::Acquire | Kind::AcquirePc)
        || second == Kind::Release
        || (first, second) == (Kind::Release, Kind::Acquire)
}

/// The column "Barriers": whether a node of the kind `inside` is one between two ends. "A load fence inside is a barrier where the first
/// is kind 1; a store fence where both ends are kind 2 or 6; a full fence always."
pub fn is_barrier(question: Question, inside: Kind, first: Kind, second: Kind) -> bool {
    match inside {
        Kind::Fence => true,
        Kind::Rmw => question == Question::ScOnX86,
        Kind::LoadFence => question.is_on_armv8() && first == Kind::Read,
        Kind::StoreFence => question.is_on_armv8() && first.is_write() && second.is_write(),
        _ => false,
    }
}
