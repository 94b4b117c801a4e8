//! The six services, by either side.

use inputs::Call;
use nyekushiro::raw;
use straightforward as plain;

#[derive(Clone, Copy, Debug, PartialEq, Eq)]
pub enum Service {
    Read,
    Judge,
    JudgePatch,
    Propose,
    Write,
    Text,
}

/// Who answers.
#[derive(Clone, Copy, Debug, PartialEq, Eq)]
pub enum Side {
    Proved,
    Straightforward,
}

impl Service {
    pub const ALL: [Service; 6] =
        [Service::Read, Service::Judge, Service::JudgePatch, Service::Propose, Service::Write, Service::Text];

    pub fn judges(self) -> bool {
        matches!(self, Service::Judge | Service::JudgePatch)
    }

    pub fn takes_question(self) -> bool {
        self.judges() || self == Service::Propose
    }

    /// Whether it takes or proposes places for fences.
    pub fn has_places(self) -> bool {
        matches!(self, Service::JudgePatch | Service::Propose | Service::Write)
    }

    /// Whether the service has the input that this refusal is about.
    pub fn may_refuse_by(self, number: u64) -> bool {
        match number {
            1 => self.takes_question(),
            5 | 6 => true,
            2..=4 | 7..=12 | 18 => self != Service::Text,
            13 | 14 => matches!(self, Service::JudgePatch | Service::Write),
            15 => self.has_places(),
            16 => self != Service::Read,
            17 => self == Service::Text,
            _ => false,
        }
    }

    /// How many bytes are lent for the output.
    pub fn room(self, call: &Call) -> usize {
        match self {
            Service::Read => 0,
            Service::Judge | Service::JudgePatch => call.chain_room,
            Service::Propose => call.map_room,
            Service::Write => call.listing_room,
            Service::Text => call.text_room,
        }
    }

    pub fn ask(self, side: Side, call: &Call, lent: &mut [u8]) -> raw::Answer {
        match side {
            Side::Proved => self.ask_proved(call, lent),
            Side::Straightforward => self.ask_straightforward(call, lent),
        }
    }

    fn ask_proved(self, call: &Call, lent: &mut [u8]) -> raw::Answer {
        match self {
            Service::Read => raw::read(&call.listing),
            Service::Judge => raw::judge(call.question, &call.listing, lent),
            Service::JudgePatch => raw::judge_patch(call.question, &call.listing, &call.map, lent),
            Service::Propose => raw::propose(call.question, &call.listing, lent),
            Service::Write => raw::write(&call.listing, &call.map, lent),
            Service::Text => raw::text(&call.text, lent),
        }
    }

    fn ask_straightforward(self, call: &Call, lent: &mut [u8]) -> raw::Answer {
        let answer = match self {
            Service::Read => plain::read(&call.listing).map(|(nodes, routines)| done(nodes, routines, 0)),
            Service::Judge => plain::judge(call.question, &call.listing, lent).map(judged),
            Service::JudgePatch => plain::judge_patch(call.question, &call.listing, &call.map, lent).map(judged),
            Service::Propose => plain::propose(call.question, &call.listing, lent).map(|places| done(0, 0, places)),
            Service::Write => plain::write(&call.listing, &call.map, lent).map(|length| done(0, 0, length)),
            Service::Text => plain::text(&call.text, lent).map(|length| done(0, 0, length)),
        };
        answer.unwrap_or_else(|refusal| raw::Answer {
            kind: raw::Answer::REFUSED,
            first: refusal.number,
            second: refusal.place,
            count: 0,
        })
    }
}

fn done(first: usize, second: usize, count: usize) -> raw::Answer {
    raw::Answer { kind: raw::Answer::DONE, first: first as u64, second: second as u64, count: count as u64 }
}

fn judged(answer: plain::Answer) -> raw::Answer {
    match answer {
        plain::Answer::Robust => done(0, 0, 0),
        plain::Answer::Open { first, second, count } => raw::Answer { kind: raw::Answer::OPEN, ..done(first, second, count) },
    }
}
