//! The six questions.

use std::fmt;
use std::str::FromStr;

/// What can be asked of a listing, of either version. It is read from its number or its name, and its `Display` is its name.
///
/// ```
/// use nyekushiro::Question;
/// assert_eq!("x86-armv7".parse(), Ok(Question::X86OnArmv7));
/// assert_eq!("3".parse(), Ok(Question::X86OnArmv7));
/// assert_eq!(Question::try_from(3), Ok(Question::X86OnArmv7));
/// assert_eq!(Question::X86OnArmv7.to_string(), "x86-armv7");
/// assert_eq!(u64::from(Question::X86OnArmv7), 3);
/// ```
#[derive(Clone, Copy, Debug, PartialEq, Eq, Hash)]
#[non_exhaustive]
pub enum Question {
    /// Does it behave on x86 as if all steps came one after another, each thread's in its order?
    ScOnX86 = 1,
    /// Does it behave on ARMv7 as if all steps came one after another, each thread's in its order?
    ScOnArmv7 = 2,
    /// Does it behave on ARMv7 as it does on x86?
    X86OnArmv7 = 3,
    /// Does it behave on ARMv7 as it does on ARMv8?
    Armv8OnArmv7 = 4,
    /// Does it behave on ARMv8 as if all steps came one after another, each thread's in its order?
    ScOnArmv8 = 5,
    /// Does it behave on ARMv8 as it does on x86?
    X86OnArmv8 = 6,
}

impl Question {
    /// Every question, by number.
    pub const ALL: [Question; 6] = [
        Question::ScOnX86,
        Question::ScOnArmv7,
        Question::X86OnArmv7,
        Question::Armv8OnArmv7,
        Question::ScOnArmv8,
        Question::X86OnArmv8,
    ];

    fn name(self) -> &'static str {
        match self {
            Question::ScOnX86 => "sc-x86",
            Question::ScOnArmv7 => "sc-armv7",
            Question::X86OnArmv7 => "x86-armv7",
            Question::Armv8OnArmv7 => "armv8-armv7",
            Question::ScOnArmv8 => "sc-armv8",
            Question::X86OnArmv8 => "x86-armv8",
        }
    }
}

impl From<Question> for u64 {
    fn from(question: Question) -> u64 {
        question as u64
    }
}

impl TryFrom<u64> for Question {
    type Error = UnknownQuestion;

    fn try_from(number: u64) -> Result<Question, UnknownQuestion> {
        number.to_string().parse()
    }
}

impl FromStr for Question {
    type Err = UnknownQuestion;

    fn from_str(asked: &str) -> Result<Question, UnknownQuestion> {
        let is_asked = |question: &Question| asked == question.name() || asked == u64::from(*question).to_string();
        Question::ALL.into_iter().find(is_asked).ok_or_else(|| UnknownQuestion(asked.to_string()))
    }
}

impl fmt::Display for Question {
    fn fmt(&self, out: &mut fmt::Formatter<'_>) -> fmt::Result {
        out.pad(self.name())
    }
}

/// Something was asked that is no question. Its `Display` says what can be asked.
///
/// ```
/// assert_eq!(
///     nyekushiro::Question::try_from(7).unwrap_err().to_string(),
///     "there is no question '7': ask 1 or sc-x86, 2 or sc-armv7, 3 or x86-armv7, 4 or armv8-armv7, 5 or sc-armv8, 6 or x86-armv8"
/// );
/// ```
#[derive(Clone, Debug, PartialEq, Eq)]
pub struct UnknownQuestion(String);

impl fmt::Display for UnknownQuestion {
    fn fmt(&self, out: &mut fmt::Formatter<'_>) -> fmt::Result {
        let questions = Question::ALL.map(|question| format!("{} or {question}", u64::from(question)));
        write!(out, "there is no question '{}': ask {}", self.0, questions.join(", "))
    }
}

impl std::error::Error for UnknownQuestion {}

#[cfg(test)]
mod tests {
    use super::*;

    #[test]
    fn is_read_from_its_number_or_its_name() {
        for question in Question::ALL {
            let number = u64::from(question);
            assert_eq!(Question::try_from(number), Ok(question));
            assert_eq!(number.to_string().parse(), Ok(question));
            assert_eq!(question.to_string().parse(), Ok(question));
        }
    }

    #[test]
    fn is_read_from_nothing_else() {
        for asked in ["", "0", "7", "01", "+1", " 1", "1 ", "SC-X86", "sc", "sc-x86 ", "SC on x86", "257"] {
            assert_eq!(asked.parse::<Question>(), Err(UnknownQuestion(asked.to_string())));
        }
        for number in [0, 7, 257, u64::MAX] {
            assert_eq!(Question::try_from(number), Err(UnknownQuestion(number.to_string())));
        }
    }
}
