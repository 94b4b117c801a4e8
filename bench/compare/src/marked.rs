//! How often each answer was met, in rows by kind of input, with marks that say what must be met.

use std::fmt;

/// A row's name, and by column a mark: `+` must be met, `-` can't be, `?` may be.
pub type Row = (&'static str, &'static str);

pub struct Marked {
    rows: Vec<Row>,
    columns: &'static [&'static str],
    counts: Vec<Vec<usize>>,
}

impl Marked {
    pub fn new(rows: Vec<Row>, columns: &'static [&'static str]) -> Marked {
        let counts = vec![vec![0; columns.len()]; rows.len()];
        Marked { rows, columns, counts }
    }

    pub fn count(&mut self, row: usize, column: usize) {
        self.counts[row][column] += 1;
    }

    /// The counts of both, which have the same rows and columns.
    pub fn and(mut self, other: Marked) -> Marked {
        for (sum, count) in self.counts.iter_mut().flatten().zip(other.counts.iter().flatten()) {
            *sum += count;
        }
        self
    }

    pub fn total(&self) -> usize {
        self.counts.iter().flatten().sum()
    }

    /// Stops where something was not met that must be, or was that can't be.
    pub fn must_be_as_marked(&self) {
        self.must_be_met(1);
    }

    /// The same, but what must be met must be met so often.
    pub fn must_be_met(&self, least: usize) {
        let wrong = self.unlike_the_marks(least);
        if !wrong.is_empty() {
            panic!("not met as it must be, so ask for more with NYEKUSHIRO_INPUTS or mend the inputs: {}", wrong.join("; "));
        }
    }

    fn unlike_the_marks(&self, least: usize) -> Vec<String> {
        let mut wrong = Vec::new();
        for ((name, marks), counts) in self.rows.iter().zip(&self.counts) {
            for ((column, mark), count) in self.columns.iter().zip(marks.chars()).zip(counts) {
                let is_wrong = match mark {
                    '+' => *count < least,
                    '-' => *count > 0,
                    _ => false,
                };
                if is_wrong {
                    wrong.push(format!("{name}: {column} {count} times"));
                }
            }
        }
        wrong
    }
}

impl fmt::Display for Marked {
    fn fmt(&self, out: &mut fmt::Formatter<'_>) -> fmt::Result {
        write!(out, "{:<36}", "met")?;
        self.columns.iter().try_for_each(|column| write!(out, "{column:>15}"))?;
        for ((name, _), counts) in self.rows.iter().zip(&self.counts) {
            write!(out, "\n{name:<36}")?;
            counts.iter().try_for_each(|count| write!(out, "{count:>15}"))?;
        }
        Ok(())
    }
}

#[cfg(test)]
mod tests {
    use super::*;

    #[test]
    fn names_what_is_unlike_its_mark() {
        let mut marked = Marked::new(vec![("one", "+-?"), ("other", "-+?")], &["left", "right", "last"]);
        marked.count(0, 0);
        marked.count(0, 2);
        marked.count(1, 0);
        assert_eq!(marked.unlike_the_marks(1), ["other: left 1 times", "other: right 0 times"]);
        assert_eq!(marked.unlike_the_marks(2), ["one: left 1 times", "other: left 1 times", "other: right 0 times"]);
    }

    #[test]
    fn adds_up() {
        let one = || {
            let mut marked = Marked::new(vec![("one", "+")], &["met"]);
            marked.count(0, 0);
            marked
        };
        let both = one().and(one());
        assert_eq!((both.total(), both.unlike_the_marks(2).len()), (2, 0));
    }
}
