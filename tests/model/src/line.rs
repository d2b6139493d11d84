//! A state for every address, kept as the points where the state turns.

use crate::layout::SPACE;
use std::collections::BTreeMap;

/// `turns[x]` is the state from `x` up to the next turn. Address 0 always has
/// an entry, and no turn repeats the state before it, so two lines that say
/// the same have the same turns.
#[derive(Clone, Debug, PartialEq, Eq)]
pub struct Line<S> {
    turns: BTreeMap<u128, S>,
}

impl<S: Copy + PartialEq> Line<S> {
    /// The same state everywhere.
    pub fn all(state: S) -> Self {
        Line {
            turns: BTreeMap::from([(0, state)]),
        }
    }

    /// The line with these stretches and `rest`, which is none of their states,
    /// between them; `None` if one is empty or begins before another's end.
    /// Stretches of one state that touch become one.
    pub fn drawn(rest: S, stretches: impl Iterator<Item = (u128, u128, S)>) -> Option<Self> {
        let mut turns = vec![(0, rest)];
        for (lo, hi, state) in stretches {
            let (end, _) = *turns.last().expect("rest goes on somewhere");
            if lo < end || lo >= hi {
                return None;
            }
            if lo == end {
                turns.pop();
            }
            if turns.last().map(|turn| turn.1) != Some(state) {
                turns.push((lo, state));
            }
            turns.push((hi, rest));
        }
        Some(Line {
            turns: turns.into_iter().collect(),
        })
    }

    /// The state of one address.
    pub fn at(&self, x: u128) -> S {
        *self.turns.range(..=x).next_back().expect("0 has a state").1
    }

    /// Whether every address from `lo` up to, not including, `hi` has this state.
    pub fn is_all(&self, lo: u128, hi: u128, state: S) -> bool {
        // The states at lo and at each turn behind it.
        lo >= hi
            || self.at(lo) == state && self.turns.range(lo + 1..hi).all(|turn| *turn.1 == state)
    }

    /// Changes the state of every address from `lo` up to, not including, `hi`.
    pub fn paint(&mut self, lo: u128, hi: u128, change: impl Fn(S) -> S) {
        if lo >= hi {
            return;
        }
        let first = self.at(lo);
        let after = self.at(hi);
        self.turns.insert(lo, first);
        self.turns.insert(hi, after);
        for (_, state) in self.turns.range_mut(lo..hi) {
            *state = change(*state);
        }
        // Only points from lo to hi can now repeat the state before them.
        let mut before = if lo == 0 { None } else { Some(self.at(lo - 1)) };
        let mut idle = Vec::new();
        for (&x, &state) in self.turns.range(lo..=hi) {
            if before == Some(state) {
                idle.push(x);
            }
            before = Some(state);
        }
        for x in idle {
            self.turns.remove(&x);
        }
    }

    /// The longest stretches of one state, in rising order, as (from, to, state).
    pub fn stretches(&self) -> impl Iterator<Item = (u128, u128, S)> + '_ {
        let ends = self.turns.keys().copied().skip(1).chain([SPACE]);
        self.turns
            .iter()
            .zip(ends)
            .map(|((&lo, &s), hi)| (lo, hi, s))
    }

    /// The line whose state at each address is made from the states of two.
    pub fn join<T: Copy + PartialEq, U: Copy + PartialEq>(
        &self,
        other: &Line<T>,
        make: impl Fn(S, T) -> U,
    ) -> Line<U> {
        // Take the next turn of either line, both if they are at one place.
        let mut mine = self.turns.iter().peekable();
        let mut others = other.turns.iter().peekable();
        let (mut here, mut there) = (self.turns[&0], other.turns[&0]);
        let mut turns: Vec<(u128, U)> = Vec::new();
        loop {
            let nearest = [
                mine.peek().map(|turn| turn.0),
                others.peek().map(|turn| turn.0),
            ];
            let Some(&x) = nearest.into_iter().flatten().min() else {
                break;
            };
            if let Some((_, &state)) = mine.next_if(|turn| *turn.0 == x) {
                here = state;
            }
            if let Some((_, &state)) = others.next_if(|turn| *turn.0 == x) {
                there = state;
            }
            let state = make(here, there);
            if turns.last().map(|turn| turn.1) != Some(state) {
                turns.push((x, state));
            }
        }
        let turns = turns.into_iter().collect();
        Line { turns }
    }
}

#[cfg(test)]
mod tests {
    use super::*;

    #[test]
    fn paint_keeps_the_fewest_turns() {
        let mut line = Line::all(0);
        line.paint(10, 20, |_| 1);
        line.paint(20, 30, |_| 1);
        assert_eq!(
            line.stretches().collect::<Vec<_>>(),
            vec![(0, 10, 0), (10, 30, 1), (30, SPACE, 0)]
        );
        line.paint(15, 16, |_| 0);
        assert_eq!(line.stretches().count(), 5);
        line.paint(15, 16, |_| 1);
        assert_eq!(line.stretches().count(), 3);
        line.paint(0, 12, |_| 1);
        assert_eq!(line.stretches().next(), Some((0, 30, 1)));
        line.paint(5, 5, |_| 7);
        line.paint(6, 5, |_| 7);
        assert_eq!(line.stretches().count(), 2);
        line.paint(0, 31, |_| 0);
        assert_eq!(line, Line::all(0));
    }

    #[test]
    fn is_all_asks_every_address() {
        let mut line = Line::all(0);
        line.paint(10, 20, |_| 1);
        line.paint(21, 30, |_| 1);
        for lo in 0..40 {
            for hi in 0..40 {
                for state in [0, 1] {
                    let each = (lo..hi).all(|x| line.at(x) == state);
                    assert_eq!(line.is_all(lo, hi, state), each, "{lo} to {hi}");
                }
            }
        }
        assert!(line.is_all(30, SPACE, 0) && !line.is_all(29, SPACE, 0));
    }

    #[test]
    fn drawn_is_the_same_as_painted() {
        let parts = [(0, 5, 1), (5, 9, 1), (9, 10, 2), (20, 30, 1)];
        let mut painted = Line::all(0);
        for (lo, hi, state) in parts {
            painted.paint(lo, hi, |_| state);
        }
        assert_eq!(Line::drawn(0, parts.into_iter()), Some(painted));
        assert_eq!(Line::drawn(0, [].into_iter()), Some(Line::all(0)));
        for wrong in [
            [(0, 5, 1), (4, 9, 2)],
            [(10, 20, 1), (0, 5, 1)],
            [(10, 20, 1), (10, 20, 1)],
            [(0, 5, 1), (7, 7, 1)],
            [(0, 5, 1), (7, 6, 1)],
        ] {
            assert_eq!(Line::drawn(0, wrong.into_iter()), None);
        }
    }

    #[test]
    fn join_merges_equal_neighbours() {
        let mut a = Line::all(false);
        a.paint(10, 30, |_| true);
        let mut b = Line::all(false);
        b.paint(20, 40, |_| true);
        let both = a.join(&b, |x, y| x || y);
        assert_eq!(
            both.stretches().collect::<Vec<_>>(),
            vec![(0, 10, false), (10, 40, true), (40, SPACE, false)]
        );
        let none = a.join(&b, |_, _| 3);
        assert_eq!(none, Line::all(3));
    }
}
