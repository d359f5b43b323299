//! Two rows of numbers, aligned: which places of the one stand for which of the other, in order, where the numbers are the same (Myers' difference, in the form that
//! needs memory for one row alone). As many places as can be are paired while a stretch differs in no more than about twice `MOST` places; past that the search takes
//! the furthest way that it has found, and may pair fewer. Whatever is paired is the same number.

use std::collections::HashSet;

/// How far a stretch is searched from either end. The time is at most in proportion to this and to the length of both rows.
const MOST: usize = 512;

/// A stretch of both rows: from and to of the first, then of the second.
type Stretch = (usize, usize, usize, usize);

/// The pairs of places, in order. A number that one row has alone is paired with nothing, and left out before.
pub fn common(first: &[u32], second: &[u32]) -> Vec<(usize, usize)> {
    let (a, b) = (in_both(first, second), in_both(second, first));
    let numbers = |row: &[u32], places: &[usize]| places.iter().map(|at| row[*at]).collect::<Vec<_>>();
    let pairs = aligned(&numbers(first, &a), &numbers(second, &b));
    let (mut own, mut other): (Vec<usize>, Vec<usize>) = pairs.into_iter().map(|(x, y)| (a[x], b[y])).unzip();
    slide(&mut own, first, &other, second.len());
    slide(&mut other, second, &own, first.len());
    own.into_iter().zip(other).collect()
}

/// So far a place that was left over is moved.
const FAR: usize = 1024;

/// How many places are left over before the pair of this number, or behind the last, in a row of this length.
fn left(places: &[usize], at: usize, length: usize) -> usize {
    places.get(at).copied().unwrap_or(length) - at.checked_sub(1).map_or(0, |before| places[before] + 1)
}

/// Where one row alone has something left over between two pairs, the same pairs may be had with it left over where the other row has something too: so a number that
/// was changed among others like it is not told as one that went here and one that came there. `own` are the pairs' places in this row, `other` in the other.
fn slide(own: &mut [usize], row: &[u32], other: &[usize], length: usize) {
    for at in 0..=own.len() {
        let mine = left(own, at, row.len());
        if mine == 0 || left(other, at, length) > 0 {
            continue;
        }
        let meets = |own: &[usize], at: usize| left(own, at, row.len()) == 0 && left(other, at, length) > 0;
        let back = (0..at)
            .rev()
            .take(FAR)
            .take_while(|k| row[own[*k]] == row[own[*k] + mine])
            .find(|k| meets(own, *k) || left(own, *k, row.len()) > 0);
        if let Some(k) = back.filter(|k| meets(own, *k)) {
            own[k..at].iter_mut().for_each(|place| *place += mine);
            continue;
        }
        let behind = |k: &usize| meets(own, k + 1) || left(own, k + 1, row.len()) > 0;
        let on = (at..own.len()).take(FAR).take_while(|k| row[own[*k]] == row[own[*k] - mine]).find(behind);
        if let Some(k) = on.filter(|k| meets(own, k + 1)) {
            own[at..=k].iter_mut().for_each(|place| *place -= mine);
        }
    }
}

/// The places of a row whose number the other has too.
fn in_both(row: &[u32], other: &[u32]) -> Vec<usize> {
    let known: HashSet<&u32> = other.iter().collect();
    (0..row.len()).filter(|at| known.contains(&row[*at])).collect()
}

fn aligned(first: &[u32], second: &[u32]) -> Vec<(usize, usize)> {
    let mut pairs = Vec::new();
    let mut left: Vec<Stretch> = vec![(0, first.len(), 0, second.len())];
    while let Some((mut a, mut to_a, mut b, mut to_b)) = left.pop() {
        while a < to_a && b < to_b && first[a] == second[b] {
            pairs.push((a, b));
            (a, b) = (a + 1, b + 1);
        }
        while a < to_a && b < to_b && first[to_a - 1] == second[to_b - 1] {
            (to_a, to_b) = (to_a - 1, to_b - 1);
            pairs.push((to_a, to_b));
        }
        if a == to_a || b == to_b {
            continue;
        }
        let (x, y) = middle(&first[a..to_a], &second[b..to_b]);
        // Cut at a corner it would be the same stretch once more.
        if (x, y) != (0, 0) && (a + x, b + y) != (to_a, to_b) {
            left.extend([(a, a + x, b, b + y), (a + x, to_a, b + y, to_b)]);
        }
    }
    pairs.sort_unstable();
    pairs
}

/// How far each diagonal has been followed: of the places x of one row and y of the other, x - y is the diagonal's number and x is kept.
struct Ways {
    reached: Vec<Option<usize>>,
    most: isize,
}

impl Ways {
    fn new(most: usize) -> Ways {
        let mut ways = Ways { reached: vec![None; 2 * most + 3], most: most as isize };
        // From here the first way begins, at 0 of diagonal 0.
        ways.set(1, Some(0));
        ways
    }

    fn get(&self, diagonal: isize) -> Option<usize> {
        if diagonal.abs() > self.most + 1 { None } else { self.reached[(diagonal + self.most + 1) as usize] }
    }

    fn set(&mut self, diagonal: isize, x: Option<usize>) {
        self.reached[(diagonal + self.most + 1) as usize] = x;
    }

    /// One place more passed over in either row, then on along what is the same. `same` says whether two places are; `a` and `b` are the rows' lengths.
    fn step(&mut self, diagonal: isize, a: usize, b: usize, same: impl Fn(usize, usize) -> bool) -> Option<(usize, usize)> {
        let over_first = self.get(diagonal - 1).map(|x| x + 1).filter(|x| *x <= a);
        let mut x = over_first.max(self.get(diagonal + 1));
        x = x.filter(|x| usize::try_from(*x as isize - diagonal).is_ok_and(|y| y <= b)).or(over_first);
        let at = x.and_then(|x| Some((x, usize::try_from(x as isize - diagonal).ok().filter(|y| *y <= b)?)));
        let end = at.map(|(mut x, mut y)| {
            while x < a && y < b && same(x, y) {
                (x, y) = (x + 1, y + 1);
            }
            (x, y)
        });
        self.set(diagonal, end.map(|(x, _)| x));
        end
    }
}

/// Where two rows that neither begin nor end alike are cut in two: a place on a shortest way from one end to the other, looked for from both, or the furthest place.
fn middle(first: &[u32], second: &[u32]) -> (usize, usize) {
    let (a, b) = (first.len(), second.len());
    let delta = a as isize - b as isize;
    let most = MOST.min((a + b).div_ceil(2));
    let (mut ahead, mut back) = (Ways::new(most), Ways::new(most));
    for d in 0..=most as isize {
        for diagonal in (-d..=d).step_by(2) {
            let Some((x, y)) = ahead.step(diagonal, a, b, |x, y| first[x] == second[y]) else { continue };
            let other = delta - diagonal;
            if delta % 2 != 0 && other.abs() < d && back.get(other).is_some_and(|back| x + back >= a) {
                return (x, y);
            }
        }
        for diagonal in (-d..=d).step_by(2) {
            let Some((x, y)) = back.step(diagonal, a, b, |x, y| first[a - 1 - x] == second[b - 1 - y]) else { continue };
            let other = delta - diagonal;
            if delta % 2 == 0 && other.abs() <= d && ahead.get(other).is_some_and(|ahead| x + ahead >= a) {
                return (a - x, b - y);
            }
        }
    }
    let last = most as isize;
    let reached = (-last..=last).step_by(2).filter_map(|diagonal| Some((ahead.get(diagonal)?, diagonal)));
    reached.map(|(x, diagonal)| (x, (x as isize - diagonal) as usize)).max_by_key(|(x, y)| x + y).unwrap_or((0, 0))
}

#[cfg(test)]
mod tests {
    use super::*;

    /// The length of a longest common subsequence, by the table that every textbook has.
    fn longest(first: &[u32], second: &[u32]) -> usize {
        let mut row = vec![0; second.len() + 1];
        for a in first {
            let mut corner = 0;
            for (at, b) in second.iter().enumerate() {
                let above = row[at + 1];
                row[at + 1] = if a == b { corner + 1 } else { above.max(row[at]) };
                corner = above;
            }
        }
        row[second.len()]
    }

    fn judged(first: &[u32], second: &[u32]) -> Vec<(usize, usize)> {
        let pairs = common(first, second);
        assert!(pairs.iter().all(|(a, b)| first[*a] == second[*b]));
        assert!(pairs.windows(2).all(|two| two[0].0 < two[1].0 && two[0].1 < two[1].1));
        pairs
    }

    #[test]
    fn as_many_as_the_textbook_finds() {
        let mut seed = 7u64;
        let mut below = |n: u64| {
            seed = seed.wrapping_mul(6_364_136_223_846_793_005).wrapping_add(1_442_695_040_888_963_407);
            (seed >> 33) % n
        };
        for round in 0..4000 {
            let kinds = 1 + round % 7;
            let mut row = || (0..below(30)).map(|_| below(kinds) as u32).collect::<Vec<_>>();
            let (first, second) = (row(), row());
            assert_eq!(judged(&first, &second).len(), longest(&first, &second), "{first:?} {second:?}");
        }
    }

    /// Past the bound fewer may be paired, and what is paired is still the same: rows of 3,000 that have little in common.
    #[test]
    fn long_rows_that_differ() {
        let mut seed = 1u64;
        let mut row = |n: u32| {
            (0..3000)
                .map(|_| {
                    seed = seed.wrapping_mul(6_364_136_223_846_793_005).wrapping_add(1_442_695_040_888_963_407);
                    (seed >> 40) as u32 % n
                })
                .collect::<Vec<_>>()
        };
        for kinds in [2, 30, 100_000] {
            let (first, second) = (row(kinds), row(kinds));
            let (found, best) = (judged(&first, &second).len(), longest(&first, &second));
            assert!(found <= best && found * 10 >= best * 8, "{kinds}: {found} of {best}");
        }
    }

    /// A number that was changed among others like it stands across from what it became.
    #[test]
    fn what_was_changed_is_left_over_in_both() {
        assert_eq!(judged(&[1, 1, 1], &[1, 2, 1]), [(0, 0), (2, 2)]);
        assert_eq!(judged(&[1, 2, 1], &[1, 1, 1]), [(0, 0), (2, 2)]);
        assert_eq!(judged(&[2, 1, 1, 1], &[1, 1, 1, 1]), [(1, 1), (2, 2), (3, 3)]);
        assert_eq!(judged(&[1, 1, 1, 2], &[1, 1, 1, 1]), [(0, 0), (1, 1), (2, 2)]);
        assert_eq!(judged(&[5, 6, 5, 6, 5, 6], &[5, 6, 7, 8, 5, 6]), [(0, 0), (1, 1), (4, 4), (5, 5)]);
        assert_eq!(judged(&[1, 1, 1], &[1, 1]).len(), 2);
    }

    #[test]
    fn one_more_in_the_middle() {
        let first: Vec<u32> = (0..100_000).map(|at| at % 11).collect();
        let mut second = first.clone();
        second.insert(50_000, 99);
        assert_eq!(judged(&first, &second).len(), 100_000);
        assert_eq!(judged(&second, &first).len(), 100_000);
        assert_eq!(common(&[], &first), []);
        assert_eq!(common(&[1, 2], &[3]), []);
    }
}
