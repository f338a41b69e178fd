//! Points, boxes, distances and the whole-number root.

use crate::refusal::Refusal;

/// Coordinates run from -REACH to REACH.
pub const REACH: i64 = 1_000_000;

#[derive(Clone, Copy, Debug, PartialEq, Eq)]
pub struct Span {
    pub low: i64,
    pub high: i64,
}

impl Span {
    pub fn at(value: i64) -> Span {
        Span { low: value, high: value }
    }

    fn join(self, other: Span) -> Span {
        Span { low: self.low.min(other.low), high: self.high.max(other.high) }
    }

    fn gap(self, other: Span) -> i64 {
        (other.low - self.high).max(self.low - other.high).max(0)
    }
}

#[derive(Clone, Copy, Debug, PartialEq, Eq)]
pub struct Area {
    pub x: Span,
    pub y: Span,
}

impl Area {
    pub fn point(x: i32, y: i32) -> Area {
        Area { x: Span::at(x.into()), y: Span::at(y.into()) }
    }

    pub fn join(self, other: Area) -> Area {
        Area { x: self.x.join(other.x), y: self.y.join(other.y) }
    }

    /// The squared distance of the nearest points of two boxes.
    pub fn squared(self, other: Area) -> u64 {
        let (across, along) = (self.x.gap(other.x), self.y.gap(other.y));
        (across * across + along * along) as u64
    }
}

pub fn in_range(coordinate: i32) -> bool {
    i64::from(coordinate).abs() <= REACH
}

/// The squared distance of two points, by the plain formula.
pub fn squared(a: (i32, i32), b: (i32, i32)) -> u64 {
    let across = i64::from(a.0) - i64::from(b.0);
    let along = i64::from(a.1) - i64::from(b.1);
    (across * across + along * along) as u64
}

/// The call `squared`.
pub fn measured(a: (i32, i32), b: (i32, i32)) -> Result<u64, Refusal> {
    for (at, point) in [a, b].into_iter().enumerate() {
        if !in_range(point.0) || !in_range(point.1) {
            return Err(Refusal::new(12, at));
        }
    }
    Ok(squared(a, b))
}

/// The call `root`: the greatest whole number whose square is not above `n`, found by halving.
pub fn root(n: u64) -> u64 {
    let square = |r: u64| u128::from(r) * u128::from(r);
    let (mut fits, mut above) = (0_u64, 1_u64 << 32);
    while above - fits > 1 {
        let middle = fits + (above - fits) / 2;
        if square(middle) <= u128::from(n) {
            fits = middle;
        } else {
            above = middle;
        }
    }
    fits
}

#[cfg(test)]
mod tests {
    use super::*;

    #[test]
    fn s10_the_range_ends_at_a_million() {
        assert_eq!(measured((1_000_000, 0), (0, 0)), Ok(1_000_000_000_000));
        assert_eq!(measured((1_000_001, 0), (0, 0)), Err(Refusal::new(12, 0)));
        assert_eq!(measured((0, 0), (0, -1_000_001)), Err(Refusal::new(12, 1)));
        assert_eq!(measured((i32::MIN, 0), (0, i32::MAX)), Err(Refusal::new(12, 0)));
    }

    #[test]
    fn s11_opposite_corners() {
        let squared = measured((-1_000_000, -1_000_000), (1_000_000, 1_000_000)).unwrap();
        assert_eq!(squared, 8_000_000_000_000);
        assert_eq!(root(squared), 2_828_427);
    }

    #[test]
    fn roots_at_the_edges() {
        for r in [1_u64, 2, 3, 1000, 2_828_427, 4_294_967_295] {
            assert_eq!(root(r * r - 1), r - 1);
            assert_eq!(root(r * r), r);
            assert_eq!(root(r * r + 1), r);
        }
        assert_eq!(root(0), 0);
        assert_eq!(root(u64::MAX), 4_294_967_295);
    }

    #[test]
    fn boxes_that_touch_have_no_distance() {
        let low = Area::point(0, 0).join(Area::point(4, 4));
        assert_eq!(low.squared(Area::point(4, 2)), 0);
        assert_eq!(low.squared(Area::point(2, 2)), 0);
        assert_eq!(low.squared(Area::point(7, -4)), 25);
    }
}
