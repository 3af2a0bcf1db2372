use crate::matcher::Matcher;

/// The most points that a template may have.
const MOST_POINTS: u8 = 80;

/// How many points of a scan have to lie near stored ones, by strictness.
const NEEDED: [usize; 15] = [6, 7, 8, 9, 10, 11, 12, 14, 16, 18, 20, 23, 26, 29, 32];

/// Says yes if enough points of the scan lie near stored ones.
#[derive(Clone, Copy)]
pub struct PointMatcher;

/// A point of a finger: across, up and angle.
type Point = [u8; 3];

/// The points of a template or scan, if it holds as many as it says.
fn points_of(bytes: &[u8]) -> Option<&[Point]> {
    let (&count, rest) = bytes.split_first()?;
    if count > MOST_POINTS {
        return None;
    }
    rest.as_chunks().0.get(..usize::from(count))
}

fn are_near(a: &Point, b: &Point) -> bool {
    // Angles are bytes on a circle, and wrap as it does.
    let turn = a[2].wrapping_sub(b[2]) as i8;
    a[0].abs_diff(b[0]) <= 6 && a[1].abs_diff(b[1]) <= 6 && turn.unsigned_abs() <= 8
}

impl Matcher for PointMatcher {
    fn agrees(&self, stored: &[u8], scan: &[u8], strictness: usize) -> bool {
        let (Some(stored), Some(scan)) = (points_of(stored), points_of(scan)) else {
            return false;
        };
        let is_near_some = |point: &&Point| stored.iter().any(|own| are_near(own, point));
        scan.iter().filter(is_near_some).count() >= NEEDED[strictness]
    }
}
