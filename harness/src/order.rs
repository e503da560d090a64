// The one order of operations: document 01's section of that name.
use crate::words::*;

/// An operation's place within its register: by stamp, a write before the reads of its stamp, those by invocation stamp. The number is the row's.
#[derive(PartialEq, Eq, PartialOrd, Ord)]
struct Place {
    register: u8,
    stamp: Stamp,
    is_read: bool,
    invocation: Stamp,
    number: usize,
}

/// The row numbers of all completed operations and all writes, in the one order.
pub fn order(rows: &[Row]) -> Vec<usize> {
    let mut places: Vec<Place> = (1..).zip(rows).filter(|(_, row)| is_listed(row)).map(|(number, row)| place(number, row)).collect();
    places.sort_unstable();
    let mut points = points(&places);
    // operations with equal points are of one register and keep its order: the sort is stable
    points.sort_by_key(|&(point, _)| point);
    points.into_iter().map(|(_, number)| number).collect()
}

fn is_listed(row: &Row) -> bool {
    row.kind == Kind::Write || !row.is_pending()
}

fn place(number: usize, row: &Row) -> Place {
    Place { register: row.register, stamp: row.pair.stamp, is_read: row.kind == Kind::Read, invocation: row.invocation(), number }
}

/// A point is the greatest invocation stamp among an operation and those before it in its register.
fn points(places: &[Place]) -> Vec<(Stamp, usize)> {
    let mut points = Vec::with_capacity(places.len());
    let mut register = 0;
    let mut point = Stamp::default();
    for place in places {
        point = if place.register == register { point.max(place.invocation) } else { place.invocation };
        register = place.register;
        points.push((point, place.number));
    }
    points
}
