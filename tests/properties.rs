//! What the rules promise of an answer, tested on the answer itself without a second planner.

use crate::racks::Rack;

const UNREACHED: u32 = u32::MAX;

/// The hops between all cards.
pub fn hops(rack: &Rack) -> Vec<Vec<u32>> {
    let mut near = vec![Vec::new(); rack.cards];
    for &(p, q) in &rack.links {
        near[p].push(q);
        near[q].push(p);
    }
    (0..rack.cards).map(|card| hops_from(card, &near)).collect()
}

/// Goes on in circles of cards that are equally far.
fn hops_from(start: usize, near: &[Vec<usize>]) -> Vec<u32> {
    let mut hops = vec![UNREACHED; near.len()];
    hops[start] = 0;
    let mut circle = vec![start];
    for distance in 1.. {
        let mut next = Vec::new();
        for &far in circle.iter().flat_map(|&card| &near[card]) {
            if hops[far] == UNREACHED {
                hops[far] = distance;
                next.push(far);
            }
        }
        if next.is_empty() {
            break;
        }
        circle = next;
    }
    hops
}

/// The answer to a well-formed rack. A rack without odd loops has addresses exactly if each side of
/// each link holds every card that lies on a shortest way between two of its cards. This is slow
/// and meant for small racks.
pub fn answer(rack: &Rack) -> u32 {
    let hops = hops(rack);
    if let Some(card) = hops[0].iter().position(|&hops| hops == UNREACHED) {
        return 9 + 256 * card as u32;
    }
    if let Some(link) = rack
        .links
        .iter()
        .position(|&(p, q)| hops[0][p] == hops[0][q])
    {
        return 10 + 256 * link as u32;
    }
    let whole = |p: usize, q: usize| side_is_whole(&hops, |card| hops[p][card] < hops[q][card]);
    if rack.links.iter().all(|&(p, q)| whole(p, q) && whole(q, p)) {
        0
    } else {
        11
    }
}

fn side_is_whole(hops: &[Vec<u32>], inside: impl Fn(usize) -> bool) -> bool {
    let (side, rest): (Vec<usize>, Vec<usize>) = (0..hops.len()).partition(|&card| inside(card));
    let between = |x: usize, z: usize, y: usize| hops[x][z] + hops[z][y] == hops[x][y];
    let lies_between = |z: usize| side.iter().any(|&x| side.iter().any(|&y| between(x, z, y)));
    !rest.iter().any(|&z| lies_between(z))
}

/// What is wrong with a plan that was written for a rack. Only the plan that the rules fix passes.
pub fn plan_fault(rack: &Rack, plan: &[u8]) -> Option<&'static str> {
    let wiring = rack.bytes();
    if plan.len() < 6 || plan[..4] != wiring[..4] || plan[5] != 0 {
        return Some("the plan's sizes are not those of the wiring");
    }
    let columns = usize::from(plan[4]);
    let width = columns.div_ceil(8);
    let start = 2 + wiring.len();
    if plan.len() != start + rack.cards * width || plan[6..start] != wiring[4..] {
        return Some("the plan's length or its links are not those of the wiring");
    }
    let rows: Vec<&[u8]> = (0..rack.cards)
        .map(|card| &plan[start + card * width..][..width])
        .collect();
    if rows[0].iter().any(|&byte| byte != 0) {
        return Some("card 0 is not all zeros");
    }
    if !columns_rise(rack, &rows, columns) {
        return Some("the columns are not numbered by their lowest links");
    }
    if !differ_by_hops(rack, &rows) {
        return Some("two addresses do not differ in as many places as there are hops");
    }
    None
}

fn differing(x: &[u8], y: &[u8]) -> u32 {
    x.iter().zip(y).map(|(x, y)| (x ^ y).count_ones()).sum()
}

fn differ_by_hops(rack: &Rack, rows: &[&[u8]]) -> bool {
    let hops = hops(rack);
    let mut pairs = (0..rack.cards).flat_map(|a| (0..rack.cards).map(move |b| (a, b)));
    pairs.all(|(a, b)| differing(rows[a], rows[b]) == hops[a][b])
}

/// Each link changes one column, and a column is new in a link exactly if it is the next one.
fn columns_rise(rack: &Rack, rows: &[&[u8]], columns: usize) -> bool {
    let mut opened = 0;
    for &(p, q) in &rack.links {
        let changed = |j: &usize| (rows[p][j / 8] ^ rows[q][j / 8]) >> (j % 8) & 1 == 1;
        let mut changed = (0..8 * rows[p].len()).filter(changed);
        match (changed.next(), changed.next()) {
            (Some(column), None) if column < opened => {}
            (Some(column), None) if column == opened => opened += 1,
            _ => return false,
        }
    }
    opened == columns
}

/// Whether a frame went from one card to another by the fewest links.
pub fn is_shortest(rack: &Rack, hops: u32, met: &[usize], from: usize, to: usize) -> bool {
    let linked = |x: usize, y: usize| rack.links.contains(&(x, y)) || rack.links.contains(&(y, x));
    met.len() == hops as usize + 1
        && met.first() == Some(&from)
        && met.last() == Some(&to)
        && met.windows(2).all(|pair| linked(pair[0], pair[1]))
}
