//! Tables of chains, on which the judge of words on a table takes long.

/// The order of the numbers along a chain.
#[derive(Clone, Copy, Debug)]
pub enum Order {
    Ascending,
    Descending,
    /// The lowest, the highest, the second lowest, and so on: a sweep over the
    /// transitions, in either order, finds one number.
    Zigzag,
}

impl Order {
    fn along(self, numbers: std::ops::Range<u64>) -> Vec<u64> {
        let (first, last) = (numbers.start, numbers.end - 1);
        let mut chain: Vec<u64> = numbers.collect();
        match self {
            Order::Ascending => {}
            Order::Descending => chain.reverse(),
            Order::Zigzag => {
                for (i, number) in (0..).zip(&mut chain) {
                    *number = if i % 2 == 0 {
                        first + i / 2
                    } else {
                        last - i / 2
                    };
                }
            }
        }
        chain
    }
}

/// Both lists of a table for rule F: accepting macrostates, the first of them
/// number 0, then rejecting ones, and steps over letter 0.
fn listed(accepting: u64, rejecting: u64, steps: &[(u64, u64)]) -> [Vec<u64>; 2] {
    let mut codes: Vec<u64> = (0..accepting).map(|m| m << 8 | 1).collect();
    codes.extend((accepting..accepting + rejecting).map(|m| 1 << 44 | m << 8));
    let mut transitions: Vec<u64> = steps.iter().map(|(from, to)| from << 24 | to).collect();
    transitions.sort_unstable();
    [codes, transitions]
}

fn along(path: &[u64]) -> Vec<(u64, u64)> {
    path.windows(2).map(|pair| (pair[0], pair[1])).collect()
}

/// For rule F and the cycle 0: `length` rejecting macrostates in a chain that
/// leads to as many accepting ones in a chain that leads to a rejecting one with a
/// loop. No macrostate begins an accepting run, which shows for one accepting
/// macrostate after the other; with a loop at the last of them all begin one.
pub fn table(length: u64, accepting: Order, rejecting: Order, looped: bool) -> [Vec<u64>; 2] {
    let sink = 2 * length;
    let mut path = rejecting.along(length..sink);
    path.extend(accepting.along(0..length));
    let last = path[path.len() - 1];
    path.extend([sink, sink]);
    let mut steps = along(&path);
    if looped {
        steps.push((last, last));
    }
    listed(length, length + 1, &steps)
}

/// For rule F and the cycle 0: `2 * length` rejecting macrostates in a chain that
/// leads to a ladder of as many, an accepting one, a rejecting one with a loop,
/// and so on. No macrostate begins an accepting run, which shows for one rung of
/// the ladder after the other, since none is a dead end; with a loop at the last
/// accepting one all begin one.
pub fn ladder(length: u64, rejecting: Order, looped: bool) -> [Vec<u64>; 2] {
    let loops = 3 * length;
    let mut path = rejecting.along(length..loops);
    path.extend((0..length).flat_map(|rung| [rung, loops + rung]));
    let mut steps = along(&path);
    steps.extend((loops..4 * length).map(|number| (number, number)));
    if looped {
        steps.push((length - 1, length - 1));
    }
    listed(length, 3 * length, &steps)
}

/// A chain that ends: every macrostate is accepting, and a dead end once the
/// following ones are out.
pub fn dead_end(length: u64, order: Order) -> [Vec<u64>; 2] {
    listed(length, 0, &along(&order.along(0..length)))
}

/// The cycle on which a table made slow takes longest.
pub const SLOW: [u8; 32] = {
    let mut cycle = [0; 32];
    cycle[31] = 1;
    cycle
};

/// The table with its steps over letter 1, and a step of each macrostate to itself
/// over letter 0: over the cycle `SLOW` a step takes a turn.
pub fn slowed([codes, steps]: [Vec<u64>; 2]) -> [Vec<u64>; 2] {
    let stays = (0..codes.len() as u64).map(|number| number << 24 | number);
    let mut transitions: Vec<u64> = steps
        .iter()
        .map(|step| step | 1 << 16)
        .chain(stays)
        .collect();
    transitions.sort_unstable();
    [codes, transitions]
}
