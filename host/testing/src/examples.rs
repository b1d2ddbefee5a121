//! The named example problems: those of the reference, section 12, and further ones.

use frontier::limits::MAX_DOMAIN;
use frontier::{Problem, Table, FORBIDDEN};

/// Two values everywhere.
fn binary(ceilings: &[u32], variables: usize, tables: Vec<Table>) -> Problem {
    Problem {
        ceilings: ceilings.to_vec(),
        domains: vec![2; variables],
        tables,
    }
}

/// Colours: three variables, objective 0 charges equal values and objective 1 unequal ones. The
/// reference, section 12, has it with ceilings 100 and 100.
pub fn colours(ceilings: [u32; 2]) -> Problem {
    let pairs = [[0, 1], [0, 2], [1, 2]];
    let equal = pairs.iter().zip([1, 3, 6]);
    let unequal = pairs.iter().zip([6, 3, 1]);
    let mut tables: Vec<Table> = Vec::new();
    tables.extend(equal.map(|(scope, w)| Table::new(0, scope, &[w, 0, 0, w])));
    tables.extend(unequal.map(|(scope, w)| Table::new(1, scope, &[0, w, w, 0])));
    binary(&ceilings, 3, tables)
}

/// Objective 0 of Colours alone.
pub fn colours_first(ceiling: u32) -> Problem {
    let mut problem = colours([ceiling, 0]);
    problem.ceilings.truncate(1);
    problem.tables.retain(|table| table.objective == 0);
    problem
}

/// One variable of `domain` values, one objective and no table.
pub fn lone(domain: u8, ceiling: u32) -> Problem {
    Problem {
        ceilings: vec![ceiling],
        domains: vec![domain],
        tables: Vec::new(),
    }
}

/// One variable of three values with a table in each of two objectives.
fn ternary(ceilings: [u32; 2], first: [u32; 3], second: [u32; 3]) -> Problem {
    Problem {
        ceilings: ceilings.to_vec(),
        domains: vec![3],
        tables: vec![Table::new(0, &[0], &first), Table::new(1, &[0], &second)],
    }
}

/// Three: tables 0,1,2 and 2,1,0, so no value beats another.
pub fn three(ceilings: [u32; 2]) -> Problem {
    ternary(ceilings, [0, 1, 2], [2, 1, 0])
}

/// Three offers of (days taken, gain), (3, 4), (6, 6) and (1, 1), as costs: days taken, and gain
/// missed against the greatest.
pub fn days_and_gain(ceilings: [u32; 2]) -> Problem {
    ternary(ceilings, [3, 6, 1], [2, 0, 5])
}

/// Pair: two variables, each with tables 0,1 and 1,0 in the two objectives.
pub fn pair(ceilings: [u32; 2]) -> Problem {
    let tables = [0, 1].map(|v| [Table::new(0, &[v], &[0, 1]), Table::new(1, &[v], &[1, 0])]);
    binary(&ceilings, 2, tables.concat())
}

/// Turned: two variables with a table over (1, 0) and one over (0, 1).
pub fn turned() -> Problem {
    Problem {
        ceilings: vec![9, 9],
        domains: vec![2, 3],
        tables: vec![
            Table::new(0, &[1, 0], &[4, 1, 3, 5, 2, 0]),
            Table::new(1, &[0, 1], &[0, 3, 1, 2, 6, 5]),
        ],
    }
}

/// Bent: two variables, each with tables 0,1,3 and 3,1,0. The middle point of both halves beats
/// the sum of one half's first point and the other's last.
pub fn bent(ceilings: [u32; 2]) -> Problem {
    let tables = [0, 1].map(|v| {
        let rising = Table::new(0, &[v], &[0, 1, 3]);
        [rising, Table::new(1, &[v], &[3, 1, 0])]
    });
    Problem {
        ceilings: ceilings.to_vec(),
        domains: vec![3; 2],
        tables: tables.concat(),
    }
}

/// Pair behind an arity-0 entry 1 on objective 0: the record that belongs to half 0 whichever
/// side is which.
pub fn pair_with_constant(ceilings: [u32; 2]) -> Problem {
    let mut problem = pair(ceilings);
    problem.tables.insert(0, Table::new(0, &[], &[1]));
    problem
}

/// Objects, each taken or left: four variables, three objectives, and pairs that are forbidden.
pub fn objects(ceilings: [u32; 3]) -> Problem {
    const F: u32 = FORBIDDEN;
    let mut tables = vec![
        Table::new(0, &[0, 2], &[F, 0, 0, F]),
        Table::new(0, &[2, 3], &[F, 0, 0, 0]),
        Table::new(0, &[1, 3], &[0, 0, 0, F]),
    ];
    let unary = |objective: u8, costs: [[u32; 2]; 4]| {
        (0..4).map(move |v| Table::new(objective, &[v], &costs[usize::from(v)]))
    };
    tables.extend(unary(0, [[1, 0], [2, 0], [3, 0], [4, 0]]));
    tables.push(Table::new(0, &[1, 2], &[3, 3, 3, 0]));
    tables.extend(unary(1, [[0, 4], [0, 3], [0, 2], [0, 1]]));
    tables.extend(unary(2, [[0, 1], [0, 2], [0, 3], [0, 4]]));
    binary(&ceilings, 4, tables)
}

/// Xor: one table that charges equal values, so two choices tie.
pub fn xor() -> Problem {
    binary(&[2], 2, vec![Table::new(0, &[0, 1], &[1, 0, 0, 1])])
}

/// One table over both variables beside one that adds 1 to every choice.
fn shifted(shift: Table) -> Problem {
    binary(&[9], 2, vec![shift, Table::new(0, &[0, 1], &[1, 0, 1, 1])])
}

/// Constant: the shift is an arity-0 record, which lies in every doll.
pub fn constant() -> Problem {
    shifted(Table::new(0, &[], &[1]))
}

/// Unary: the shift is a table over the last variable alone.
pub fn unary() -> Problem {
    shifted(Table::new(0, &[1], &[1, 1]))
}

/// Every arity: four variables of 2, 3, 4 and 1 values, and in each of four objectives a table of
/// another arity, so that the bound of every prefix has four numbers of its own.
pub fn every_arity() -> Problem {
    let costs = |weight: u32, size: u32| -> Vec<u32> {
        // 7 has no factor in common with 24, so the entries are all different and do not rise.
        (0..size).map(|i| weight * (1 + 7 * i % 24)).collect()
    };
    Problem {
        ceilings: vec![100, 0x1_0000, FORBIDDEN, 1],
        domains: vec![2, 3, 4, 1],
        tables: vec![
            Table::new(3, &[], &[FORBIDDEN]),
            Table::new(2, &[2], &costs(0x100_0000, 4)),
            Table::new(1, &[0, 3], &costs(0x100, 2)),
            Table::new(0, &[0, 1, 2], &costs(1, 24)),
            Table::new(2, &[1, 2], &costs(0x1_0000, 12)),
        ],
    }
}

/// All 2-clauses over n variables: objective 0 counts violated clauses, objective 1 variables at 0. Every choice violates one
/// clause of each pair.
pub fn all_clauses(variables: u8) -> Problem {
    let mut tables = Vec::new();
    for u in 0..variables {
        for v in u + 1..variables {
            for violated in 0..4 {
                let mut costs = [0; 4];
                costs[violated] = 1;
                tables.push(Table::new(0, &[u, v], &costs));
            }
        }
    }
    tables.extend((0..variables).map(|v| Table::new(1, &[v], &[1, 0])));
    binary(&[100, 100], usize::from(variables), tables)
}

/// Staircase: 128 choices that cost (0, 127), (1, 126), and so on in the order of choices, so
/// under a first ceiling of 63 the frontier has 64 points. A fourth variable has one value.
pub fn staircase(ceilings: [u32; 2]) -> Problem {
    let mut tables = Vec::new();
    for (v, domain, weight) in [(0, 2, 64), (1, 8, 8), (2, 8, 1)] {
        let rising: Vec<u32> = (0..domain).map(|value| value * weight).collect();
        let falling: Vec<u32> = rising.iter().rev().copied().collect();
        tables.push(Table::new(0, &[v], &rising));
        tables.push(Table::new(1, &[v], &falling));
    }
    Problem {
        ceilings: ceilings.to_vec(),
        domains: vec![2, 8, 8, 1],
        tables,
    }
}

/// A staircase of so many points, at most 128. For none the second ceiling is one too low.
pub fn stairs_of(points: u32) -> Problem {
    match points {
        0 => staircase([0, 126]),
        _ => staircase([points - 1, 200]),
    }
}

/// A valid problem of exactly 60,000 bytes: three variables of eight values, 29 tables over all
/// of them and one over two, which charge 1 except for the last values, and 15 charges of 1.
pub fn brimful() -> Problem {
    let table = |objective: u8, scope: &[u8]| {
        let size = MAX_DOMAIN.pow(scope.len() as u32);
        let mut costs = vec![1; size];
        costs[size - 1] = 0;
        Table::new(objective, scope, &costs)
    };
    let mut tables: Vec<Table> = (0..29).map(|i| table(i % 2, &[0, 1, 2])).collect();
    tables.push(table(0, &[0, 2]));
    tables.extend((0..15).map(|i| Table::new(i % 2, &[], &[1])));
    Problem {
        ceilings: vec![100, 100],
        domains: vec![8; 3],
        tables,
    }
}

/// Ten valid problems with all arities and numbers of objectives among them, each with few choices.
pub fn ten_problems() -> [Problem; 10] {
    [
        colours([100, 100]),
        lone(8, 1),
        three([3, 3]),
        pair([9, 9]),
        bent([9, 9]),
        objects([13, 100, 100]),
        xor(),
        all_clauses(5),
        stairs_of(64),
        every_arity(),
    ]
}
