//! The bound call of the static library over every value of each limited field, and over every
//! prefix of a small problem. The numbers expected are written from the limits of the reference, section 5.

use frontier::lent;
use frontier::limits::{MAX_ARITY, MAX_DOMAIN, MAX_OBJECTIVES, MAX_TABLES, MAX_VARIABLES};
use frontier::refusal::{
    ARITY, CUT_SHORT, DOMAIN, OBJECTIVES, OWNER, PREFIX, SCOPE, TABLES, VARIABLES,
};
use frontier::{Problem, Table};
use testing::examples::{every_arity, lone};
use testing::mixed::compare_bound;

/// Asserts that the call accepts the bytes or refuses them with this number, and that it answers
/// as the brute force does.
fn assert_accepted_or(bytes: &[u8], accepted: bool, number: u8) {
    let expected = if accepted { 0 } else { number };
    assert_eq!(compare_bound(bytes, &[], lent::bound_prefix), Ok(()));
    assert_eq!(lent::bound_prefix(bytes, &[]).number, expected);
}

/// A problem of these sizes, with one value each and these tables.
fn sized(variables: usize, objectives: usize, tables: Vec<Table>) -> Problem {
    Problem {
        ceilings: vec![1; objectives],
        domains: vec![1; variables],
        tables,
    }
}

#[test]
fn every_number_of_variables() {
    for n in 0..=255 {
        let accepted = (1..=MAX_VARIABLES).contains(&n);
        assert_accepted_or(&sized(n, 1, vec![]).encode(), accepted, VARIABLES);
        // A wrong n is told before a wrong p.
        let number = if accepted { OBJECTIVES } else { VARIABLES };
        assert_accepted_or(&sized(n, 5, vec![]).encode(), false, number);
    }
}

#[test]
fn every_number_of_objectives() {
    for p in 0..=255 {
        let accepted = (1..=MAX_OBJECTIVES).contains(&p);
        assert_accepted_or(&sized(3, p, vec![]).encode(), accepted, OBJECTIVES);
    }
}

#[test]
fn every_number_of_tables() {
    for r in 0..=MAX_TABLES + 1 {
        let tables = vec![Table::new(0, &[], &[u32::MAX]); r];
        let bytes = sized(1, 1, tables).encode();
        assert_accepted_or(&bytes, r <= MAX_TABLES, TABLES);
    }
    // Both bytes of the field count; here the tables it promises are missing.
    let mut bytes = lone(1, 1).encode();
    for r in 0..=u16::MAX {
        bytes[4..6].copy_from_slice(&r.to_le_bytes());
        let allowed = usize::from(r) <= MAX_TABLES;
        assert_accepted_or(&bytes, r == 0, if allowed { CUT_SHORT } else { TABLES });
    }
}

#[test]
fn every_domain_size() {
    for variable in [0, 1, MAX_VARIABLES - 1] {
        for d in 0..=255 {
            let mut problem = sized(MAX_VARIABLES, 1, vec![Table::new(0, &[2], &[4])]);
            problem.domains[variable] = d;
            let accepted = (1..=MAX_DOMAIN).contains(&usize::from(d));
            assert_accepted_or(&problem.encode(), accepted, DOMAIN);
        }
    }
}

#[test]
fn every_owner() {
    for p in 1..=MAX_OBJECTIVES {
        for objective in 0..=255 {
            let tables = vec![Table::new(objective, &[], &[3])];
            let accepted = usize::from(objective) < p;
            assert_accepted_or(&sized(1, p, tables).encode(), accepted, OWNER);
        }
    }
}

#[test]
fn every_arity_is_asked() {
    for arity in 0..=255 {
        let scope: Vec<u8> = (0..arity).collect();
        let tables = vec![Table::new(0, &scope, &[3])];
        let accepted = usize::from(arity) <= MAX_ARITY;
        let bytes = sized(MAX_VARIABLES, 1, tables).encode();
        assert_accepted_or(&bytes, accepted, ARITY);
    }
}

/// Whether the variables of a scope are below n, and none stands in it twice.
fn is_scope(scope: &[u8], n: usize) -> bool {
    let once = |v: &u8| scope.iter().filter(|&w| w == v).count() == 1;
    scope.iter().all(|v| usize::from(*v) < n && once(v))
}

#[test]
fn every_scope_of_few_variables() {
    let values = [0, 1, 2, 3, 4, 5, 255];
    let triples = values.map(|a| values.map(|b| values.map(|c| [a, b, c])));
    for triple in triples.concat().concat() {
        for scope in [&triple[..1], &triple[..2], &triple[..]] {
            let bytes = sized(4, 1, vec![Table::new(0, scope, &[3])]).encode();
            assert_accepted_or(&bytes, is_scope(scope, 4), SCOPE);
        }
    }
}

#[test]
fn every_scope_variable() {
    for n in [1, 2, MAX_VARIABLES] {
        for v in 0..=255 {
            let bytes = sized(n, 1, vec![Table::new(0, &[v], &[3])]).encode();
            assert_accepted_or(&bytes, is_scope(&[v], n), SCOPE);
        }
    }
}

/// Whether a prefix is one of this problem.
fn is_prefix(problem: &Problem, prefix: &[u8]) -> bool {
    let in_domain = prefix.iter().zip(&problem.domains).all(|(v, d)| v < d);
    prefix.len() <= problem.variables() && in_domain
}

#[test]
fn every_prefix_of_every_arity() {
    let problem = every_arity();
    let bytes = problem.encode();
    let mut prefixes = vec![Vec::new()];
    for length in 0..problem.variables() + 2 {
        let longer = |value: u8| {
            prefixes
                .iter()
                .map(move |x| [x.as_slice(), &[value]].concat())
        };
        let next: Vec<Vec<u8>> = (0..=4).flat_map(longer).collect();
        for prefix in &prefixes {
            assert_eq!(prefix.len(), length);
            let expected = if is_prefix(&problem, prefix) {
                0
            } else {
                PREFIX
            };
            assert_eq!(compare_bound(&bytes, prefix, lent::bound_prefix), Ok(()));
            assert_eq!(lent::bound_prefix(&bytes, prefix).number, expected);
        }
        prefixes = next;
    }
}

#[test]
fn every_value_at_every_place_of_a_prefix() {
    let problem = every_arity();
    let bytes = problem.encode();
    for place in 0..problem.variables() {
        for value in 0..=255 {
            let mut prefix = vec![0; problem.variables()];
            prefix[place] = value;
            assert_eq!(compare_bound(&bytes, &prefix, lent::bound_prefix), Ok(()));
            let accepted = value < problem.domains[place];
            let expected = if accepted { 0 } else { PREFIX };
            assert_eq!(lent::bound_prefix(&bytes, &prefix).number, expected);
        }
    }
}

#[test]
fn prefixes_far_too_long() {
    let bytes = every_arity().encode();
    for length in [25, 255, 256, 257, 65_536, 70_000] {
        let prefix = vec![0; length];
        assert_eq!(compare_bound(&bytes, &prefix, lent::bound_prefix), Ok(()));
        assert_eq!(lent::bound_prefix(&bytes, &prefix).number, PREFIX);
    }
}
