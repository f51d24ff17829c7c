//! The coverage table: how many of some generated cases met each branch of the rules.

use std::collections::BTreeMap;

use crate::branch::Branch;
use crate::case_branches::branches_of;
use crate::generate::case_of;
use crate::protocol::Operation;

/// Prints the table. The answer: whether every row was met.
pub fn cover(count: u64, seed: u64, operations: &[Operation]) -> bool {
    let mut table: BTreeMap<Branch, u64> = Branch::ALL.iter().map(|branch| (*branch, 0)).collect();
    for number in 0..count {
        for branch in branches_of(&case_of(seed, number, operations)) {
            *table.entry(branch).or_default() += 1;
        }
    }
    println!("{count} cases, seed {seed}: in how many each branch was met");
    let mut complete = true;
    for (number, (branch, met)) in table.into_iter().enumerate() {
        let remark = if met == 0 { "  NOT MET" } else { "" };
        complete &= met > 0;
        println!("{:>4} {:<66} {met:>8}{remark}", number + 1, branch.text());
    }
    complete
}
