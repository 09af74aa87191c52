//! The declared atoms that stand in no rule. Those of a preference file do not belong to its program.

use crate::file::File;
use rigtomato::Program;
use std::collections::HashSet;

/// The names that an accepted text declares and its program lacks, in declared order.
pub fn unused<'f>(file: &'f File, program: &Program) -> Vec<&'f str> {
    let belonging: HashSet<&str> = program.names().collect();
    let declared = file.declared();
    declared.filter(|name| !belonging.contains(name)).collect()
}
