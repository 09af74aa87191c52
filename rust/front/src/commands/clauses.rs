//! `clauses`: the preference file of a clause file.

use crate::arguments::Call;
use crate::commands::states::refuse;
use crate::ending::{Ending, Outcome};
use crate::explain::explain_clauses;
use crate::file::File;
use crate::output::{print, say};
use crate::refused;

pub const MORE: &str = "\
A clause file (DIMACS CNF) has comment lines, which start with c, one line
'p cnf ATOMS CLAUSES', and then clauses, each ended by 0:

    c if 1 then 2 or 3
    p cnf 3 2
    -1 2 3 0
    1 0

Each clause is a rule: its positive literals are the head, its negative ones the
body. Atom 7 is called v7, and all atoms that some clause has are one class of
faults. So 'states' lists the least sets that satisfy the clauses:

    rigtomato clauses FILE | rigtomato states -

Of a refused file only (refused NUMBER LINE) is printed, and standard error has
the reason, the line, and what is allowed there.
";

pub fn run(call: &Call) -> Outcome {
    let file = File::read(&call.file)?;
    match refused::read_clauses(&file) {
        Ok(program) => {
            print(program.write())?;
            Ok(Ending::Answered)
        }
        Err(refused) => {
            let ending = refuse(&file, false, &refused)?;
            say(&explain_clauses(&file, &refused));
            Ok(ending)
        }
    }
}
