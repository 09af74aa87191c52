//! `canonical`: the text that all files with the same declarations and rules share.

use crate::arguments::Call;
use crate::commands::states::refuse;
use crate::ending::{Ending, Outcome};
use crate::file::File;
use crate::output::print;
use crate::refused;

pub const MORE: &str = "\
The file may be of either kind. Comments, blank lines and spaces that say nothing
go, and so do a preference file's atoms that stand in no rule; in the place of
conditions stand their rules and atoms. The atoms inside each list of a rule are
sorted as they are declared, then the rules by the first difference of their
heads, bodies and not lists, where a list that ends first stands before; one of
equal rules is kept. The declarations stay.

So two files print the same text exactly when they have the same declarations in
the same order, without what goes, and the same rules, however they are typed:

    rigtomato canonical ONE >one
    rigtomato canonical OTHER | cmp - one

The preferred states, or stable models, are those of the file, and a canonical
text prints itself. Of a refused file only (refused NUMBER LINE) is printed, and
standard error has the reason and the line.
";

pub fn run(call: &Call) -> Outcome {
    let file = File::read(&call.file)?;
    match refused::read(&file) {
        Ok(program) => {
            print(program.write_canonical())?;
            Ok(Ending::Answered)
        }
        Err(refused) => refuse(&file, false, &refused),
    }
}
