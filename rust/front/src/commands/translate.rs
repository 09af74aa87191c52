//! `translate`: the plain program of a preference file.

use crate::arguments::Call;
use crate::asp;
use crate::commands::states::refuse;
use crate::ending::{Ending, Outcome};
use crate::file::File;
use crate::output::print;
use crate::refused::{self, Refused};
use rigtomato::{Kind, Program};

pub const MORE: &str = "\
The stable models of the plain program, cut down to the file's own atoms, are the
file's preferred states, each from just one stable model. The output is byte for
byte that of the proved program target/bin/translate, which takes and prints at
most 65,536 bytes; here both may have 917,504.

With --asp a name a of the file is holds(\"a\"), and N.a, S.a, D.a, E.3 and U are
n(\"a\"), s(\"a\"), d(\"a\"), e(3) and u; only holds/1 is shown:

    rigtomato translate --asp FILE | clingo 0 -
";

/// The plain program of a file, as it is delivered.
pub fn delivered(file: &File) -> Result<(Program, Vec<u8>), Refused> {
    let program = refused::read(file)?;
    let text = program.translate();
    let text = text.map_err(|refusal| Refused::of_call(refusal, Kind::Preference))?;
    Ok((program, text))
}

/// The delivered text for a solver.
pub fn for_solver(text: &[u8]) -> String {
    asp::text(&Program::read(text).expect("what the translator delivers is accepted"))
}

pub fn run(call: &Call) -> Outcome {
    let file = File::read(&call.file)?;
    let text = match delivered(&file) {
        Ok((_, text)) if call.asp => for_solver(&text).into_bytes(),
        Ok((_, text)) => text,
        Err(refused) => return refuse(&file, false, &refused),
    };
    print(text)?;
    Ok(Ending::Answered)
}
