//! One of many questions on the command line, and its answer.

use std::ffi::OsStr;
use std::path::Path;

use coronagamba::Cell;

use crate::args::{triple, U32};
use crate::fault::Fault;
use crate::json::Object;
use crate::report::Report;

/// The cell that a word names, X,Y,Z; `what` names the word in a complaint.
pub fn cell_of(word: &OsStr, what: &str) -> Result<Cell, Fault> {
    let [x, y, z] = triple(word, what, U32)?;
    Ok(Cell { x, y, z })
}

/// A cell as the question of a JSON object.
pub fn cell_object(Cell { x, y, z }: Cell) -> Object {
    Object::new().numbers("cell", [x, y, z])
}

/// A cell as it is written on the command line.
pub fn cell_text(Cell { x, y, z }: Cell) -> String {
    format!("{x},{y},{z}")
}

/// Answers one of many questions; `asked` is what was read from its word. A
/// word that is no question is complained of, and `wrong` stands in the place
/// of its answer, so that answers can be put beside questions.
pub fn answer<T>(
    report: &mut Report,
    word: &OsStr,
    asked: Result<T, Fault>,
    tell: impl FnOnce(&mut Report, T) -> Result<(), Fault>,
) -> Result<(), Fault> {
    let fault = match asked {
        Ok(asked) => return tell(report, asked),
        Err(fault) => fault,
    };
    report.complain(&fault)?;
    if !report.json() {
        return report.line("wrong");
    }
    report.object(
        Object::new()
            .named_path("question", Path::new(word))
            .text("result", "wrong")
            .text("error", &fault.to_string()),
    )
}
