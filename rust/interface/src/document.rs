//! The tables in docs/ENTRY-POINTS.md.

use crate::layout::listed;
use crate::source::{Function, Source};
use crate::table::Refusal;

/// The document with the lines between its markers made anew.
pub fn document(text: &str, source: &Source, refusals: &[Refusal]) -> Result<String, String> {
    let functions: String = source.functions().map(row).collect();
    let text = between(
        text,
        "C table",
        &format!(
            "| function | what it gives | refusals, in order | answer; what is written |\n\
             |---|---|---|---|\n{functions}"
        ),
    )?;
    let numbers: String = refusals.iter().map(refusal_row).collect();
    between(
        &text,
        "refusals",
        &format!("| no. | name | given exactly when | names a minishard | names a position |\n|---|---|---|---|---|\n{numbers}"),
    )
}

/// Puts lines between `<!-- NAME, made by ./interface -->` and `<!-- end -->`.
fn between(text: &str, name: &str, made: &str) -> Result<String, String> {
    let start = format!("<!-- {name}, made by ./interface -->\n");
    let wrong = || format!("docs/ENTRY-POINTS.md has no {}", start.trim_end());
    let (before, rest) = text.split_once(&start).ok_or_else(wrong)?;
    let (_, after) = rest.split_once("<!-- end -->\n").ok_or_else(wrong)?;
    Ok(format!("{before}{start}{made}<!-- end -->\n{after}"))
}

/// A function with the definitions of its contract: those of the answer, then
/// for each thing written those that the answer does not name.
fn row(function: &Function) -> String {
    let mut clauses = function.contract.iter();
    let empty = Vec::new();
    let answer = clauses
        .next()
        .map_or(&empty, |(_, definitions)| definitions);
    let quoted = |names: Vec<&String>| {
        let names: Vec<String> = names.iter().map(|name| format!("`{name}`")).collect();
        names.join(", ")
    };
    let mut told = quoted(answer.iter().collect());
    for (place, (name, definitions)) in clauses.enumerate() {
        let own = definitions.iter().filter(|name| !answer.contains(name));
        told.push_str(if place == 0 { "; " } else { ", " });
        told.push_str(&format!("{name}: {}", quoted(own.collect())));
    }
    format!(
        "| `{}` | {} | {} | {told} |\n",
        function.name, function.about, function.refusals
    )
}

fn refusal_row(refusal: &Refusal) -> String {
    let carriers = |names: &[String]| {
        let names: Vec<String> = names.iter().map(|name| format!("`{name}`")).collect();
        if names.is_empty() {
            String::new()
        } else {
            listed(&names)
        }
    };
    format!(
        "| {} | `{}` | {} | {} | {} |\n",
        refusal.number,
        refusal.name,
        refusal.given,
        carriers(&refusal.minishard),
        carriers(&refusal.position)
    )
}
