//! The Rust declarations, constants and the desk tool's table.

use crate::c::counted;
use crate::layout::{lines, wrapped};
use crate::source::{Function, Shape, Source, Struct, Type};
use crate::table::{Constant, Refusal};

const WIDTH: usize = 100;
// The longest tuple that the formatter leaves on one line.
const SHORT: usize = 62;
const MADE: &str =
    "//! Made by ./interface: change crates/coronagamba or rust/interface, then run it.\n";

/// The extern block.
pub fn declarations(source: &Source) -> String {
    let mut out = format!("//! The functions of the C archive.\n//!\n{MADE}\n");
    let mut named: Vec<&str> = source.structs.iter().map(|s| s.name.as_str()).collect();
    named.sort();
    out.push_str(&format!("use crate::{{{}}};\n", named.join(", ")));
    out.push_str("use std::mem::{align_of, offset_of, size_of};\n\n");
    out.push_str("// The crate's structs have the fields and the layout that C gives them.\n");
    for structure in &source.structs {
        out.push_str(&same_layout(source, structure));
    }
    out.push_str("\nextern \"C\" {\n");
    let functions: Vec<String> = source.functions().map(function).collect();
    out.push_str(&functions.join("\n"));
    out.push_str("}\n");
    out
}

/// Asserts for the compiler: a struct has exactly these fields, of these types,
/// at these places.
fn same_layout(source: &Source, structure: &Struct) -> String {
    let name = &structure.name;
    let layout = source.layout(structure);
    let fields: Vec<&str> = structure
        .fields
        .iter()
        .map(|(name, _)| name.as_str())
        .collect();
    let types: Vec<String> = structure
        .fields
        .iter()
        .map(|(_, kind)| in_rust(kind))
        .collect();
    let places: String = fields
        .iter()
        .zip(&layout.offsets)
        .map(|(field, offset)| format!("    assert!(offset_of!({name}, {field}) == {offset});\n"))
        .collect();
    // As the formatter has it.
    let split = match fields.join(", ") {
        short if short.len() <= 18 => format!("    let {name} {{ {short} }} = given;\n"),
        _ => {
            let fields: String = fields
                .iter()
                .map(|field| format!("        {field},\n"))
                .collect();
            format!("    let {name} {{\n{fields}    }} = given;\n")
        }
    };
    format!(
        "const _: fn({name}) = |given| {{\n{split}    let _: ({}) = ({});\n}};\n\
         const _: () = {{\n{places}    assert!(size_of::<{name}>() == {});\n    \
         assert!(align_of::<{name}>() == {});\n}};\n",
        types.join(", "),
        fields.join(", "),
        layout.size,
        layout.align
    )
}

fn function(function: &Function) -> String {
    let about = lines("    /// ", &function.about, WIDTH);
    let refusals = lines(
        "    /// ",
        &format!("Refusals: {}", function.refusals),
        WIDTH,
    );
    let mut parameters = Vec::new();
    for (name, kind, count) in counted(function) {
        parameters.push(format!("{name}: {}", in_rust(kind)));
        if let Type::Lent(Shape::Many, _, _) = kind {
            parameters.push(format!("{count}: usize"));
        }
    }
    let result = in_rust(&function.result);
    let name = &function.name;
    let short = format!("    pub fn {name}({}) -> {result};", parameters.join(", "));
    let declared = if short.len() < WIDTH {
        format!("{short}\n")
    } else if short.len() == WIDTH {
        // As the formatter has it: the result on a line of its own.
        let (front, end) = short.split_at(short.len() - format!(" -> {result};").len());
        format!("{front}\n       {end}\n")
    } else {
        let listed: String = parameters
            .iter()
            .map(|p| format!("        {p},\n"))
            .collect();
        format!("    pub fn {name}(\n{listed}    ) -> {result};\n")
    };
    format!("{about}    ///\n{refusals}{declared}")
}

fn in_rust(kind: &Type) -> String {
    let (shape, writable, of) = match kind {
        Type::Plain(of) => return of.clone(),
        Type::Lent(shape, writable, of) => (shape, writable, of),
    };
    let pointer = if *writable { "*mut" } else { "*const" };
    match shape {
        Shape::One | Shape::Many => format!("{pointer} {of}"),
        Shape::Array(n) => format!("{pointer} [{of}; {n}]"),
    }
}

/// The constants and sentences of the safe crate.
pub fn numbers(source: &Source, refusals: &[Refusal], constants: &[Constant]) -> String {
    let [major, minor, patch] = source.version;
    let mut out =
        format!("//! Refusals and other numbers, as the tables have them.\n//!\n{MADE}\n");
    out.push_str("use crate::refusal::Refusal;\n\n");
    out.push_str("/// The version that these declarations belong to: major, minor, patch.\n");
    out.push_str(&format!(
        "pub const VERSION: [u64; 3] = [{major}, {minor}, {patch}];\n\n"
    ));
    for constant in constants {
        out.push_str(&lines("/// ", &sentence(&constant.says), WIDTH));
        out.push_str(&format!(
            "pub const {}: {} = {};\n\n",
            constant.name, constant.kind, constant.value
        ));
    }
    out.push_str("impl Refusal {\n");
    let rows: Vec<String> = refusals
        .iter()
        .map(|refusal| {
            let about = lines("    /// ", &sentence(&refusal.given), WIDTH);
            format!(
                "{about}    pub const {}: u8 = {};\n",
                refusal.name, refusal.number
            )
        })
        .collect();
    out.push_str(&rows.join("\n"));
    out.push_str("}\n\n/// Each number with its sentence, rising.\n");
    out.push_str("pub(crate) const SENTENCES: &[(u8, &str)] = &[\n");
    for refusal in refusals {
        let short = format!("({}, {}),", refusal.number, quoted(&refusal.says));
        if short.len() <= SHORT {
            out.push_str(&format!("    {short}\n"));
        } else {
            let text = string(&refusal.says, "        ");
            out.push_str(&format!(
                "    (\n        {},\n{text},\n    ),\n",
                refusal.number
            ));
        }
    }
    out.push_str("];\n");
    out
}

/// The desk tool's table.
pub fn explained(refusals: &[Refusal]) -> String {
    let mut out = format!("//! What the refusals mean.\n//!\n{MADE}\n");
    out.push_str("use super::row::Explained;\n\n/// The table of refusals, numbers rising.\n");
    out.push_str("pub const TABLE: &[Explained] = &[\n");
    for refusal in refusals {
        out.push_str(&format!(
            "    Explained {{\n        number: {},\n",
            refusal.number
        ));
        for (field, text) in [
            ("given", &refusal.given),
            ("cause", &refusal.cause),
            ("remedy", &refusal.remedy),
        ] {
            let start = format!("        {field}: ");
            out.push_str(&format!("{},\n", string(text, &start)));
        }
        out.push_str("    },\n");
    }
    out.push_str("];\n");
    out
}

/// A phrase of a table as a sentence.
fn sentence(text: &str) -> String {
    let mut letters = text.chars();
    let first = letters.next().map(|c| c.to_uppercase().collect::<String>());
    format!("{}{}.", first.unwrap_or_default(), letters.as_str())
}

fn quoted(text: &str) -> String {
    format!("\"{}\"", text.replace('\\', "\\\\").replace('"', "\\\""))
}

/// A string literal behind a start of that width, over several lines where one
/// is too short; the later ones are indented one deeper.
fn string(text: &str, start: &str) -> String {
    let text = quoted(text);
    let (indent, end) = (start.len() - start.trim_start().len(), 1);
    if start.len() + text.len() + end <= WIDTH {
        return format!("{start}{text}");
    }
    let lines = wrapped(&text, WIDTH - start.len() - 4);
    format!("{start}{}", lines.join(&format!(" \\\n{:indent$} ", "")))
}

/// The manifest of the workspace, with the library's version.
pub fn workspace(text: &str, [major, minor, patch]: [u64; 3]) -> Result<String, String> {
    let mut found = 0;
    let mut out = String::new();
    for line in text.lines() {
        if line.starts_with("version = ") {
            found += 1;
            out.push_str(&format!("version = \"{major}.{minor}.{patch}\"\n"));
        } else {
            out.push_str(line);
            out.push('\n');
        }
    }
    match found {
        1 => Ok(out),
        _ => Err(format!("rust/Cargo.toml has {found} lines with a version")),
    }
}
