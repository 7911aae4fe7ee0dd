//! The Python declarations and constants.

use crate::c::counted;
use crate::layout::{lines, wrapped};
use crate::source::{Function, Shape, Source, Struct, Type};
use crate::table::{Constant, Refusal};

const WIDTH: usize = 79;
const MADE: &str =
    "Made by ./interface: change crates/coronagamba or rust/interface, then run it.\n";

/// The ctypes declarations.
pub fn declarations(source: &Source, constants: &[Constant]) -> String {
    let mut out = format!("\"\"\"The functions of the shared object.\n\n{MADE}\"\"\"\n\n");
    out.push_str(
        "from __future__ import annotations\n\nimport ctypes\nfrom ctypes import POINTER\n",
    );
    out.push_str("from typing import Any, Dict, Tuple\n\n");
    let [major, minor, patch] = source.version;
    out.push_str(&format!("VERSION = ({major}, {minor}, {patch})\n"));
    out.push_str(&format!("__version__ = \"{major}.{minor}.{patch}\"\n"));
    for constant in constants {
        out.push_str(&format!("\n{}", lines("# ", &constant.says, WIDTH)));
        out.push_str(&format!("{} = {}\n", constant.name, constant.value));
    }
    for structure in &source.structs {
        out.push_str(&struct_in_python(structure));
    }
    let names = source.structs.iter().map(|structure| {
        format!(
            "    \"{}\": {},\n",
            Struct::name_in_c(&structure.name),
            structure.name
        )
    });
    out.push_str("\n\n# The structs, by their names in C.\nSTRUCTS: Dict[str, Any] = {\n");
    out.extend(names);
    out.push_str("}\n\n# For each function, what it gives and what it takes.\n");
    out.push_str("FUNCTIONS: Dict[str, Tuple[Any, Tuple[Any, ...]]] = {\n");
    out.extend(source.functions().map(function));
    out.push_str("}\n");
    out
}

fn struct_in_python(structure: &Struct) -> String {
    let about = wrapped(&structure.about, WIDTH - 7).join("\n    ");
    let fields: String = structure
        .fields
        .iter()
        .map(|(name, kind)| format!("        (\"{name}\", {}),\n", in_python(kind)))
        .collect();
    format!(
        "\n\nclass {}(ctypes.Structure):\n    \"\"\"{about}\"\"\"\n\n    _fields_ = [\n{fields}    ]\n",
        structure.name
    )
}

fn item(name: &str) -> String {
    match name {
        "usize" => "ctypes.c_size_t".into(),
        "f32" => "ctypes.c_float".into(),
        "f64" => "ctypes.c_double".into(),
        _ if name.starts_with('u') => format!("ctypes.c_uint{}", &name[1..]),
        _ if name.starts_with('i') => format!("ctypes.c_int{}", &name[1..]),
        _ => name.into(),
    }
}

fn in_python(kind: &Type) -> String {
    match kind {
        Type::Plain(of) => item(of),
        Type::Lent(Shape::Array(n), _, of) => format!("POINTER({} * {n})", item(of)),
        Type::Lent(_, _, of) => format!("POINTER({})", item(of)),
    }
}

fn function(function: &Function) -> String {
    let about = lines("    # ", &function.about, WIDTH);
    let refusals = lines("    # ", &format!("Refusals: {}", function.refusals), WIDTH);
    let mut parameters = String::new();
    for (_, kind, _) in counted(function) {
        parameters.push_str(&format!("            {},\n", in_python(kind)));
        if let Type::Lent(Shape::Many, _, _) = kind {
            parameters.push_str("            ctypes.c_size_t,\n");
        }
    }
    let parameters = if parameters.is_empty() {
        "        (),\n".into()
    } else {
        format!("        (\n{parameters}        ),\n")
    };
    format!(
        "{about}{refusals}    \"{}\": (\n        {},\n{parameters}    ),\n",
        function.name,
        in_python(&function.result)
    )
}

/// The numbers of the refusals and their sentences.
pub fn refusals(refusals: &[Refusal]) -> String {
    let mut out = format!("\"\"\"The table of refusals.\n\n{MADE}\"\"\"\n\n");
    out.push_str("from __future__ import annotations\n\nfrom typing import Dict\n\n\n");
    out.push_str("class Numbers:\n    \"\"\"The numbers by name.\"\"\"\n");
    for refusal in refusals {
        out.push_str(&format!("\n{}", lines("    # ", &refusal.given, WIDTH)));
        out.push_str(&format!("    {} = {}\n", refusal.name, refusal.number));
    }
    out.push_str("\n\n# Each number with its sentence, rising.\nSENTENCES: Dict[int, str] = {\n");
    for refusal in refusals {
        let text = refusal.says.replace('\\', "\\\\").replace('"', "\\\"");
        let short = format!("    {}: \"{text}\",\n", refusal.number);
        if short.len() <= WIDTH + 1 {
            out.push_str(&short);
            continue;
        }
        let lines = wrapped(&text, WIDTH - 11);
        let lines: Vec<String> = lines
            .iter()
            .map(|line| format!("        \"{line}"))
            .collect();
        out.push_str(&format!(
            "    {}: (\n{}\"\n    ),\n",
            refusal.number,
            lines.join(" \"\n")
        ));
    }
    out.push_str("}\n");
    out
}
