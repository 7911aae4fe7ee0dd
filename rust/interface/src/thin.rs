//! The export crate: for each function of the C interface one with the same
//! name, parameters and clauses that C can call and that calls it.

use crate::source::{Function, Import, Module, Shape, Source, Type, NUMBERS};

const WIDTH: usize = 100;
// The longest list of arguments that the formatter leaves on one line, and the
// longest arguments of which it then puts many on a line.
const SHORT: usize = 60;
const SHORT_ARGUMENT: usize = 10;
const MADE: &str = "// Made by ./interface: change crates/coronagamba, then run it.\n";

/// The crate's files, by their paths from the repository's top.
pub fn files(source: &Source, library: &str) -> Vec<(String, String)> {
    let mut modules: Vec<&Module> = source.modules.iter().collect();
    modules.sort_by(|one, other| one.name.cmp(&other.name));
    let path = |name: &str| format!("crates/{library}_c/src/{name}.rt");
    let listed: String = modules
        .iter()
        .map(|module| format!("pub mod {};\n", module.name))
        .collect();
    let root = format!(
        "// The C interface as C calls it. Each exported function has the contract of the library's function of that name, word\n\
         // for word, and calls it.\n{MADE}#![tactic(auto)]\n\n{listed}"
    );
    let files = modules
        .iter()
        .map(|module| (path(&module.name), file(module, library)));
    std::iter::once((path("lib"), root)).chain(files).collect()
}

/// The libraries that the crate names, the interface's own first.
pub fn uses(source: &Source, library: &str) -> Vec<String> {
    let mut found = vec![library.to_string()];
    for module in &source.modules {
        for import in needed(module, library) {
            let path = import.path.strip_prefix("Rattle.").unwrap_or(&import.path);
            let end = path.find(['.', ':']).unwrap_or(path.len());
            let name = path[..end].to_string();
            if name != "std" && !found.contains(&name) {
                found.push(name);
            }
        }
    }
    found[1..].sort();
    found
}

fn file(module: &Module, library: &str) -> String {
    let lines = |ghost: bool| -> Vec<String> {
        let imports = needed(module, library);
        let mut lines: Vec<String> = imports
            .iter()
            .filter(|import| import.ghost == ghost)
            .map(line)
            .collect();
        if !ghost {
            lines.sort();
        }
        lines
    };
    let mut parts = vec![format!("// {}\n{MADE}", module.title)];
    parts.extend([true, false].map(|ghost| lines(ghost).concat()));
    parts.extend(
        module
            .functions
            .iter()
            .map(|f| function(module, f, library)),
    );
    parts.retain(|part| !part.is_empty());
    parts.join("\n")
}

fn line(import: &Import) -> String {
    let names = import.names.join(", ");
    match (import.ghost, &import.names[..]) {
        (true, _) => format!("ghost use {}.{{{names}}};\n", import.path),
        (false, [_]) => format!("use {}::{names};\n", import.path),
        (false, _) => format!("use {}::{{{names}}};\n", import.path),
    }
}

/// What of a file's imports its functions' signatures and clauses name. The
/// interface's own structs stand at the library's root.
fn needed(module: &Module, library: &str) -> Vec<Import> {
    let clauses: Vec<&str> = module
        .functions
        .iter()
        .flat_map(|function| words(&function.clauses))
        .collect();
    let types: Vec<&String> = module
        .functions
        .iter()
        .flat_map(|function| &function.parameters)
        .map(|(_, Type::Plain(name) | Type::Lent(_, _, name))| name)
        .filter(|name| !NUMBERS.contains(&name.as_str()))
        .collect();
    let imports = module.imports.iter().filter_map(|import| {
        let names: Vec<String> = import
            .names
            .iter()
            .filter(|name| {
                let name = name.rsplit(" as ").next().unwrap_or(name);
                if import.ghost {
                    let mut parts = name.split('◌').filter(|part| !part.is_empty());
                    parts.all(|part| clauses.contains(&part))
                } else {
                    types.iter().any(|other| *other == name)
                }
            })
            .cloned()
            .collect();
        let path = if import.path.starts_with("crate::") {
            library
        } else {
            &import.path
        };
        (!names.is_empty()).then(|| Import {
            ghost: import.ghost,
            path: path.into(),
            names,
        })
    });
    imports.collect()
}

/// The words of a contract.
fn words(clauses: &str) -> impl Iterator<Item = &str> {
    clauses.split(|c: char| c.is_whitespace() || "(){};.".contains(c))
}

fn function(module: &Module, function: &Function, library: &str) -> String {
    let name = &function.name;
    let result = written(&function.result);
    let parameters: Vec<String> = function
        .parameters
        .iter()
        .map(|(name, kind)| format!("{name}: {}", written(kind)))
        .collect();
    let arguments: Vec<String> = function
        .parameters
        .iter()
        .map(|(name, _)| name.clone())
        .collect();
    let start = format!("pub extern \"C\" fn {name}");
    let head = match format!("{start}({}) -> {result}", parameters.join(", ")) {
        short if short.len() <= WIDTH => short,
        _ => format!(
            "{start}(\n{}) -> {result}",
            a_line_each("    ", &parameters)
        ),
    };
    let start = format!("    {library}::{}::{name}", module.name);
    let together = arguments.join(", ");
    let call = match format!("{start}({together})") {
        short if short.len() <= WIDTH && together.len() <= SHORT => short,
        _ if arguments.iter().all(|one| one.len() <= SHORT_ARGUMENT) => {
            format!("{start}(\n        {together},\n    )")
        }
        _ => format!("{start}(\n{}    )", a_line_each("        ", &arguments)),
    };
    let clauses = &function.clauses;
    format!("#[unsafe(no_mangle)]\n{head}\n{clauses}{{\n{call}\n}}\n")
}

fn a_line_each(indent: &str, items: &[String]) -> String {
    let lines = items.iter().map(|item| format!("{indent}{item},\n"));
    lines.collect()
}

/// A type in Rattle.
fn written(kind: &Type) -> String {
    match kind {
        Type::Plain(name) => name.clone(),
        Type::Lent(shape, writable, of) => {
            let lent = if *writable { "&mut " } else { "&" };
            match shape {
                Shape::One => format!("{lent}{of}"),
                Shape::Array(n) => format!("{lent}[{of}; {n}]"),
                Shape::Many => format!("{lent}[{of}]"),
            }
        }
    }
}

#[cfg(test)]
mod tests {
    use super::*;

    #[test]
    fn a_function_s_clauses_stand_as_they_are() {
        let given = Function {
            name: "coronagamba_copy".into(),
            about: String::new(),
            refusals: String::new(),
            parameters: vec![
                ("from".into(), Type::Lent(Shape::Many, false, "u8".into())),
                ("cell".into(), Type::Plain("Cell".into())),
            ],
            result: Type::Plain("u64".into()),
            contract: Vec::new(),
            clauses: "    ensures { result ≡ kept from.now cell }\n".into(),
        };
        let import = |ghost, path: &str, names: &[&str]| Import {
            ghost,
            path: path.into(),
            names: names.iter().map(|name| name.to_string()).collect(),
        };
        let module = Module {
            name: "copies".into(),
            title: "Copies.".into(),
            functions: vec![given],
            imports: vec![
                import(true, "Rattle.std.specs.Prelude", &["◌≡◌", "◌+◌"]),
                import(true, "Rattle.a.specs.B", &["left as kept", "shown"]),
                import(false, "crate::numbers", &["Cell", "cell_of"]),
            ],
        };
        assert_eq!(
            file(&module, "low"),
            "// Copies.\n\
             // Made by ./interface: change crates/coronagamba, then run it.\n\n\
             ghost use Rattle.std.specs.Prelude.{◌≡◌};\n\
             ghost use Rattle.a.specs.B.{left as kept};\n\n\
             use low::Cell;\n\n\
             #[unsafe(no_mangle)]\n\
             pub extern \"C\" fn coronagamba_copy(from: &[u8], cell: Cell) -> u64\n    \
             ensures { result ≡ kept from.now cell }\n\
             {\n    low::copies::coronagamba_copy(from, cell)\n}\n"
        );
    }
}
