//! The C header.

use crate::layout::{lines, listed, wrapped};
use crate::source::{Function, Shape, Source, Struct, Type};
use crate::table::{Constant, Refusal};

const WIDTH: usize = 80;

/// The header: its template with the lines that begin with `@` filled in.
pub fn header(
    template: &str,
    source: &Source,
    refusals: &[Refusal],
    constants: &[Constant],
) -> Result<String, String> {
    let mut out = String::new();
    let mut declared = Declared {
        source,
        modules: Vec::new(),
        structs: Vec::new(),
    };
    for line in template.lines() {
        match line.strip_prefix('@').map(|order| order.split_once(' ')) {
            None => {
                out.push_str(line);
                out.push('\n');
            }
            Some(Some(("functions", module))) => out.push_str(&declared.section(module)?),
            Some(_) => match line {
                "@carried" => out.push_str(&carried(refusals)),
                "@version" => out.push_str(&version(source.version)),
                "@refusals" => out.push_str(&refusal_numbers(refusals)),
                "@constants" => out.push_str(&other_numbers(constants)),
                _ => return Err(format!("the header's template: what is {line}?")),
            },
        }
    }
    for module in &source.modules {
        if !declared.modules.contains(&module.name.as_str()) {
            return Err(format!(
                "the header's template has no @functions {}",
                module.name
            ));
        }
    }
    Ok(out)
}

fn comment(text: &str) -> String {
    let text = wrapped(text, WIDTH - 6).join("\n * ");
    format!("/* {text} */\n")
}

/// Which answer words name a minishard or a position: functions that do with
/// the same refusals stand together.
fn carried(refusals: &[Refusal]) -> String {
    let carriers = |names: fn(&Refusal) -> &Vec<String>| {
        let mut groups: Vec<(Vec<u8>, Vec<String>)> = Vec::new();
        for function in refusals.iter().flat_map(names) {
            let with = refusals.iter().filter(|r| names(r).contains(function));
            let numbers: Vec<u8> = with.map(|r| r.number).collect();
            match groups.iter_mut().find(|(known, _)| *known == numbers) {
                Some((_, functions)) if functions.contains(function) => {}
                Some((_, functions)) => functions.push(function.clone()),
                None => groups.push((numbers, vec![function.clone()])),
            }
        }
        let told = groups.iter().map(|(numbers, functions)| {
            format!("{} with {}", listed(functions), listed(&runs(numbers)))
        });
        told.collect::<Vec<_>>()
    };
    let told = |what: &str, carriers: Vec<String>| match &carriers[..] {
        [] => format!("No function names {what}."),
        _ => format!("What names {what}: {}.", carriers.join("; ")),
    };
    let minishard = told("a minishard", carriers(|refusal| &refusal.minishard));
    let position = told("a position", carriers(|refusal| &refusal.position));
    lines(" * ", &format!("{minishard} {position}"), WIDTH)
}

/// Rising numbers, three or more in a row as `7 to 11`.
fn runs(numbers: &[u8]) -> Vec<String> {
    let runs = numbers.chunk_by(|one, next| one + 1 == *next);
    let told = runs.flat_map(|run| match run {
        [first, _, .., last] => vec![format!("{first} to {last}")],
        _ => run.iter().map(u8::to_string).collect(),
    });
    told.collect()
}

fn version([major, minor, patch]: [u64; 3]) -> String {
    let comment = comment(
        "The version of this header. Where coronagamba_version() gives another number, the \
         library that is linked or loaded belongs to another header: structs and answers may \
         differ.",
    );
    format!(
        "{comment}#define CORONAGAMBA_VERSION_MAJOR {major}\n\
         #define CORONAGAMBA_VERSION_MINOR {minor}\n\
         #define CORONAGAMBA_VERSION_PATCH {patch}\n\
         #define CORONAGAMBA_VERSION_STRING \"{major}.{minor}.{patch}\"\n\
         #define CORONAGAMBA_VERSION                      \\\n\
         \x20 ((uint64_t)CORONAGAMBA_VERSION_PATCH +         \\\n\
         \x20  ((uint64_t)CORONAGAMBA_VERSION_MINOR << 16) + \\\n\
         \x20  ((uint64_t)CORONAGAMBA_VERSION_MAJOR << 32))\n"
    )
}

fn refusal_numbers(refusals: &[Refusal]) -> String {
    let rows = refusals.iter().map(|refusal| {
        let comment = comment(&refusal.given);
        format!(
            "{comment}#define CORONAGAMBA_REFUSED_{} {}\n",
            refusal.name, refusal.number
        )
    });
    rows.collect::<Vec<_>>().join("\n")
}

fn other_numbers(constants: &[Constant]) -> String {
    let rows = constants.iter().map(|constant| {
        let comment = comment(&constant.says);
        format!(
            "{comment}#define CORONAGAMBA_{} {}\n",
            constant.name, constant.value
        )
    });
    rows.collect::<Vec<_>>().join("\n")
}

/// What of the source the header has so far.
struct Declared<'a> {
    source: &'a Source,
    modules: Vec<&'a str>,
    structs: Vec<&'a str>,
}

impl<'a> Declared<'a> {
    /// A module's functions, behind the structs that they take.
    fn section(&mut self, name: &str) -> Result<String, String> {
        let found = self
            .source
            .modules
            .iter()
            .find(|module| module.name == name);
        let module = found.ok_or_else(|| format!("no functions in {name}"))?;
        if self.modules.contains(&name) {
            return Err(format!("the header's template has {name} twice"));
        }
        self.modules.push(&module.name);
        let rule = format!("/* ---- {} ", module.title.trim_end_matches('.'));
        let mut parts = vec![format!("{rule:-<width$} */\n", width = WIDTH - 3)];
        for structure in &self.source.structs {
            if module
                .functions
                .iter()
                .any(|function| self.needed(structure, function))
            {
                self.structs.push(&structure.name);
                parts.push(struct_in_c(structure));
            }
        }
        parts.extend(module.functions.iter().map(function_in_c));
        Ok(parts.join("\n") + "\n")
    }

    /// Whether a function takes a struct, itself or inside another, that the
    /// header does not have yet.
    fn needed(&self, structure: &Struct, function: &Function) -> bool {
        fn holds(source: &Source, kind: &Type, name: &str) -> bool {
            let (Type::Plain(given) | Type::Lent(_, _, given)) = kind;
            let inside = source.structs.iter().find(|other| other.name == *given);
            given == name
                || inside.is_some_and(|s| s.fields.iter().any(|(_, f)| holds(source, f, name)))
        }
        !self.structs.contains(&structure.name.as_str())
            && function
                .parameters
                .iter()
                .any(|(_, kind)| holds(self.source, kind, &structure.name))
    }
}

fn struct_in_c(structure: &Struct) -> String {
    let fields = structure
        .fields
        .iter()
        .map(|(name, kind)| format!("  {};\n", declared(name, kind, "")));
    format!(
        "{}typedef struct {{\n{}}} {};\n",
        comment(&structure.about),
        fields.collect::<String>(),
        item(&structure.name)
    )
}

/// A number or a struct in C.
fn item(name: &str) -> String {
    match name {
        "usize" => "size_t".into(),
        "f32" => "float".into(),
        "f64" => "double".into(),
        _ if name.starts_with('u') => format!("uint{}_t", &name[1..]),
        _ if name.starts_with('i') => format!("int{}_t", &name[1..]),
        _ => Struct::name_in_c(name),
    }
}

/// A parameter or a field; `count` is the name of the count of many items.
fn declared(name: &str, kind: &Type, count: &str) -> String {
    let (shape, writable, of) = match kind {
        Type::Plain(of) => return format!("{} {name}", item(of)),
        Type::Lent(shape, writable, of) => (shape, writable, of),
    };
    let constant = if *writable { "" } else { "const " };
    let of = item(of);
    match shape {
        Shape::One => format!("{constant}{of} *{name}"),
        Shape::Array(n) => format!("{constant}{of} {name}[{n}]"),
        Shape::Many => format!("{constant}{of} *{name}, size_t {count}"),
    }
}

/// Each parameter with the name of its count: the first count is just
/// `count`, a later one goes by the name of what it counts.
pub fn counted(function: &Function) -> Vec<(&str, &Type, String)> {
    let mut first = true;
    let parameters = function.parameters.iter().map(|(name, kind)| {
        let many = matches!(kind, Type::Lent(Shape::Many, _, _));
        let count = if many && first {
            "count".into()
        } else {
            format!("{name}_count")
        };
        first &= !many;
        (name.as_str(), kind, count)
    });
    parameters.collect()
}

fn function_in_c(function: &Function) -> String {
    let about = format!("{} Refusals: {}", function.about, function.refusals);
    let Type::Plain(result) = &function.result else {
        unreachable!("a function gives a number")
    };
    let start = format!("{} {}(", item(result), function.name);
    let mut parameters: Vec<String> = Vec::new();
    for (name, kind, count) in counted(function) {
        parameters.extend(declared(name, kind, &count).split(", ").map(String::from));
    }
    if parameters.is_empty() {
        parameters.push("void".into());
    }
    let (mut text, mut column) = (start.clone(), start.len());
    let last = parameters.len() - 1;
    for (place, parameter) in parameters.iter().enumerate() {
        let end = if place == last { ");" } else { "," };
        if place > 0 {
            if column + 1 + parameter.len() + end.len() <= WIDTH {
                text.push(' ');
                column += 1;
            } else {
                text.push_str(&format!("\n{:indent$}", "", indent = start.len()));
                column = start.len();
            }
        }
        text.push_str(parameter);
        text.push_str(end);
        column += parameter.len() + end.len();
    }
    format!("{}{text}\n", comment(&about))
}

#[cfg(test)]
mod tests {
    use super::*;

    #[test]
    fn numbers_in_a_row() {
        assert_eq!(runs(&[7, 8, 9, 10, 11]), ["7 to 11"]);
        assert_eq!(runs(&[1, 5, 6, 8, 9, 10]), ["1", "5", "6", "8 to 10"]);
        assert!(runs(&[]).is_empty());
    }

    fn refusal(number: u8, minishard: &[&str], position: &[&str]) -> Refusal {
        let names = |of: &[&str]| of.iter().map(|name| name.to_string()).collect();
        Refusal {
            number,
            name: String::new(),
            says: String::new(),
            given: String::new(),
            cause: String::new(),
            remedy: String::new(),
            minishard: names(minishard),
            position: names(position),
        }
    }

    #[test]
    fn functions_that_carry_alike_stand_together() {
        let table = [
            refusal(6, &[], &["c"]),
            refusal(7, &["a"], &["a", "b", "c"]),
            refusal(8, &[], &["a", "b", "c"]),
        ];
        assert_eq!(
            carried(&table),
            " * What names a minishard: a with 7. What names a position: c with 6 to 8; a and\n \
             * b with 7 and 8.\n"
        );
    }
}
