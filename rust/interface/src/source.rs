//! The library's C interface as its source has it: functions, structs, version.

use std::fs;
use std::path::{Path, PathBuf};

/// What a parameter is, a field of a struct or a result.
#[derive(Clone, Debug, PartialEq)]
pub enum Type {
    /// A number or a struct, by its Rattle name.
    Plain(String),
    /// Items behind a pointer: lent for reading, or to be written.
    Lent(Shape, bool, String),
}

/// How many items are behind a pointer.
#[derive(Clone, Copy, Debug, PartialEq)]
pub enum Shape {
    /// One.
    One,
    /// That many.
    Array(usize),
    /// A count beside the pointer says it.
    Many,
}

/// A function of the C interface.
#[derive(Debug)]
pub struct Function {
    /// Its name, in C too.
    pub name: String,
    /// What its comment says, but for the refusals.
    pub about: String,
    /// Its refusals in their order, as the comment's end has them.
    pub refusals: String,
    /// Names and types.
    pub parameters: Vec<(String, Type)>,
    /// What it gives.
    pub result: Type,
    /// For each clause of the contract its name and the definitions in it.
    pub contract: Vec<(String, Vec<String>)>,
    /// The lines of the contract as they stand.
    pub clauses: String,
}

/// A file of the crate.
#[derive(Debug)]
pub struct Module {
    /// The file's name.
    pub name: String,
    /// Its first comment line.
    pub title: String,
    /// Its functions of the C interface.
    pub functions: Vec<Function>,
    /// What it imports.
    pub imports: Vec<Import>,
}

/// A line `use PATH::{..};` or `ghost use PATH.{..};`.
#[derive(Debug)]
pub struct Import {
    /// Whether only contracts see it.
    pub ghost: bool,
    /// The path before the names.
    pub path: String,
    /// The names, as `name` or `name as other`.
    pub names: Vec<String>,
}

/// A struct that crosses the border.
#[derive(Debug)]
pub struct Struct {
    /// Its Rattle name.
    pub name: String,
    /// What its comment says.
    pub about: String,
    /// Names and types.
    pub fields: Vec<(String, Type)>,
}

/// All that the outputs are made from, but for the tables.
#[derive(Debug)]
pub struct Source {
    /// The files that have functions of the C interface.
    pub modules: Vec<Module>,
    /// The structs that they take, each behind those inside it.
    pub structs: Vec<Struct>,
    /// Major, minor, patch.
    pub version: [u64; 3],
}

/// The numbers that may cross the border.
pub const NUMBERS: [&str; 9] = [
    "u8", "u16", "u32", "u64", "i32", "i64", "usize", "f32", "f64",
];

impl Source {
    /// Reads the crate in the repository at `root`.
    pub fn read(root: &Path, crate_name: &str) -> Result<Source, String> {
        let folder = root.join("crates").join(crate_name);
        let mut modules = Vec::new();
        for path in rattle_files(&folder.join("src"))? {
            let module = module(&path)?;
            if !module.functions.is_empty() {
                modules.push(module);
            }
        }
        let declared = structs(root)?;
        let structs = taken(&modules, declared)?;
        let version = version(&folder.join("specs/Version.antt"))?;
        Ok(Source {
            modules,
            structs,
            version,
        })
    }

    /// All functions, file by file.
    pub fn functions(&self) -> impl Iterator<Item = &Function> {
        self.modules.iter().flat_map(|module| &module.functions)
    }
}

impl Struct {
    /// A struct's name in C, by its Rattle name. The interface's own structs, for
    /// which the crates below have others, have a C in front: `CSharding` is
    /// `coronagamba_sharding`.
    pub fn name_in_c(name: &str) -> String {
        let own = name
            .strip_prefix('C')
            .filter(|rest| rest.starts_with(|c: char| c.is_ascii_uppercase()));
        format!("coronagamba_{}", own.unwrap_or(name).to_lowercase())
    }
}

/// A struct's layout in C: where each field begins, then size and alignment.
pub struct Layout {
    /// Where each field begins.
    pub offsets: Vec<usize>,
    /// The size.
    pub size: usize,
    /// The alignment.
    pub align: usize,
}

impl Source {
    /// The layout of a struct.
    pub fn layout(&self, structure: &Struct) -> Layout {
        let mut layout = Layout {
            offsets: Vec::new(),
            size: 0,
            align: 1,
        };
        for (_, kind) in &structure.fields {
            let (Type::Plain(name) | Type::Lent(_, _, name)) = kind;
            let (size, align) = match self.structs.iter().find(|other| other.name == *name) {
                Some(inside) => {
                    let Layout { size, align, .. } = self.layout(inside);
                    (size, align)
                }
                None => {
                    let bits: usize = name[1..].parse().unwrap_or(64);
                    (bits / 8, bits / 8)
                }
            };
            let offset = layout.size.next_multiple_of(align);
            layout.offsets.push(offset);
            layout.size = offset + size;
            layout.align = layout.align.max(align);
        }
        layout.size = layout.size.next_multiple_of(layout.align);
        layout
    }
}

/// The text of a file.
pub fn text(path: &Path) -> Result<String, String> {
    fs::read_to_string(path).map_err(|error| format!("{}: {error}", path.display()))
}

/// The Rattle files of a folder, by name.
fn rattle_files(folder: &Path) -> Result<Vec<PathBuf>, String> {
    let entries = fs::read_dir(folder).map_err(|error| format!("{}: {error}", folder.display()))?;
    let mut files: Vec<PathBuf> = entries
        .filter_map(|entry| Some(entry.ok()?.path()))
        .filter(|path| path.extension().is_some_and(|extension| extension == "rt"))
        .collect();
    files.sort();
    Ok(files)
}

fn module(path: &Path) -> Result<Module, String> {
    let text = text(path)?;
    let title = text
        .lines()
        .next()
        .and_then(|line| line.strip_prefix("// "));
    let wrong = |what: &str| format!("{}: {what}", path.display());
    let mut functions = Vec::new();
    let definitions = definitions(&text);
    for (comment, item) in items(&text) {
        if item.starts_with(START) {
            functions.push(function(&comment, &item, &definitions).map_err(|what| wrong(&what))?);
        }
    }
    Ok(Module {
        name: path
            .file_stem()
            .unwrap_or_default()
            .to_string_lossy()
            .into(),
        title: title
            .ok_or_else(|| wrong("no comment on the first line"))?
            .into(),
        functions,
        imports: text.lines().filter_map(import).collect(),
    })
}

/// What a line imports, where it does.
fn import(line: &str) -> Option<Import> {
    let (ghost, rest) = match line.strip_prefix("ghost use ") {
        Some(rest) => (true, rest),
        None => (false, line.strip_prefix("use ")?),
    };
    let rest = rest.strip_suffix(';')?;
    let (path, names) = match rest.split_once(if ghost { ".{" } else { "::{" }) {
        Some((path, names)) => (path, names.strip_suffix('}')?.split(", ").collect()),
        None => {
            let (path, name) = rest.rsplit_once(if ghost { "." } else { "::" })?;
            (path, vec![name])
        }
    };
    Some(Import {
        ghost,
        path: path.into(),
        names: names.into_iter().map(String::from).collect(),
    })
}

/// How a function of the C interface begins: the name says that it is one.
const START: &str = "pub fn coronagamba_";

/// Each public function and each item that begins with an attribute, up to the
/// line that ends it, with the comment above it.
fn items(text: &str) -> Vec<(Vec<&str>, String)> {
    let mut found = Vec::new();
    let (mut comment, mut item) = (Vec::new(), String::new());
    for line in text.lines() {
        if item.is_empty() && line.starts_with("// ") {
            comment.push(&line[3..]);
        } else if !item.is_empty() || line.starts_with("#[") || line.starts_with("pub fn ") {
            item.push_str(line);
            item.push('\n');
            if line == "{" || line == "}" {
                found.push((std::mem::take(&mut comment), std::mem::take(&mut item)));
            }
        } else {
            comment.clear();
        }
    }
    found
}

/// The project's own definitions that a file's contracts may cite.
fn definitions(text: &str) -> Vec<&str> {
    text.lines()
        .filter(|line| line.starts_with("ghost use Rattle.") && !line.contains(" Rattle.std."))
        .filter_map(|line| Some(line.split_once('{')?.1.split_once('}')?.0))
        .flat_map(|names| names.split(", "))
        .map(|name| name.rsplit(" as ").next().unwrap_or(name))
        .collect()
}

fn function(comment: &[&str], item: &str, definitions: &[&str]) -> Result<Function, String> {
    let rest = item
        .strip_prefix("pub fn ")
        .ok_or_else(|| format!("not a public function: {item}"))?;
    let (name, rest) = rest.split_once('(').ok_or("no parameters")?;
    let wrong = |what: &str| format!("{name}: {what}");
    let (list, rest) = rest
        .split_once(')')
        .ok_or_else(|| wrong("no end of the parameters"))?;
    let (head, contract) = rest.split_once('\n').ok_or_else(|| wrong("no contract"))?;
    let contract = contract.strip_suffix("{\n").unwrap_or(contract);
    let clauses = contract
        .strip_prefix("    ensures ")
        .ok_or_else(|| wrong("a contract that does not begin with ensures"))?;
    let result = head
        .trim()
        .strip_prefix("-> ")
        .ok_or_else(|| wrong("it gives nothing"))?;
    let parameters = list
        .split(',')
        .map(str::trim)
        .filter(|parameter| !parameter.is_empty())
        .map(field)
        .collect::<Result<_, _>>()
        .map_err(|what| wrong(&what))?;
    let text = comment.join(" ");
    let (about, refusals) = text
        .split_once(" Refusals: ")
        .ok_or_else(|| wrong("its comment must say what it gives, and end with 'Refusals: ..'"))?;
    Ok(Function {
        name: name.into(),
        about: about.into(),
        refusals: refusals.into(),
        parameters,
        result: kind(result).map_err(|what| wrong(&what))?,
        contract: clauses
            .split("ensures ")
            .map(|clause| cited(clause, definitions))
            .collect(),
        clauses: contract.into(),
    })
}

/// A clause's name, and the definitions in it in their order.
fn cited(clause: &str, definitions: &[&str]) -> (String, Vec<String>) {
    let (name, text) = clause.split_once('{').unwrap_or((clause, ""));
    let mut found: Vec<String> = Vec::new();
    for word in text.split(|c: char| c.is_whitespace() || "()".contains(c)) {
        if definitions.contains(&word) && !found.iter().any(|other| other == word) {
            found.push(word.into());
        }
    }
    (name.trim().into(), found)
}

/// `name: type`.
fn field(text: &str) -> Result<(String, Type), String> {
    let (name, given) = text
        .split_once(": ")
        .ok_or_else(|| format!("no type: {text}"))?;
    Ok((name.into(), kind(given)?))
}

fn kind(text: &str) -> Result<Type, String> {
    let (writable, behind) = if let Some(behind) = text.strip_prefix("&mut ") {
        (true, behind)
    } else if let Some(behind) = text.strip_prefix('&') {
        (false, behind)
    } else {
        return Ok(Type::Plain(item(text)?));
    };
    let Some(inside) = behind.strip_prefix('[').and_then(|b| b.strip_suffix(']')) else {
        return Ok(Type::Lent(Shape::One, writable, item(behind)?));
    };
    match inside.split_once("; ") {
        None => Ok(Type::Lent(Shape::Many, writable, item(inside)?)),
        Some((of, count)) => {
            let count = count.parse().map_err(|_| format!("no count: {text}"))?;
            Ok(Type::Lent(Shape::Array(count), writable, item(of)?))
        }
    }
}

/// A number's name, or a struct's.
fn item(text: &str) -> Result<String, String> {
    let is_struct = text.starts_with(|c: char| c.is_ascii_uppercase())
        && text.chars().all(|c| c.is_ascii_alphanumeric());
    if is_struct || NUMBERS.contains(&text) {
        Ok(text.into())
    } else {
        Err(format!("the type {text} does not cross the border"))
    }
}

/// Every `#[repr(C)]` struct of the repository.
fn structs(root: &Path) -> Result<Vec<Struct>, String> {
    let crates = root.join("crates");
    let entries =
        fs::read_dir(&crates).map_err(|error| format!("{}: {error}", crates.display()))?;
    let mut folders: Vec<PathBuf> = entries
        .filter_map(|entry| Some(entry.ok()?.path()))
        .collect();
    folders.sort();
    let mut found = Vec::new();
    for folder in folders {
        for path in rattle_files(&folder.join("src"))? {
            for (comment, item) in items(&text(&path)?) {
                let Some((attributes, rest)) = item.split_once("pub struct ") else {
                    continue;
                };
                if !attributes.lines().any(|line| line == "#[repr(C)]") {
                    continue;
                }
                let (name, body) = rest.split_once(" {").ok_or("a struct without a body")?;
                let fields = body
                    .lines()
                    .filter_map(|line| line.trim().strip_prefix("pub "))
                    .map(|line| field(line.trim_end_matches(',')))
                    .collect::<Result<_, _>>()
                    .map_err(|what| format!("{name}: {what}"))?;
                found.push(Struct {
                    name: name.into(),
                    about: comment.join(" "),
                    fields,
                });
            }
        }
    }
    Ok(found)
}

/// The structs that the functions take and those inside them, which come
/// first.
fn taken(modules: &[Module], mut declared: Vec<Struct>) -> Result<Vec<Struct>, String> {
    fn take(name: &str, declared: &mut Vec<Struct>, taken: &mut Vec<Struct>) -> Result<(), String> {
        if NUMBERS.contains(&name) || taken.iter().any(|other| other.name == name) {
            return Ok(());
        }
        let place = declared.iter().position(|other| other.name == name);
        let found = declared.remove(place.ok_or_else(|| format!("no #[repr(C)] struct {name}"))?);
        if found.about.is_empty() {
            return Err(format!("the struct {name} has no comment"));
        }
        for (_, kind) in &found.fields {
            if let Type::Plain(inside) = kind {
                take(inside, declared, taken)?;
            }
        }
        taken.push(found);
        Ok(())
    }
    let mut found = Vec::new();
    for function in modules.iter().flat_map(|module| &module.functions) {
        for (_, kind) in &function.parameters {
            let (Type::Plain(name) | Type::Lent(_, _, name)) = kind;
            take(name, &mut declared, &mut found)?;
        }
    }
    Ok(found)
}

/// Major, minor and patch of the library's version.
fn version(path: &Path) -> Result<[u64; 3], String> {
    let text = text(path)?;
    let mut version = [0; 3];
    for (place, name) in ["major", "minor", "patch"].into_iter().enumerate() {
        version[place] = text
            .lines()
            .find_map(|line| line.strip_prefix(&format!("{name} = "))?.parse().ok())
            .ok_or_else(|| format!("{}: no {name}", path.display()))?;
    }
    Ok(version)
}

#[cfg(test)]
mod tests {
    use super::*;

    const TEXT: &str = "\
// Things.
ghost use Rattle.std.specs.Prelude.{◌≡◌};
ghost use Rattle.a.specs.B.{shown, left as kept};

// Copies all.
// And more.
// Refusals: 13 where there is no room, 14
pub fn coronagamba_copy(
    from: &[u8],
    grid: &mut [u32; 3],
    out: &mut [u64],
    length: &mut u64,
) -> u64
    ensures answer { result ≡ shown from.now (shown 1) }
    ensures out { out.new ≡ kept out.old }
{
    0
}
";

    fn read(text: &str) -> Result<Function, String> {
        let found = items(text)
            .into_iter()
            .find(|(_, item)| item.starts_with(START));
        let (comment, item) = found.expect("a function of the C interface");
        function(&comment, &item, &definitions(text))
    }

    #[test]
    fn a_function() {
        let found = read(TEXT).expect("it is whole");
        assert_eq!(found.name, "coronagamba_copy");
        assert_eq!(found.about, "Copies all. And more.");
        assert_eq!(found.refusals, "13 where there is no room, 14");
        assert_eq!(found.result, Type::Plain("u64".into()));
        let lent = |shape, writable, of: &str| Type::Lent(shape, writable, of.into());
        let expected = [
            ("from", lent(Shape::Many, false, "u8")),
            ("grid", lent(Shape::Array(3), true, "u32")),
            ("out", lent(Shape::Many, true, "u64")),
            ("length", lent(Shape::One, true, "u64")),
        ];
        let expected = expected.map(|(name, kind)| (name.to_string(), kind));
        assert_eq!(found.parameters, expected);
        let clause = |name: &str, cited: &str| (name.to_string(), vec![cited.to_string()]);
        assert_eq!(
            found.contract,
            [clause("answer", "shown"), clause("out", "kept")]
        );
    }

    #[test]
    fn a_function_without_its_refusals_is_none() {
        let silent = TEXT.replace("// Refusals: 13 where there is no room, 14\n", "");
        assert!(read(&silent).unwrap_err().contains("Refusals"));
        let bare = silent.replace("// Copies all.\n// And more.\n", "");
        assert!(read(&bare).unwrap_err().contains("Refusals"));
    }

    #[test]
    fn a_struct_of_the_border_has_the_library_s_name_in_c() {
        assert_eq!(Struct::name_in_c("CSharding"), "coronagamba_sharding");
        assert_eq!(Struct::name_in_c("Cell"), "coronagamba_cell");
    }

    #[test]
    fn only_plain_data_crosses() {
        for other in ["bool", "&[bool]", "&mut [u8; n]", "Option<u8>", "u128"] {
            let text = TEXT.replace("&mut [u32; 3]", other);
            assert!(read(&text).is_err(), "{other}");
        }
    }
}
