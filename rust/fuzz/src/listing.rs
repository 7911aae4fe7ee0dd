//! What `objdump -h --syms -s -dr -w --no-show-raw-insn` lists of an object
//! file, and `objdump -r -w` behind it.

use std::collections::BTreeSet;
use std::fmt;

/// A listing with something that is not read here.
#[derive(Debug, PartialEq, Eq)]
pub struct Unknown(String);

impl fmt::Display for Unknown {
    fn fmt(&self, f: &mut fmt::Formatter) -> fmt::Result {
        write!(f, "the listing has what is not read here: {}", self.0)
    }
}

impl std::error::Error for Unknown {}

/// Says what is not read.
pub(crate) fn unknown<T>(what: &str) -> Result<T, Unknown> {
    Err(Unknown(what.trim().to_string()))
}

/// A place that an instruction names and the linker fills in.
#[derive(Debug)]
pub(crate) struct Reference {
    /// Where the 4 bytes stand that are filled in.
    pub at: u64,
    pub symbol: String,
    pub addend: i64,
}

/// One line of a disassembly.
#[derive(Debug)]
pub(crate) struct Instruction {
    pub at: u64,
    pub text: String,
    pub reference: Option<Reference>,
}

impl Instruction {
    pub fn mnemonic(&self) -> &str {
        self.text.split_whitespace().next().unwrap_or("")
    }

    pub fn is_jump(&self) -> bool {
        self.mnemonic().starts_with('j')
    }

    /// A jump that also goes on to the next instruction.
    pub fn is_conditional(&self) -> bool {
        self.is_jump() && self.mnemonic() != "jmp"
    }

    /// Bytes that only align what follows.
    pub fn is_padding(&self) -> bool {
        let mut words = self.text.split_whitespace();
        let first = words.find(|word| !matches!(*word, "data16" | "cs"));
        first.is_some_and(|word| word.starts_with("nop")) || self.text == "xchg   %ax,%ax"
    }

    /// A jump to a place that a table of its function has.
    pub fn is_by_table(&self) -> bool {
        self.text.starts_with("jmp    *%")
    }

    /// The offset in its own section that a jump or call goes to.
    pub fn target(&self) -> Result<Option<u64>, Unknown> {
        let goes = self.is_jump() || self.mnemonic() == "call";
        if !goes || self.reference.is_some() || self.is_by_table() {
            return Ok(None);
        }
        let operand = self.text.split_whitespace().nth(1).unwrap_or("");
        match u64::from_str_radix(operand, 16) {
            Ok(offset) => Ok(Some(offset)),
            // Where a call through a register goes is not in the listing.
            Err(_) => unknown(&self.text),
        }
    }
}

/// A section of the object file.
#[derive(Debug, Default)]
pub(crate) struct Section {
    pub name: String,
    pub size: u64,
    /// The power of two that its place is a multiple of.
    pub alignment: u32,
    /// Whether the linker fills in places of it.
    pub relocated: bool,
    /// Its names, with their offsets.
    pub labels: Vec<(String, u64)>,
    pub bytes: Vec<u8>,
    pub instructions: Vec<Instruction>,
    /// The places of constants that the linker fills in.
    pub references: Vec<Reference>,
}

/// What the listing says of the object file.
#[derive(Debug, Default)]
pub(crate) struct Object {
    pub sections: Vec<Section>,
    pub exported: BTreeSet<String>,
}

impl Object {
    fn section(&mut self, name: &str) -> Option<&mut Section> {
        self.sections.iter_mut().find(|s| s.name == name)
    }
}

fn hexadecimal(text: &str) -> Result<u64, Unknown> {
    u64::from_str_radix(text, 16).or_else(|_| unknown(text))
}

/// A line of the table of sections: number, name, size, two addresses, the
/// place in the file, alignment, flags.
fn read_section(object: &mut Object, line: &str) -> Result<(), Unknown> {
    let words: Vec<&str> = line.split_whitespace().collect();
    let [number, name, size, _, _, _, alignment, flags @ ..] = &words[..] else {
        return Ok(());
    };
    if number.parse::<u32>().is_err() {
        return Ok(());
    }
    let alignment = alignment
        .strip_prefix("2**")
        .and_then(|power| power.parse().ok());
    object.sections.push(Section {
        name: name.to_string(),
        size: hexadecimal(size)?,
        alignment: alignment.map_or_else(|| unknown(line), Ok)?,
        relocated: flags.contains(&"RELOC,"),
        ..Section::default()
    });
    Ok(())
}

/// A line of the table of symbols: value, seven columns of flags, section,
/// size, name.
fn read_symbol(object: &mut Object, line: &str) -> Result<(), Unknown> {
    let Some((value, rest)) = line.split_at_checked(16) else {
        return Ok(());
    };
    let Some((flags, rest)) = rest.split_at_checked(9) else {
        return Ok(());
    };
    let words: Vec<&str> = rest.split_whitespace().collect();
    let [section, _, name] = words[..] else {
        return Ok(());
    };
    let Some(section) = object.section(section) else {
        return Ok(());
    };
    // The name of a section itself is given to it by the assembler.
    if flags.contains('d') {
        return Ok(());
    }
    section.labels.push((name.to_string(), hexadecimal(value)?));
    if flags.contains('g') {
        object.exported.insert(name.to_string());
    }
    Ok(())
}

/// A line of a section's contents: address, 16 bytes in four groups, the same
/// as text.
fn read_bytes(section: &mut Section, line: &str) -> Result<(), Unknown> {
    let Some((_, rest)) = line.trim_start().split_once(' ') else {
        return Ok(());
    };
    let digits: Vec<u8> = rest.bytes().take(35).filter(|b| *b != b' ').collect();
    for pair in digits.chunks(2) {
        let text = std::str::from_utf8(pair).or_else(|_| unknown(line))?;
        section.bytes.push(hexadecimal(text)? as u8);
    }
    Ok(())
}

/// A reference behind an instruction: place, kind, symbol with addend.
fn read_reference(line: &str) -> Result<Reference, Unknown> {
    let words: Vec<&str> = line.split_whitespace().collect();
    let [at, "R_X86_64_PLT32" | "R_X86_64_PC32", symbol] = words[..] else {
        return unknown(line);
    };
    let split = symbol.rfind(['+', '-']).map_or(symbol.len(), |at| at);
    let (name, addend) = symbol.split_at(split);
    let size = addend.get(3..).map_or(Ok(0), hexadecimal)? as i64;
    Ok(Reference {
        at: hexadecimal(at.trim_end_matches(':'))?,
        symbol: name.to_string(),
        addend: if addend.starts_with('-') { -size } else { size },
    })
}

/// A line of the references of a section. Those of code stand behind their
/// instructions too.
fn read_constant(section: &mut Section, line: &str) -> Result<(), Unknown> {
    if section.name.starts_with(".rodata") && line.starts_with(|c: char| c.is_ascii_hexdigit()) {
        section.references.push(read_reference(line)?);
    }
    Ok(())
}

/// A line of a section's disassembly.
fn read_instruction(section: &mut Section, line: &str) -> Result<(), Unknown> {
    let Some((at, text)) = line.split_once(":\t") else {
        return Ok(());
    };
    // With -w the references stand behind their instruction.
    let mut parts = text.split("\t");
    let text = parts.next().unwrap_or("");
    let text = text.split(" #").next().unwrap_or("").trim();
    let reference = match (parts.next(), parts.next()) {
        (Some(kind), Some(symbol)) => Some(read_reference(&format!("{kind} {symbol}"))?),
        _ => None,
    };
    section.instructions.push(Instruction {
        at: hexadecimal(at.trim())?,
        text: text.to_string(),
        reference,
    });
    Ok(())
}

/// Which table of the listing a line stands in.
enum Table {
    Sections,
    Symbols,
    Contents(String),
    Disassembly(String),
    References(String),
}

/// The name in a heading such as `Contents of section .text:`.
fn heading<'a>(line: &'a str, start: &str) -> Option<&'a str> {
    line.strip_prefix(start)?.strip_suffix(':')
}

/// Reads a whole listing.
pub(crate) fn read(listing: &str) -> Result<Object, Unknown> {
    let mut object = Object::default();
    let mut table = Table::Sections;
    for line in listing.lines() {
        if line.starts_with("SYMBOL TABLE") {
            table = Table::Symbols;
        } else if let Some(name) = heading(line, "Contents of section ") {
            table = Table::Contents(name.to_string());
        } else if let Some(name) = heading(line, "Disassembly of section ") {
            table = Table::Disassembly(name.to_string());
        } else if let Some(name) = heading(line, "RELOCATION RECORDS FOR [") {
            table = Table::References(name.trim_end_matches(']').to_string());
        } else {
            read_line(&mut object, &table, line)?;
        }
    }
    Ok(object)
}

fn read_line(object: &mut Object, table: &Table, line: &str) -> Result<(), Unknown> {
    let name = match table {
        Table::Sections => return read_section(object, line),
        Table::Symbols => return read_symbol(object, line),
        Table::Contents(name) | Table::Disassembly(name) | Table::References(name) => name,
    };
    match (object.section(name), table) {
        (None, _) => unknown(name),
        (Some(section), Table::Contents(_)) => read_bytes(section, line),
        (Some(section), Table::References(_)) => read_constant(section, line),
        (Some(section), _) => read_instruction(section, line),
    }
}
