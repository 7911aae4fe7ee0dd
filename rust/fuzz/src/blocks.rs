//! Counters in the library's own machine code.
//!
//! The proved library comes as an archive without coverage. Its code is small
//! and relocatable, so the listing of it can be assembled again with one
//! instruction more at the start of each basic block: a `movb` of 1 into the
//! block's own byte, which changes no register and no flag. libFuzzer takes the
//! bytes of the section `__libfuzzer_extra_counters` as coverage.

use crate::listing::{read, unknown, Instruction, Object, Reference, Section, Unknown};
use std::collections::BTreeSet;
use std::fmt::Write;

/// The name of the blocks' bytes in the object file.
const COUNTERS: &str = "coronagamba_blocks";

/// The library's code as assembly text, and its basic blocks.
#[derive(Debug, Default)]
pub struct Assembly {
    /// The text, for `as`.
    pub text: String,
    /// Function and offset of each block, in the order of their bytes.
    pub blocks: Vec<(String, u64)>,
    counted: bool,
}

/// Makes the assembly text of a listing; `counted` adds the blocks' bytes.
pub fn assembly(listing: &str, counted: bool) -> Result<Assembly, Unknown> {
    let object = read(listing)?;
    let mut out = Assembly {
        counted,
        ..Assembly::default()
    };
    for section in &object.sections {
        if section.name.starts_with(".text") && section.size > 0 {
            out.code(&object, section)?;
        } else if is_data(section) {
            out.data(&object, section)?;
        }
    }
    out.counters();
    Ok(out)
}

/// The places of a function that a table of jumps has: each entry is the place
/// less the table's own start, and the linker counts from the entry.
fn jumps(code: &Section, table: &Section) -> Result<Option<Vec<u64>>, Unknown> {
    if table
        .references
        .iter()
        .any(|entry| entry.symbol != code.name)
    {
        return Ok(None);
    }
    let places = table.references.iter().enumerate().map(|(number, entry)| {
        let at = 4 * number as u64;
        match u64::try_from(entry.addend - at as i64) {
            Ok(place) if entry.at == at => Ok(place),
            _ => unknown(&table.name),
        }
    });
    let places = places.collect::<Result<Vec<u64>, Unknown>>()?;
    match table.size == 4 * places.len() as u64 {
        true => Ok(Some(places)),
        false => unknown(&table.name),
    }
}

/// The places of a function that tables of jumps have.
fn by_table(object: &Object, code: &Section) -> Result<Vec<u64>, Unknown> {
    let mut all = Vec::new();
    for table in object.sections.iter().filter(|section| is_table(section)) {
        all.extend(jumps(code, table)?.unwrap_or_default());
    }
    Ok(all)
}

/// Where the blocks of a function begin: at its start, where something jumps
/// to, and behind a jump that may not be taken.
fn leaders(object: &Object, section: &Section) -> Result<BTreeSet<u64>, Unknown> {
    let mut leaders = BTreeSet::from([0]);
    let places = by_table(object, section)?;
    let tabled = section.instructions.iter().find(|i| i.is_by_table());
    match tabled {
        Some(jump) if places.is_empty() => return unknown(&jump.text),
        _ => leaders.extend(places),
    }
    let mut behind_jump = false;
    for instruction in &section.instructions {
        leaders.extend(instruction.target()?);
        if behind_jump && !instruction.is_padding() {
            leaders.insert(instruction.at);
        }
        behind_jump = instruction.is_conditional() || behind_jump && instruction.is_padding();
    }
    Ok(leaders)
}

/// Where an instruction of a section ends.
fn end(section: &Section, number: usize) -> u64 {
    section
        .instructions
        .get(number + 1)
        .map_or(section.size, |next| next.at)
}

/// The section and the offset in it that a symbol stands for, where this
/// object has it.
fn defined<'a>(object: &'a Object, symbol: &str) -> Option<(&'a Section, u64)> {
    object.sections.iter().find_map(|section| {
        let own = section.name == symbol;
        let label = section.labels.iter().find(|(name, _)| name == symbol);
        label
            .map(|(_, at)| *at)
            .or(own.then_some(0))
            .map(|at| (section, at))
    })
}

/// The place that a reference names, as the assembler writes it. `end` is the
/// end of its instruction, from which the processor counts.
fn place(object: &Object, reference: &Reference, end: u64) -> Result<String, Unknown> {
    let symbol = &reference.symbol;
    let more = reference.addend + (end - reference.at) as i64;
    match defined(object, symbol) {
        None if more == 0 => Ok(format!("\"{symbol}\"")),
        Some((section, at)) if is_data(section) => {
            Ok(format!("{}{:+}", start(section), at as i64 + more))
        }
        Some((section, 0)) if more == 0 && section.labels.len() == 1 => {
            Ok(format!("\"{}\"", section.labels[0].0))
        }
        _ => unknown(symbol),
    }
}

/// Whether a section has constants.
fn is_data(section: &Section) -> bool {
    section.name.starts_with(".rodata")
}

/// Whether its constants are a table of jumps.
fn is_table(section: &Section) -> bool {
    is_data(section) && section.relocated
}

/// The label at the start of constants.
fn start(section: &Section) -> String {
    format!("\".L{}\"", section.name)
}

/// The label of a block: a function's are numbered in their order.
fn label(leaders: &BTreeSet<u64>, section: &Section, at: u64) -> String {
    let name = section.name.trim_start_matches(".text.");
    format!("\".L{name}.{}\"", leaders.range(..at).count())
}

impl Assembly {
    fn line(&mut self, text: &str) {
        self.text.push_str(text);
        self.text.push('\n');
    }

    /// The start of a section.
    fn begin(&mut self, section: &Section, flags: &str) {
        let Section {
            name, alignment, ..
        } = section;
        self.line(&format!("\t.section \"{name}\",\"{flags}\",@progbits"));
        self.line(&format!("\t.p2align {alignment}"));
    }

    fn code(&mut self, object: &Object, section: &Section) -> Result<(), Unknown> {
        let [(name, 0)] = &section.labels[..] else {
            return unknown(&section.name);
        };
        let leaders = leaders(object, section)?;
        self.begin(section, "ax");
        if object.exported.contains(name) {
            self.line(&format!("\t.globl \"{name}\""));
        }
        self.line(&format!("\t.type \"{name}\",@function"));
        self.line(&format!("\"{name}\":"));
        for (number, instruction) in section.instructions.iter().enumerate() {
            if leaders.contains(&instruction.at) {
                self.line(&format!("{}:", label(&leaders, section, instruction.at)));
                self.count(name, instruction.at);
            }
            if !instruction.is_padding() {
                let text = again(object, section, &leaders, instruction, number)?;
                self.line(&format!("\t{text}"));
            }
        }
        Ok(())
    }

    /// Notes a block, and sets its byte where the code is counted.
    fn count(&mut self, name: &str, at: u64) {
        if self.counted {
            let number = self.blocks.len();
            self.line(&format!("\tmovb $1,{COUNTERS}+{number}(%rip)"));
        }
        self.blocks.push((name.to_string(), at));
    }

    /// Constants, or a table of the places in one function that it jumps to.
    fn data(&mut self, object: &Object, section: &Section) -> Result<(), Unknown> {
        self.begin(section, "a");
        self.line(&format!("{}:", start(section)));
        if is_table(section) {
            return self.table(object, section);
        }
        for byte in &section.bytes {
            self.line(&format!("\t.byte {byte}"));
        }
        Ok(())
    }

    fn table(&mut self, object: &Object, section: &Section) -> Result<(), Unknown> {
        let first = section.references.first();
        let code = first.and_then(|entry| object.sections.iter().find(|s| s.name == entry.symbol));
        let places = code.map(|code| jumps(code, section)).transpose()?.flatten();
        let (Some(code), Some(places)) = (code, places) else {
            return unknown(&section.name);
        };
        let leaders = leaders(object, code)?;
        for place in places {
            let to = label(&leaders, code, place);
            self.line(&format!("\t.long {to}-{}", start(section)));
        }
        Ok(())
    }

    fn counters(&mut self) {
        if self.counted {
            let count = self.blocks.len();
            let _ = write!(
                self.text,
                "\t.section __libfuzzer_extra_counters,\"aw\",@progbits\n\
                 \t.globl {COUNTERS}\n{COUNTERS}:\n\t.zero {count}\n\
                 \t.globl {COUNTERS}_end\n{COUNTERS}_end:\n"
            );
        }
        self.line("\t.section .note.GNU-stack,\"\",@progbits");
    }
}

/// An instruction's text, with labels and names in place of numbers.
fn again(
    object: &Object,
    section: &Section,
    leaders: &BTreeSet<u64>,
    instruction: &Instruction,
    number: usize,
) -> Result<String, Unknown> {
    let text = &instruction.text;
    if let Some(target) = instruction.target()? {
        let to = label(leaders, section, target);
        return Ok(format!("{} {to}", instruction.mnemonic()));
    }
    let Some(reference) = &instruction.reference else {
        return Ok(text.clone());
    };
    let to = place(object, reference, end(section, number))?;
    if instruction.is_jump() || instruction.mnemonic() == "call" {
        Ok(format!("{} {to}", instruction.mnemonic()))
    } else if text.contains("0x0(%rip)") {
        Ok(text.replace("0x0(%rip)", &format!("{to}(%rip)")))
    } else {
        unknown(text)
    }
}

#[cfg(test)]
mod tests {
    use super::*;

    /// As `objdump` lists a function that jumps over a call, a constant behind
    /// padding, and an exported function that ends in a jump to the first.
    const LISTING: &str = "
two.o:     file format elf64-x86-64

Sections:
Idx Name              Size      VMA               LMA               File off  Algn  Flags
  0 .text.a::b        00000018  0000000000000000  0000000000000000  00000040  2**4  CONTENTS, ALLOC, LOAD, RELOC, READONLY, CODE
  1 .text.exported    00000005  0000000000000000  0000000000000000  00000060  2**4  CONTENTS, ALLOC, LOAD, RELOC, READONLY, CODE
  2 .rodata.cst4      00000004  0000000000000000  0000000000000000  00000068  2**2  CONTENTS, ALLOC, LOAD, READONLY, DATA
SYMBOL TABLE:
0000000000000000 l    df *ABS*\t0000000000000000 two
0000000000000000 l     F .text.a::b\t0000000000000018 a::b
0000000000000000 l    d  .text.a::b\t0000000000000000 .text.a::b
0000000000000000 g     F .text.exported\t0000000000000005 exported
0000000000000000         *UND*\t0000000000000000 memset
0000000000000000 l       .rodata.cst4\t0000000000000000 .LCPI0_0
Contents of section .rodata.cst4:
 0000 0a0bff40                             ...@
Disassembly of section .text.a::b:

0000000000000000 <a::b>:
   0:\ttest   %edi,%edi
   2:\tje     10 <a::b+0x10>
   4:\tcall   9 <a::b+0x9>\t5: R_X86_64_PLT32\tmemset-0x4
   9:\tnopl   0x0(%rax)
  10:\tmovss  0x0(%rip),%xmm0        # 18 <a::b+0x18>\t14: R_X86_64_PC32\t.LCPI0_0-0x4

Disassembly of section .text.exported:

0000000000000000 <exported>:
   0:\tjmp    5 <exported+0x5>\t1: R_X86_64_PLT32\t.text.a::b-0x4
";

    /// Written by hand from the listing.
    const ASSEMBLY: &str = "\t.section \".text.a::b\",\"ax\",@progbits
\t.p2align 4
\t.type \"a::b\",@function
\"a::b\":
\".La::b.0\":
\tmovb $1,coronagamba_blocks+0(%rip)
\ttest   %edi,%edi
\tje \".La::b.2\"
\".La::b.1\":
\tmovb $1,coronagamba_blocks+1(%rip)
\tcall \"memset\"
\".La::b.2\":
\tmovb $1,coronagamba_blocks+2(%rip)
\tmovss  \".L.rodata.cst4\"+0(%rip),%xmm0
\t.section \".text.exported\",\"ax\",@progbits
\t.p2align 4
\t.globl \"exported\"
\t.type \"exported\",@function
\"exported\":
\".Lexported.0\":
\tmovb $1,coronagamba_blocks+3(%rip)
\tjmp \"a::b\"
\t.section \".rodata.cst4\",\"a\",@progbits
\t.p2align 2
\".L.rodata.cst4\":
\t.byte 10
\t.byte 11
\t.byte 255
\t.byte 64
\t.section __libfuzzer_extra_counters,\"aw\",@progbits
\t.globl coronagamba_blocks
coronagamba_blocks:
\t.zero 4
\t.globl coronagamba_blocks_end
coronagamba_blocks_end:
\t.section .note.GNU-stack,\"\",@progbits
";

    #[test]
    fn a_counter_in_front_of_each_block() {
        let made = assembly(LISTING, true).unwrap();
        assert_eq!(made.text, ASSEMBLY);
        let block = |name: &str, at| (name.to_string(), at);
        let expected = [("a::b", 0), ("a::b", 4), ("a::b", 16), ("exported", 0)];
        assert_eq!(made.blocks, expected.map(|(name, at)| block(name, at)));
    }

    #[test]
    fn without_counters_the_code_is_the_same() {
        let plain = assembly(LISTING, false).unwrap().text;
        let code = |line: &&str| !line.contains("coronagamba_blocks");
        let counted: Vec<&str> = ASSEMBLY.lines().filter(code).collect();
        let others = |line: &&str| !line.contains("extra_counters") && !line.contains(".zero");
        assert!(plain.lines().eq(counted.into_iter().filter(others)));
    }

    /// A function that jumps by a table of two places, one of them twice.
    const TABLED: &str = "
Sections:
Idx Name              Size      VMA               LMA               File off  Algn  Flags
  0 .text.t           00000010  0000000000000000  0000000000000000  00000040  2**4  CONTENTS, ALLOC, LOAD, RELOC, READONLY, CODE
  1 .rodata.t         0000000c  0000000000000000  0000000000000000  00000050  2**2  CONTENTS, ALLOC, LOAD, RELOC, READONLY, DATA
SYMBOL TABLE:
0000000000000000 l     F .text.t\t0000000000000010 t
Contents of section .rodata.t:
 0000 00000000 00000000 00000000           ............
Disassembly of section .text.t:

0000000000000000 <t>:
   0:\tlea    0x0(%rip),%rsi        # 7 <t+0x7>\t3: R_X86_64_PC32\t.rodata.t-0x4
   7:\tmovslq (%rsi,%rdx,4),%rdx
   b:\tjmp    *%rdx
   d:\tret
   e:\tnop
   f:\tret

RELOCATION RECORDS FOR [.text.t]:
OFFSET           TYPE              VALUE
0000000000000003 R_X86_64_PC32     .rodata.t-0x0000000000000004

RELOCATION RECORDS FOR [.rodata.t]:
OFFSET           TYPE              VALUE
0000000000000000 R_X86_64_PC32     .text.t+0x000000000000000f
0000000000000004 R_X86_64_PC32     .text.t+0x0000000000000011
0000000000000008 R_X86_64_PC32     .text.t+0x0000000000000017
";

    #[test]
    fn a_table_of_jumps_names_its_blocks() {
        let made = assembly(TABLED, false).unwrap();
        let block = |at| ("t".to_string(), at);
        assert_eq!(made.blocks, [0, 13, 15].map(block));
        let table: Vec<&str> = made.text.lines().filter(|l| l.contains(".long")).collect();
        let entry = |number| format!("\t.long \".Lt.{number}\"-\".L.rodata.t\"");
        assert_eq!(table, [2, 1, 2].map(entry));
        assert!(made
            .text
            .contains("\tlea    \".L.rodata.t\"+0(%rip),%rsi\n"));
    }

    /// What is not understood is refused, and no wrong code is made.
    #[test]
    fn unknown_listings_are_refused() {
        let changed = [
            ("je     10 <a::b+0x10>", "jmp    *%rax"),
            (
                "R_X86_64_PLT32\tmemset-0x4",
                "R_X86_64_GOTPCRELX\tmemset-0x4",
            ),
            (".text.a::b-0x4", ".text.a::b+0x4"),
            (
                "CONTENTS, ALLOC, LOAD, READONLY, DATA",
                "CONTENTS, ALLOC, LOAD, RELOC, READONLY, DATA",
            ),
            ("0x0(%rip),%xmm0", "0x8(%rip),%xmm0"),
        ];
        for (from, to) in changed {
            assert!(LISTING.contains(from), "{from}");
            assert!(assembly(&LISTING.replace(from, to), true).is_err(), "{to}");
        }
        let changed = [
            ("jmp    *%rdx", "call   *%rdx"),
            ("jmp    *%rdx", "jmp    *(%rdx)"),
            ("0000000000000004 R_X86", "0000000000000006 R_X86"),
            ("0000000c  ", "00000010  "),
            (".text.t+0x000000000000000f", ".text.u+0x000000000000000f"),
            (".text.t+0x0000000000000011", ".text.t+0x0000000000000001"),
        ];
        for (from, to) in changed {
            assert!(TABLED.contains(from), "{from}");
            assert!(assembly(&TABLED.replace(from, to), true).is_err(), "{to}");
        }
    }
}
