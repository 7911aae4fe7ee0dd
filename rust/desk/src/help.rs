//! All help texts. Where a command takes options, `{options}` stands in their place. The
//! examples work on the sample deposit, which `coronagamba sample demo` makes in the
//! folder `demo`.

use crate::options::Opt;

/// The longest line, and the column that an option's text begins in.
const WIDTH: usize = 79;
const COLUMN: usize = 22;

/// A command's help text with the options that it takes: settings, then those that it has
/// no use for, then all others.
pub fn with_options(text: &str, options: &[&[Opt]]) -> String {
    let all = options.concat();
    let (idle, told): (Vec<Opt>, Vec<Opt>) = all.iter().partition(|option| option.is_idle());
    let (settings, others): (Vec<Opt>, Vec<Opt>) =
        told.iter().partition(|option| option.is_setting);
    let mut parts = vec![under("settings, which are never assumed:", &settings)];
    if !idle.is_empty() {
        let names: Vec<&str> = idle.iter().map(|option| option.name()).collect();
        let text = format!("Also taken, and of no use here: {}.", names.join(", "));
        parts.push(lines(&text, WIDTH).join("\n") + "\n");
    }
    parts.push(under("options:", &others));
    parts.retain(|part| !part.is_empty());
    text.replace("{options}\n", &parts.join("\n"))
}

/// A heading and options under it, each with its text beside it; nothing where there are
/// none.
fn under(heading: &str, options: &[Opt]) -> String {
    if options.is_empty() {
        return String::new();
    }
    format!(
        "{heading}\n{}",
        options.iter().map(entry).collect::<String>()
    )
}

/// The lines of one option.
fn entry(option: &Opt) -> String {
    let indent = format!("\n{:COLUMN$}", "");
    let text = lines(option.text, WIDTH - COLUMN).join(&indent);
    match format!("  {}  ", option.usage) {
        usage if usage.len() <= COLUMN => format!("{usage:COLUMN$}{text}\n"),
        usage => format!("{}{indent}{text}\n", usage.trim_end()),
    }
}

/// The words of a text in lines of at most this width.
fn lines(text: &str, width: usize) -> Vec<String> {
    let mut lines: Vec<String> = Vec::new();
    for word in text.split(' ') {
        match lines.last_mut() {
            Some(line) if line.len() + 1 + word.len() <= width => *line += &format!(" {word}"),
            _ => lines.push(word.to_string()),
        }
    }
    lines
}

/// The program's name and version.
pub const VERSION: &str = concat!("coronagamba ", env!("CARGO_PKG_VERSION"), "\n");

/// The program as a whole.
pub const PROGRAM: &str = "\
Checks, settles, packs, compares and reads the shards of a deposit.

usage: coronagamba COMMAND [OPTIONS] [ARGUMENTS]
       coronagamba help [COMMAND]
       coronagamba --version

shards
  check      is each shard sound?
  settle     write the settled form of each shard
  pack       write shards from loose chunk files
  same       do two shards or two deposits hold the same chunks?
  holdings   the yearly sheet: shards sound and refused, chunks and bytes
  join       the answers of one run from the reports of its parts
  fingerprint the SHA-256 of each settled form, to compare deposits from afar
  get        the bytes of one chunk, or of one fragment of a mesh; or the label
             of a voxel
  list       all chunks of a shard with their places
  range      bytes of a shard's two files of the earlier edition, as one file
cells
  locate     the key, shard file and minishard of a cell
  cell       the cell of a key and its voxels
  cover      the chunks that share a voxel with a box
  name       the name of an unsharded chunk, or of a shard file
cards and manifests
  card       make, show and check deposit cards
  manifest   show and check mesh manifests, look at one node
labels inside a chunk
  label      the labels of single voxels
  labels     all labels, in the raw form
help
  explain    what a refusal number means and what to do
  sample     make a small deposit to try all this on

Options may stand anywhere behind the command, '--opt value' or '--opt=value';
'--' ends them. Numbers are decimal; ids, keys and shard numbers may also be
hexadecimal with 0x.

exit status: 0 yes; 1 a refusal, or the answer 'different', 'absent' or
'missing'; 2 wrong use, or an output exists and there is no --force; 3 the
operating system's error. Over many files the greatest of them counts.

example:
  coronagamba sample demo
  coronagamba check demo/copy-a --card demo/deposit.card
";

/// `check`.
pub const CHECK: &str = "\
Tells for each shard whether it is sound: every index entry, id and chunk is
as the rules ask, so that every listed chunk can be handed out. Ids may stand
in any order, and chunks may overlap. In a mesh each chunk must also be a sound
manifest, with room for its fragments right before it.

usage: coronagamba check PATH... [OPTIONS]

PATH is a shard file, or a folder: then all of its files that end in .shard
are checked, in name order, and the run goes on after a refused one. Other
files are passed over and counted. Symbolic links to shard files are followed;
subfolders are not gone through. A shard of the earlier edition is a pair, an
index file N.index and a data file N.data: it is checked as the one file that
the two make, told by the name of its index file, and either of the two may be
given as PATH. Half a pair is told as such, and where a folder has a shard in
both editions, neither is read. Of a folder with at most 65536 possible
shards a line names those that are not there; that is no fault, since no chunk
may belong to them. Who closes the output, as 'head' does, ends the run.

{options}

exit status: 0 all are sound; 1 one is refused or has no shard's name, half a
pair or both editions of one are there, or a folder has no shards; 2 wrong use;
3 one cannot be read.

example:
  coronagamba check demo/copy-a --card demo/deposit.card
  coronagamba check demo/damaged --card demo/deposit.card
  coronagamba check demo/pairs demo/pairs/5.index --card demo/deposit.card
  coronagamba check demo/mesh-b --card demo/mesh.card
  coronagamba check demo/copy-b --unlisted --card demo/deposit.card
";

/// `settle`.
pub const SETTLE: &str = "\
Writes settled forms: the one layout that what a shard lists has, in rising id
order within each minishard. Two sound shards hold the same chunks exactly when
their settled forms are the same bytes. In a mesh the fragments of a manifest
stay right before it.

A settled form has no unlisted bytes: those past the shard index in no listed
chunk, no fragment and no nonempty minishard index. A shard that has some is
refused, with their number and the places of the first gaps; --drop-unlisted
settles it without them. A mesh that is read as a volume is refused likewise:
nothing lists its fragments then.

usage: coronagamba settle FILE --out FILE2 [OPTIONS]
       coronagamba settle DIR --out DIR2 [OPTIONS]

A folder's shards are settled into files of the same names; a missing DIR2 is
made, and the run goes on after a refused shard. A pair of the earlier edition,
N.index and N.data, is settled into one file, N.shard; either of the two may be
given as FILE. Half a pair, and a shard that a folder has in both editions, is
told and not settled. An output is written beside its place and gets its name
only when it is whole. Inputs are never changed. A run that was stopped can
be started again: what is already there with the same bytes is left. None of
the inputs, the card or info file among them, is ever an output too, by
whatever path, also with --force. Who closes the output, as 'head' does, ends
the run: shards that were not begun are not settled then.

{options}

exit status: 0 all are settled or already there; 1 one is refused or has no
shard's name, half a pair or both editions of one are there, or a folder has no
shards; 2 wrong use, or an output exists with other bytes; 3 one cannot be read
or written.

example:
  coronagamba settle demo/copy-a --out settled --card demo/deposit.card
  coronagamba settle demo/copy-b --out settled --drop-unlisted --card demo/deposit.card
";

/// `pack`.
pub const PACK: &str = "\
Writes shards of the settled form from loose chunk files: one shard from a
list, or all shards of a volume from a folder of chunks that are stored without
shards. It is the layout that 'settle' gives a shard of the same chunks.

usage: coronagamba pack DIR --out DIR2 [OPTIONS]
       coronagamba pack [LIST] --out FILE [--shard N] [OPTIONS]

DIR has a file for each chunk, under the name that 'name' tells, such as
0-64_64-128_0-64; DIR2, which is made where it is missing, gets a file for each
shard that has a chunk. A cell without a file has no chunk; the last line tells
how many these are. Where a name is like a chunk's and no cell has it, as in
another volume or with .gz behind it, nothing is packed. Other files are passed
over and counted, subfolders are not gone through.

LIST has a line for each chunk of one shard, in any order: its name or its id,
blanks, and the path of its file, which may have blanks in it. Without LIST, or
where it is '-', these lines come on standard input. The shard's number is that
of --shard, else what FILE's name says. A chunk of another shard is refused
with 10. Where a line is wrong, or a chunk is given twice, nothing is packed.
The volume is needed for names. Where it is given, an id must be the key of one
of its cells.

Chunk files are read in pieces, and never together: beside the list there is
memory for the shards under way, each at most 1 GiB. A file that cannot be read,
or that changes meanwhile, keeps its shard from being written, and no other. An
output is written beside its place and gets its name only when it is whole. A
run that was stopped can be started again: what is already there with the same
bytes is left. Inputs are never changed, and none is ever an output too, also
with --force. Chunks that would make a shard longer than 1 GiB are refused with
13. A mesh is not packed.

{options}

exit status: 0 all are packed or already there; 1 one is refused, or a folder
has no chunks or names of other volumes; 2 wrong use, a wrong line, or an output
exists with other bytes; 3 a file cannot be read or written.

example:
  coronagamba cover 0,128,64 65,192,128 --deposit demo/copy-a --out chunks \\
    --card demo/deposit.card
  coronagamba pack chunks --out packed --card demo/deposit.card
  echo 21 chunks/0-64_128-192_64-128 | coronagamba pack --out 5.shard \\
    --card demo/deposit.card
";

/// `same`.
pub const SAME: &str = "\
Tells whether two shards or two folders of shards hold the same chunks, in
whatever layout and order.

usage: coronagamba same PATH1 PATH2 [OPTIONS]

Both are files or both are folders, of one sharding. A pair of the earlier
edition, N.index and N.data, is a shard like any other, whatever edition the
other side has; either of its files may be given as PATH. Settled forms are
compared byte for byte: for sound shards of one sharding and number these are
equal exactly when the same ids list the same bytes, which is proved for this
library. In a mesh the fragments count too. For each shard of either side a
line says same, different (with the first id that differs, in rising order,
and how), refused, or on one side only; then one sentence answers for the
whole. Bytes of a chunk or fragment are counted from 0. A sound shard that
only one side has is a difference where it lists chunks, and none where it
lists no chunk. Something that is refused, cannot be read, has no shard's
name, is half a pair or is there in both editions leaves the answer open,
unless another shard differs: a misnamed file may be the shard that its side
lacks. Bytes that nothing lists do not count.
Who closes the output, as 'head' does, ends the run.

{options}

exit status: 0 the same; 1 different or not known; 2 wrong use; 3 a file
cannot be read.

example:
  coronagamba same demo/copy-a demo/copy-b --card demo/deposit.card
  coronagamba same demo/copy-b demo/pairs --card demo/deposit.card
  coronagamba same demo/mesh-a demo/mesh-b --card demo/mesh.card
";

/// `holdings`.
pub const HOLDINGS: &str = "\
Counts all shards for the yearly holdings sheet: those that are sound, those
that the check refuses, for each number by itself, and over the sound ones the
chunks listed, the sum of their sizes, and the unlisted bytes: those past the
shard index in no listed chunk, no fragment and no nonempty minishard index.

usage: coronagamba holdings PATH... [OPTIONS]
       coronagamba holdings --add SHEET... [--json]

PATH is a shard file, or a folder: then all of its shards are counted, as
'check' finds them, pairs of the earlier edition too. A shard that two PATHs
lead to is counted once. The sheet is a line for each row, always the same 17,
and with --json one object:

  shards sound N
  shards refused K N        a line each: 1, 5 to 11, 15, 16, 17, 21, 23
  chunks N
  chunk bytes N             as stored: in a mesh, of manifests
  unlisted bytes N

They are the same bytes in whatever order shards and folders come. What cannot
be counted is named on standard error, and a last line, 'left out N', tells how
many files these are: they cannot be read, have no shard's name, are half a pair
or are there in both editions. A refused shard is in its row, and not left out.

With --add the sheets in these files are added up to one, row by row, each in
lines or in JSON as it was printed: so many machines can share a year's work,
each with its own deposits and settings. One that is no sheet or cannot be read
is told, and nothing is printed then. A total past 2^64 - 1 is refused with 27.

{options}

exit status: 0 all that was found is in the sheet, refused shards too; 1
something is left out, a folder has no shards, or a total is refused; 2 wrong
use, or a file is no sheet; 3 something cannot be read.

example:
  coronagamba holdings demo/copy-a demo/pairs --card demo/deposit.card
  coronagamba holdings demo/mesh-a --card demo/mesh.card > meshes.sheet
  coronagamba holdings demo/copy-b --card demo/deposit.card --json > volumes.sheet
  coronagamba holdings --add meshes.sheet volumes.sheet
";

/// `join`.
pub const JOIN: &str = "\
Makes of the reports of all parts what one run would have printed, and ends with
the status of the whole.

usage: coronagamba join REPORT... [--json]

Each REPORT is a file that 'check', 'settle', 'pack', 'same', 'holdings' or
'fingerprint' has written with --part K/N and --report; there must be one for
each of the N parts, in any order. Parts that are missing are named, and so are
two reports of one part, reports that disagree on the command, the settings, the
paths or the shards that were there, and a file that is no whole report: nothing
is joined then. No shard is read. With --json it is what the run would have
printed with --json.

{options}

exit status: that of the whole run; 2 also where the reports do not make one; 3
also where one cannot be read.

example:
  coronagamba check demo/copy-a --part 1/2 --report 1.report --card demo/deposit.card
  coronagamba check demo/copy-a --part 2/2 --report 2.report --card demo/deposit.card
  coronagamba join 1.report 2.report
";

/// `fingerprint`.
pub const FINGERPRINT: &str = "\
Prints the SHA-256 of each shard's settled form, so that two sites can compare
deposits without sending them: shards hold the same chunks exactly when their
settled forms are the same bytes, and other bytes with the same SHA-256 are not
known of any.

usage: coronagamba fingerprint DIR [OPTIONS]
       coronagamba fingerprint FILE [OPTIONS]

The lines are those that 'sha256sum' prints for the settled forms, in name
order: the SHA-256, two blanks and the shard's name, which ends in .shard also
for a pair of the earlier edition. Nothing else goes to standard output: what is
refused, cannot be read, has no shard's name, is half a pair or is there in both
editions is told on standard error and has no line. In a folder of settled forms
'sha256sum -c LIST' gives the same answer without this program. No file is
written. The SHA-256 is made by the system's sha256sum.

With --against a line tells for each shard whether it is the same as in a list,
different, or more than the list has; then which ones of the list are missing.
A missing shard is told also where it would list no chunk. The list may be of
either program. Lines of other files, whose names do not end in .shard, are
passed over. Where a line is wrong, or a name is that of no shard or is there
twice, nothing is compared. A single FILE is compared with its own line alone.

A settled form has no unlisted bytes. A shard that has some is refused, as
'settle' does it; --drop-unlisted gives the fingerprint without them.

{options}

exit status: 0 all have a fingerprint, with --against the very one of the list;
1 one is refused, different, missing or more, or has no shard's name, half a
pair or both editions of one are there, or a folder has no shards; 2 wrong use,
or a wrong line in the list; 3 one cannot be read, or sha256sum cannot be used.

example:
  coronagamba fingerprint demo/copy-a --card demo/deposit.card
  coronagamba fingerprint demo/copy-a --card demo/deposit.card > copy-a.sums
  coronagamba fingerprint demo/copy-b --against copy-a.sums --drop-unlisted \\
    --card demo/deposit.card
";

/// `get`.
pub const GET: &str = "\
Writes the bytes of one chunk, or of one fragment of a mesh. Or tells the label
of one voxel.

usage: coronagamba get PATH ID [OPTIONS]
       coronagamba get PATH --cell X,Y,Z [OPTIONS]
       coronagamba get PATH --voxel X,Y,Z [--label] [OPTIONS]
       coronagamba get PATH ID --fragment LEVEL,NODE [OPTIONS]

PATH is a shard file, or the folder of a deposit: then the id's shard file is
found by its name, and a deposit that has no such file has no such chunk,
which is said. A pair of the earlier edition is found likewise, and either of
its files may be given as PATH. The id of a cell's chunk is the cell's key;
--cell needs the volume beside the sharding. Only the id's own minishard is
judged. An id that is not listed is refused with 12: the chunk is absent. The
id of a mesh's chunk is the number of a net, and the chunk is its manifest; a
level or node that the manifest does not have is refused with 18. Without --out
the bytes go to standard output.

--voxel asks for the chunk that has this voxel, the volume's offset included;
a voxel outside the volume has none, which is said. With --label the chunk is
read in the compressed segmentation encoding, and the voxel's label is printed:
the number of its net. An info file says how labels are laid out; beside a card
and beside an info file that does not say it, --block, --channels and --bits do.
A chunk of which something that is to be read is missing is refused with 28, one
with another width in the block's header with 29.

{options}

exit status: 0 the bytes are written or the label is printed; 1 refused or
absent, the voxel is outside, or the deposit lacks the id's shard file, half its
pair, or has both editions; 2 wrong use, or the output exists; 3 a file cannot
be read or written.

example:
  coronagamba get demo/copy-a --cell 1,2,1 --card demo/deposit.card
  coronagamba get demo/copy-a/5.shard 21 --out chunk --card demo/deposit.card
  coronagamba get demo/mesh-a 17 --fragment 0,1 --card demo/mesh.card
  coronagamba get demo/labels --voxel 7,12,3 --label --info demo/labels.info --scale 0
";

/// `list`.
pub const LIST: &str = "\
Lists all chunks of a shard with their places in the file.

usage: coronagamba list FILE... [OPTIONS]

A header line, then a line for each chunk: id, minishard, start and length in
bytes, counted from the file's first byte. With several files, a line with the
file's path stands before each header line. Minishards stand in number order,
chunks as they are stored. A minishard with a fault ends the list of that file
with a refusal. For a whole folder, give its files: DIR/*.shard

A pair of the earlier edition is given by either of its files, N.index or
N.data, and listed once. Places are counted from the first byte of the index
file, as if the data file stood right behind it.

In a mesh the chunks are manifests, and two more numbers tell where all their
fragments start and how many bytes they have. With --fragments there is a line
for each fragment instead: id, minishard, level, node, start and length.

{options}

exit status: 0 listed; 1 refused, or half a pair; 2 wrong use; 3 a file cannot
be read.

example:
  coronagamba list demo/copy-a/5.shard --card demo/deposit.card
  coronagamba list demo/mesh-a/0.shard --fragments --card demo/mesh.card
";

/// `range`.
pub const RANGE: &str = "\
Writes bytes of a shard of the earlier edition, as if its index file and its
data file were one.

usage: coronagamba range PATH START END [OPTIONS]

PATH is either file of the pair, N.index or N.data; the other stands beside it.
The bytes from START up to END, END excluded, are counted from the first byte
of the index file on, with the data file right behind it. They must lie in one
of the two files: a range that crosses the seam, is reversed or passes the end
is refused with 24. No minishard is judged, and no shard number is asked for;
the index file must be exactly as long as the shard index, else it is 23.
Without --out the bytes go to standard output.

{options}

exit status: 0 the bytes are written, or their place is told; 1 refused, or half
a pair; 2 wrong use, or the output exists; 3 a file cannot be read or written.

example:
  coronagamba range demo/pairs/5.index 32 64 --out bytes --card demo/deposit.card
  coronagamba range demo/pairs/5.data 0 16 --place --card demo/deposit.card
";

/// `locate`.
pub const LOCATE: &str = "\
Tells where a cell's chunk is: key, shard file and minishard.

usage: coronagamba locate X,Y,Z... [OPTIONS]
       coronagamba locate - [OPTIONS]

Cells count chunks from 0 on each axis. '-' reads cells from standard input,
one a line; an empty last line does not count. Each cell has a line of its
own: that of a refused one is 'refused N', that of a word or line that is no
cell is 'wrong', and standard error says why. Whether the chunk is there,
'get' tells. A mesh has no chunks of cells, and its settings are not taken here.

{options}

exit status: 0 all located; 1 one is refused; 2 wrong use, or one is no cell;
3 the settings or standard input cannot be read.

example:
  coronagamba locate 1,2,1 0,0,0 --card demo/deposit.card
";

/// `cell`.
pub const CELL: &str = "\
Tells which cell a key belongs to, and which voxels that cell has.

usage: coronagamba cell KEY... [OPTIONS]

A line for each key: the cell, then its voxels along x, y and z from begin to
end, end excluded. That of a refused key is 'refused N', that of a word that
is no number is 'wrong', and standard error says why.

{options}

exit status: 0 all are cells; 1 one is refused; 2 wrong use, or one is no
number; 3 the settings cannot be read.

example:
  coronagamba cell 21 0x15 --card demo/deposit.card
";

/// `cover`.
pub const COVER: &str = "\
Lists the chunks that share a voxel with a box: key, cell, shard file and
minishard of each, by rising key. From a deposit, copies each of them to a
file of its own.

usage: coronagamba cover FROM TO [OPTIONS]
       coronagamba cover FROM TO --deposit DIR --out DIR2 [OPTIONS]

FROM and TO are X,Y,Z in voxels, the volume's offset included; TO is excluded
on each axis. A box that is empty, reversed or outside the volume has no
chunk, which standard error says. The time taken goes by the chunks listed,
not by the size of the box or of the volume. Whether a chunk is there, 'get'
tells. A mesh has no chunks of cells, and its settings are not taken here.

With --deposit, DIR2 gets a file for each chunk that DIR has, under the name
of an unsharded chunk; a missing DIR2 is made. A line for each chunk of the box,
by shard and rising key: key, cell, name, and what became of it; a last line
counts them. A file is written beside its place and gets its name only when it
is whole; one that is there with the same bytes is left. A chunk that its shard
does not list is 'absent', one whose shard file DIR lacks has 'no shard';
neither is a fault. Only the minishards asked for are judged. A refused or
unreadable one is told, half a pair and both editions of one shard too, and the
run goes on. None of the inputs is ever an output.

{options}

exit status: 0 listed, or all that is there is copied; 1 refused: more chunks
than --most, settings that are not allowed, or a chunk's minishard; 2 wrong
use, or an output exists with other bytes; 3 a file cannot be read or written.

example:
  coronagamba cover 0,128,64 65,192,128 --card demo/deposit.card
  coronagamba cover -64,0,0 64,260,1 --shards --card demo/deposit.card
  coronagamba cover 0,0,0 65,99,99 --deposit demo/copy-a --out chunks \\
    --card demo/deposit.card
";

/// `name`.
pub const NAME: &str = "\
Tells the name of a chunk that is stored without shards, or the file name of
a shard, or the names of its two files in the earlier edition.

usage: coronagamba name X,Y,Z... [OPTIONS]
       coronagamba name --shard N [--pair] [OPTIONS]

A line for each cell; that of a refused one is 'refused N', that of a word
that is no cell is 'wrong', and standard error says why. Cells need the
volume, --shard needs the sharding.

{options}

exit status: 0 all are named; 1 one is refused; 2 wrong use, or one is no
cell; 3 the settings cannot be read.

example:
  coronagamba name 1,2,1 --card demo/deposit.card
  coronagamba name --shard 5 --card demo/deposit.card
  coronagamba name --shard 5 --pair --card demo/deposit.card
";

/// `card` and its members.
pub const CARD: &str = "\
Makes, shows and checks deposit cards. A card keeps the sharding and the
volume of a deposit in 46 or 61 bytes, of a mesh in 50 or 65, so that nobody
has to assume them.

usage: coronagamba card make --out FILE [OPTIONS]
       coronagamba card show FILE [--json]
       coronagamba card show --info FILE --scale K [--json]
       coronagamba card check FILE... [--json]

'coronagamba card make --help' and so on tell more.

example:
  coronagamba card show demo/deposit.card
";

/// `card make`.
pub const CARD_MAKE: &str = "\
Writes a deposit card, from an info file or from options.

usage: coronagamba card make --info FILE --scale K --out FILE2 [OPTIONS]
       coronagamba card make --out FILE [OPTIONS]

The card says what the settings are. Without an info file all are needed but the
offset and the kind. An info file has no kind: --kind may stand beside it.

{options}

exit status: 0 written; 1 no card can say this, or the info file is refused; 2
wrong use, or the output exists; 3 a file cannot be read or written.

example, the card of the sample deposit, twice:
  coronagamba card make --info demo/info --scale 0 --out info.card
  coronagamba card make --out my.card --preshift 1 --hash identity \\
    --minishard-bits 1 --shard-bits 3 --size 300,260,200 --chunk 64,64,64 \\
    --offset -64,0,0
";

/// `card show`.
pub const CARD_SHOW: &str = "\
Shows what a deposit card says, or a scale of an info file, and the same
settings as options.

usage: coronagamba card show FILE [OPTIONS]
       coronagamba card show --info FILE --scale K [OPTIONS]

{options}

exit status: 0 shown; 1 the card or info file is refused; 2 wrong use; 3 the
file cannot be read.

example:
  coronagamba card show demo/deposit.card
  coronagamba card show --info demo/info --scale 1
";

/// `card check`.
pub const CARD_CHECK: &str = "\
Tells for each file whether it is a deposit card.

usage: coronagamba card check FILE... [OPTIONS]

{options}

exit status: 0 all are cards; 1 one is refused; 2 wrong use; 3 one cannot be
read.

example:
  coronagamba card check demo/deposit.card demo/murmur.card
";

/// `manifest` and its members.
pub const MANIFEST: &str = "\
Shows and checks mesh manifests, and looks at one node.

usage: coronagamba manifest show FILE [--nodes] [--json]
       coronagamba manifest check FILE... [--json]
       coronagamba manifest node FILE LEVEL NODE [--json]

'coronagamba manifest show --help' and so on tell more.

example:
  coronagamba manifest show demo/mesh.manifest
";

/// `manifest show`.
pub const MANIFEST_SHOW: &str = "\
Shows a mesh manifest: chunk shape, grid origin, and for each level its
scale, vertex offset, node count and the bytes of all its fragments.

usage: coronagamba manifest show FILE [OPTIONS]

Reals have as many digits as give them back exactly when read as 64-bit reals.

{options}

exit status: 0 shown; 1 the manifest is refused; 2 wrong use; 3 the file
cannot be read.

example:
  coronagamba manifest show demo/mesh.manifest --nodes
";

/// `manifest check`.
pub const MANIFEST_CHECK: &str = "\
Tells for each file whether it is a sound mesh manifest.

usage: coronagamba manifest check FILE... [OPTIONS]

{options}

exit status: 0 all are sound; 1 one is refused; 2 wrong use; 3 one cannot be
read.

example:
  coronagamba manifest check demo/mesh.manifest
";

/// `manifest node`.
pub const MANIFEST_NODE: &str = "\
Shows one node of a mesh manifest: its position, where its fragment stands
and its corners, or why it has none.

usage: coronagamba manifest node FILE LEVEL NODE [OPTIONS]

Levels and nodes are counted from 0. Corners are 32-bit reals, each step of
their computation rounded once, as the rules ask.

{options}

exit status: 0 shown with corners; 1 refused, or the node has no corners; 2
wrong use; 3 the file cannot be read.

example:
  coronagamba manifest node demo/mesh.manifest 0 3
";

/// `label`.
pub const LABEL: &str = "\
Tells the labels of single voxels of a chunk in the compressed segmentation
encoding.

usage: coronagamba label CHUNK X,Y,Z... [OPTIONS]

CHUNK is the file of one chunk, as 'get --out' writes it. Voxels count from 0 in
the chunk. A line for each voxel, its label; that of a refused one is 'refused
N', that of a word that is no voxel is 'wrong', and standard error says why. A
voxel outside the chunk is refused with 2; 28 where a channel offset, block
header, packed word or table entry that is to be read is not whole in the chunk,
29 where the block's header has another width than 0, 1, 2, 4, 8, 16 or 32. From
a deposit, 'get --voxel X,Y,Z --label' goes the whole way.

{options}

exit status: 0 all are told; 1 one is refused; 2 wrong use, or one is no voxel;
3 the chunk cannot be read.

example:
  coronagamba label demo/labels.chunk 0,0,0 15,12,3 --size 16,16,16 \\
    --block 8,8,8 --channels 1 --bits 64
";

/// `labels`.
pub const LABELS: &str = "\
Unpacks a chunk in the compressed segmentation encoding to the raw form: all
labels, little-endian, by rising x, then y, z and channel.

usage: coronagamba labels CHUNK --out RAW [OPTIONS]

CHUNK is the file of one chunk, as 'get --out' writes it. It is refused with 29
where 'label' would give that for any voxel, else with 28 where it would give
that for any. RAW is written beside its place and gets its name only when it is
whole; one that is there with the same bytes is left. CHUNK is never written
over. Memory is needed for the chunk and for the raw form; where there is not so
much, that is said.

{options}

exit status: 0 unpacked or already there; 1 refused; 2 wrong use, or the output
exists with other bytes; 3 a file cannot be read or written, or there is not
enough memory.

example:
  coronagamba labels demo/labels.chunk --out raw --size 16,16,16 \\
    --block 8,8,8 --channels 1 --bits 64
";

/// `explain`.
pub const EXPLAIN: &str = "\
Explains a refusal number: when it is given, what usually causes it, and what
to do. Without a number, all of them in short.

usage: coronagamba explain [N] [OPTIONS]

Bytes, minishards, entries, levels, nodes and scales are counted from 0
everywhere; lines and columns of an info file from 1.

{options}

exit status: 0 explained; 2 there is no such number.

example:
  coronagamba explain 9
";

/// `sample`.
pub const SAMPLE: &str = "\
Makes a small deposit to try the commands on.

usage: coronagamba sample DIR

DIR must be missing or empty. It then has:
  deposit.card    the sharding and the volume
  copy-a          the shards of a volume, in settled form
  copy-b          the same chunks in another layout
  copy-c          the same chunks, listed in order of arrival
  pairs           copy-c in the earlier edition, an index file and a data file
                  for each shard
  damaged         a copy with damaged shards, one with another chunk, and one
                  missing
  murmur.card     the same volume under another hash
  murmur          its shards
  info            an info file of the published format: scale 0 says what
                  deposit.card says, scale 1 what murmur.card says
  mesh.manifest   a mesh manifest
  mesh.card       the sharding of some nets' meshes
  mesh-a          their shards, in settled form
  mesh-b          the same nets in another layout, listed in order of arrival
  labels.info     an info file of a volume of labels
  labels          its shards: the numbers of the nets that voxels belong to
  labels.chunk    one of its chunks

exit status: 0 made; 2 wrong use, or DIR is not empty; 3 it cannot be written.

example:
  coronagamba sample demo
  coronagamba check demo/copy-a --card demo/deposit.card
";
