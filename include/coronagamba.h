/* Coronagamba: a proved library for sharded volume scans.
 *
 * To build and link. `./build coronagamba` makes the archive, and
 * `./install PREFIX` installs archive, shared object, this header and a
 * pkg-config file:
 *
 *   gcc program.c $(pkg-config --cflags --libs coronagamba)
 *
 * From the tree itself:
 *
 *   gcc -Iinclude program.c target/staticlib/libcoronagamba.a
 *
 * The header is C99 or later and C++. The archive is made for Linux on x86-64;
 * it needs the C library's memory functions and nothing else. A call needs at
 * most 64 KiB of stack, and one that judges a minishard of 1,024 chunks or more
 * whose ids do not rise at most 320 KiB. One that counts unlisted bytes of a
 * shard whose chunks and minishard indexes do not stand in the order in which
 * they are listed needs more, and no call needs more than 512 KiB. It takes no
 * memory of its own, and none calls back.
 *
 * Unlisted bytes. They lie past the shard index in no listed chunk, no fragment
 * and no nonempty minishard index, and no settled form has any. The calls of
 * settling refuse a shard that has some with 22, unless they are asked to drop
 * them by the number 1; no other number asks. coronagamba_unlisted counts them.
 *
 * Answers. Each function takes any numbers and bytes and returns. A function
 * that can refuse returns an answer word:
 *
 *   0                                                            success
 *   number + 2^8 * (minishard + 1) + 2^32 * (position + 1)       refusal
 *
 * A part that is not there is 0, so a minishard 0 and none are told apart. The
 * macros below take a word apart. Compare the number, not the word:
 *
 *   uint64_t word = coronagamba_check(sharding, 0, file, count);
 *   if (CORONAGAMBA_NUMBER(word) == CORONAGAMBA_REFUSED_INDEX_ENTRY &&
 *       CORONAGAMBA_HAS_POSITION(word))
 *     look_at(file + CORONAGAMBA_POSITION(word));
 *
 * What names a minishard: coronagamba_check, coronagamba_pair_check,
 * coronagamba_measure and coronagamba_pair_measure with 7 to 11, 15 to 17 and
 * 21. What names a position: coronagamba_check, coronagamba_lookup,
 * coronagamba_fragment, coronagamba_listed_count, coronagamba_listing,
 * coronagamba_unlisted, coronagamba_settled_length, coronagamba_settle,
 * coronagamba_pair_check, coronagamba_pair_lookup, coronagamba_pair_fragment,
 * coronagamba_pair_listed_count, coronagamba_pair_listing,
 * coronagamba_pair_unlisted, coronagamba_pair_settled_length,
 * coronagamba_pair_settle, coronagamba_measure and coronagamba_pair_measure
 * with 7 to 11, 15 to 17 and 21.
 *
 * A position is a byte of the shard, counted from its start. With 7 and 8 the
 * minishard's entry in the shard index begins there, 16 bytes: start and end.
 * With 9 and 10 it is the id step of the first entry that offends, with 11, 15
 * to 17 and 21 the start step of that entry, 8 bytes each; of an id that stands
 * twice the later entry offends. The bytes are always within the shard.
 *
 * Numbers. A number that no field of the format can hold is refused, not cut
 * off: the fields of a specification, the wish to drop unlisted bytes and the
 * width of labels are wider here than what they may be. Extents, cells, voxels,
 * channels, levels, nodes and a manifest's fields have the format's 32 bits. A
 * wider number is cut to them by C, before any call, so look at it first. A wish
 * other than 1 is not refused: it does not ask to drop.
 *
 * Meshes. In a shard of the kind mesh each chunk is a manifest, and the bytes
 * right before it are its fragments. 15 to 17 and 21 are tested of such shards
 * alone; the calls on a manifest give 15 to 17 of any bytes, with no position.
 *
 * Pairs. A shard of the earlier edition is an index file and a data file. The
 * calls on a pair answer as those on one file would for the two joined, and no
 * call joins them: positions and starts count from the index file's first byte.
 * The seam is where the index file ends; 23 is given right after 5, in a listing
 * after 33, where it is not where the shard index ends.
 *
 * Intake. A new volume shard is opened, each chunk announced and handed over in
 * parts of any lengths, and the shard closed. The state between two calls is
 * the caller's, CORONAGAMBA_INTAKE_NUMBERS numbers: the opening writes them, the
 * other calls read them and, unless they refuse, write the new ones. Each call
 * takes the state and both buffers as the last call left them; the state says
 * nothing that a caller need look at. Whatever is lent, nothing past it is
 * touched. A state that no calls could have left is refused with 25, by the
 * calls that see it. Each call sees where its numbers contradict each other, the
 * buffers' lengths or the last pair of the second buffer. The close, and an
 * announcement in another minishard than the open one, see all pairs of the open
 * one: ids that do not rise or belong elsewhere, and sizes that do not add up to
 * the bytes that came of it and are owed. No call sees bytes that were written
 * to the output, nor whether minishards before the open one can have ids.
 *
 * Sheets. A holdings sheet is CORONAGAMBA_SHEET_ROWS numbers of the caller: the
 * calls that add to it read them and, unless they refuse, write the new ones.
 * The order in which shards are added, or sheets of parts joined, makes no
 * difference where no total passes 2^64 - 1.
 *
 * A comment below ends with the refusals that its function can give, in the
 * order in which they are tested.
 *
 * Results. They go through pointers, and need not be initialised before: what
 * stands behind them is not read, but for the state of an intake and a holdings
 * sheet. A refusal leaves everything behind them as it was, so a result that was
 * not initialised is then still not. A function that writes into a lent buffer
 * writes at its front and gives in `length` how many bytes or numbers it wrote;
 * what lies past them is as it was. The calls of an intake write where the shard
 * grows.
 *
 * Reals. A real crosses as the bits of its 32-bit float, in a uint32_t, since a
 * float need not keep the bits of a NaN. A program has the float by
 *
 *   memcpy(&real, &bits, sizeof real);
 *
 * Lent memory. Bytes and numbers are lent as a pointer and a count; the pointer
 * may be NULL where the count is 0. A pointer to a result is never NULL. Each
 * pointer is aligned for its type. What a function may write, buffers and
 * results, overlaps nothing else that it is given. The memory stays the
 * caller's: no function keeps a pointer.
 *
 * Threads. No function keeps anything between calls. Many threads may ask about
 * one and the same shard or manifest at once, as long as nobody writes to it:
 * nothing else may change lent memory while a call runs, no other thread and no
 * other program through a mapped file.
 *
 * This file is made: ./interface writes it from crates/coronagamba, and
 * rust/interface has the table of refusals and this text.
 */
#ifndef CORONAGAMBA_H
#define CORONAGAMBA_H

#include <stddef.h>
#include <stdint.h>

/* The version of this header. Where coronagamba_version() gives another
 * number, the library that is linked or loaded belongs to another header:
 * structs and answers may differ. */
#define CORONAGAMBA_VERSION_MAJOR 0
#define CORONAGAMBA_VERSION_MINOR 6
#define CORONAGAMBA_VERSION_PATCH 0
#define CORONAGAMBA_VERSION_STRING "0.6.0"
#define CORONAGAMBA_VERSION                      \
  ((uint64_t)CORONAGAMBA_VERSION_PATCH +         \
   ((uint64_t)CORONAGAMBA_VERSION_MINOR << 16) + \
   ((uint64_t)CORONAGAMBA_VERSION_MAJOR << 32))

/* ---- answer words -------------------------------------------------------- */

/* The refusal's number, 0 for success. */
#define CORONAGAMBA_NUMBER(word) ((unsigned)((word)&0xff))

/* Whether the word names a minishard, and which. */
#define CORONAGAMBA_HAS_MINISHARD(word) (((word) >> 8 & 0xffffff) != 0)
#define CORONAGAMBA_MINISHARD(word) ((uint32_t)((word) >> 8 & 0xffffff) - 1)

/* Whether the word names a position, and which. */
#define CORONAGAMBA_HAS_POSITION(word) ((word) >> 32 != 0)
#define CORONAGAMBA_POSITION(word) ((uint32_t)((word) >> 32) - 1)

/* ---- refusals ------------------------------------------------------------ */

/* preshift above 63, hash neither identity nor murmur, minishard bits above
 * 16, shard bits above 32, or a kind that is neither volume nor mesh; at an
 * intake also the kind mesh */
#define CORONAGAMBA_REFUSED_SHARDING_NOT_ALLOWED 1

/* a volume or chunk extent is 0, or a cell coordinate is not below its grid
 * size; in a chunk of labels also where a block size or the channel count is
 * 0, or a voxel or channel is outside; beyond the table, and before all
 * else, where the label width is neither 32 nor 64 bits */
#define CORONAGAMBA_REFUSED_NO_SUCH_CELL 2

/* a key is made or decoded, keys are listed for a box, a card is read or
 * written, or an info file is read, and the grid needs more than 64 key bits */
#define CORONAGAMBA_REFUSED_TOO_MANY_KEY_BITS 3

/* a key is no cell of the grid */
#define CORONAGAMBA_REFUSED_KEY_OF_NO_CELL 4

/* a shard number is not below 2^shard_bits, or the id asked for belongs to
 * another shard */
#define CORONAGAMBA_REFUSED_NO_SUCH_SHARD 5

/* the shard is shorter than its shard index or longer than 1,073,741,824
 * bytes */
#define CORONAGAMBA_REFUSED_SHARD_LENGTH 6

/* an index entry has start after end, or start before end and its end past
 * the file */
#define CORONAGAMBA_REFUSED_INDEX_ENTRY 7

/* a minishard index length is no multiple of 24 */
#define CORONAGAMBA_REFUSED_INDEX_LENGTH 8

/* an id stands twice in a minishard */
#define CORONAGAMBA_REFUSED_ID_TWICE 9

/* a listed id belongs to another shard or minishard; at an intake, with no
 * position, the announced id belongs to another shard */
#define CORONAGAMBA_REFUSED_ID_ELSEWHERE 10

/* index end plus start plus size of a chunk, taken exactly, passes the file */
#define CORONAGAMBA_REFUSED_CHUNK_PAST_END 11

/* the id is not listed */
#define CORONAGAMBA_REFUSED_NOT_LISTED 12

/* the output is too short for the whole answer, or a settled form would
 * exceed 1,073,741,824 bytes; at an intake, on opening or announcing, the
 * settled form of all announced so far, this chunk included, would pass the
 * output or 1,073,741,824 bytes, or the second buffer has no 16 bytes left
 * for it; asked for an unpacked length, also where it does not fit 64 bits,
 * so that no output can have the room */
#define CORONAGAMBA_REFUSED_NO_ROOM 13

/* the card is malformed */
#define CORONAGAMBA_REFUSED_CARD_MALFORMED 14

/* the manifest's length or level count is wrong; in a mesh shard, that of a
 * listed manifest */
#define CORONAGAMBA_REFUSED_MANIFEST_LENGTH 15

/* a manifest real is not finite, or a chunk shape is not above zero; in a
 * mesh shard, of a listed manifest */
#define CORONAGAMBA_REFUSED_MANIFEST_REAL 16

/* a level's nodes are not in strictly rising Z-curve order; in a mesh shard,
 * of a listed manifest */
#define CORONAGAMBA_REFUSED_NODE_ORDER 17

/* no such level, node or field; or, where corners are asked for, that node
 * has a position of 2^24 or more or either corner is not finite; or, where a
 * fragment is asked for, the shard is of a volume */
#define CORONAGAMBA_REFUSED_NO_SUCH_NODE 18

/* not JSON, not UTF-8 or too deep, the outermost value being at depth 1 and
 * each value in another, a plain number too, one deeper; 32 is the greatest
 * depth */
#define CORONAGAMBA_REFUSED_INFO_NOT_JSON 19

/* no scale k, a needed member missing, a used one doubled or of the wrong
 * kind, another @type or a refused encoding */
#define CORONAGAMBA_REFUSED_INFO_SETTINGS 20

/* in a mesh shard, the fragments of a listed manifest would start before the
 * index end: the sum of its sizes, taken exactly, exceeds its start relative
 * to the index end */
#define CORONAGAMBA_REFUSED_FRAGMENTS_BEFORE_DATA 21

/* a byte of a sound shard lies past the shard index in no listed chunk, no
 * fragment and no nonempty minishard index, and settling was not asked to
 * drop such bytes; after all that the check refuses and before 13 */
#define CORONAGAMBA_REFUSED_UNLISTED_BYTES 22

/* of a shard of the earlier two-file edition, the index file is not exactly
 * as long as the shard index; right after 5, in a listing after 33 */
#define CORONAGAMBA_REFUSED_INDEX_FILE_LENGTH 23

/* a range crosses the seam, is reversed or passes the end */
#define CORONAGAMBA_REFUSED_NO_SUCH_RANGE 24

/* at an intake, a chunk is announced whose minishard is below the open one,
 * or is the open one and its id not above the last; or the shard was closed;
 * or the state's numbers contradict each other, the buffers' lengths or the
 * last pair of the second buffer, so that no calls could have left them; at
 * the close, and where the announced chunk is of another minishard than the
 * open one, also where the pairs of the open one are none that calls could
 * have left: an id is not above the one before it or belongs to another
 * shard or minishard, or the sizes together are not the bytes that came of
 * the minishard and are owed */
#define CORONAGAMBA_REFUSED_INTAKE_ORDER 25

/* at an intake, a part is longer than what is still owed, or a chunk is
 * announced or the shard closed while bytes are owed */
#define CORONAGAMBA_REFUSED_INTAKE_OWED 26

/* a total of the holdings sheet would pass 2^64 - 1, and the sheet stays as
 * before that shard; of one shard's measure, the sizes of its chunks
 * together pass it */
#define CORONAGAMBA_REFUSED_TOTAL_TOO_LARGE 27

/* in a chunk of labels, a channel offset, header, packed 32-bit word or
 * table entry to be read is not whole in the chunk; at width 0 no packed
 * word is read */
#define CORONAGAMBA_REFUSED_LABELS_CUT_OFF 28

/* in a chunk of labels, a whole header has a packed width other than 0, 1,
 * 2, 4, 8, 16 or 32 */
#define CORONAGAMBA_REFUSED_LABEL_WIDTH 29

/* at an intake, after opening, a lent buffer has another length than then */
#define CORONAGAMBA_REFUSED_INTAKE_BUFFERS 30

/* a number of this library's own, beyond the papers' table: in a listing or
 * its count, a minishard number is not below 2^minishard_bits */
#define CORONAGAMBA_REFUSED_NO_SUCH_MINISHARD 33

/* ---- other numbers ------------------------------------------------------- */

/* a sharding's hash that leaves an id as it is */
#define CORONAGAMBA_HASH_IDENTITY 0

/* a sharding's hash MurmurHash3_x86_128, its first 8 bytes */
#define CORONAGAMBA_HASH_MURMUR 1

/* a sharding's kind whose chunks are any bytes */
#define CORONAGAMBA_KIND_VOLUME 0

/* a sharding's kind whose chunks are manifests, each with its fragments
 * before it */
#define CORONAGAMBA_KIND_MESH 1

/* the kind of a manifest's field that is a whole number */
#define CORONAGAMBA_FIELD_WHOLE 0

/* the kind of a manifest's field that is a real */
#define CORONAGAMBA_FIELD_REAL 1

/* a pair's index file */
#define CORONAGAMBA_FILE_INDEX 0

/* a pair's data file */
#define CORONAGAMBA_FILE_DATA 1

/* how many numbers the state of an intake has */
#define CORONAGAMBA_INTAKE_NUMBERS 15

/* how many numbers a holdings sheet has */
#define CORONAGAMBA_SHEET_ROWS 17

#ifdef __cplusplus
extern "C" {
#endif

/* ---- The library's version ----------------------------------------------- */

/* The version of the library that is linked or loaded: patch + 2^16 * minor
 * + 2^32 * major. It is CORONAGAMBA_VERSION where the header belongs to that
 * library. Refusals: none */
uint64_t coronagamba_version(void);

/* ---- Volumes, cells and keys --------------------------------------------- */

/* How far something reaches along each axis, in voxels or in cells. */
typedef struct {
  uint32_t x;
  uint32_t y;
  uint32_t z;
} coronagamba_extents;

/* Where a volume's first voxel lies. */
typedef struct {
  int32_t x;
  int32_t y;
  int32_t z;
} coronagamba_offset;

/* A volume: its size and its chunks' size in voxels, and where its first
 * voxel lies. */
typedef struct {
  coronagamba_extents size;
  coronagamba_extents chunk;
  coronagamba_offset offset;
} coronagamba_volume;

/* A cell, by its coordinates in the grid. */
typedef struct {
  uint32_t x;
  uint32_t y;
  uint32_t z;
} coronagamba_cell;

/* A place in voxels. */
typedef struct {
  int64_t x;
  int64_t y;
  int64_t z;
} coronagamba_point;

/* How many cells the volume has. Writes the numbers along x, y and z to
 * `grid`. Refusals: 2 where an extent is 0 */
uint64_t coronagamba_grid_of(coronagamba_volume volume, uint32_t grid[3]);

/* The key of a cell: its compressed Morton code. Writes it to `key`.
 * Refusals: 2, 3 */
uint64_t coronagamba_key_of(coronagamba_volume volume, coronagamba_cell cell,
                            uint64_t *key);

/* The keys of many cells, in their order. `cells` holds x, y and z of each
 * cell in turn, three numbers for a cell; one or two left over are no cell.
 * Writes the keys to the front of `keys`, and their number to `length`. The
 * volume is judged also where there is no cell. Refusals: 2 where an extent
 * is 0 or any cell is outside the grid, 3, 13 where `keys` has room for
 * fewer */
uint64_t coronagamba_keys_of(coronagamba_volume volume, const uint32_t *cells,
                             size_t count, uint64_t *keys, size_t keys_count,
                             uint64_t *length);

/* The keys of a row of cells: x rises from `from` up to `to`, that end
 * excluded, at one `y` and `z`. A row whose end is not past its begin has no
 * cell. Writes the keys to the front of `keys`, and their number to
 * `length`. The volume is judged also where there is no cell. Refusals: 2
 * where an extent is 0 or any cell is outside the grid, 3, 13 where `keys`
 * has room for fewer */
uint64_t coronagamba_row_keys(coronagamba_volume volume, uint32_t from,
                              uint32_t to, uint32_t y, uint32_t z,
                              uint64_t *keys, size_t count, uint64_t *length);

/* The chunks that cover a box: the keys of all cells that share a voxel with
 * it, rising, each once. The box begins at `lower` and ends at `upper`, that
 * end excluded along each axis, in voxels, the volume's offset included. An
 * empty or reversed box, and one outside the volume, has none. Writes the
 * keys to the front of `keys`, and their number to `length`. Takes time by
 * the keys that it writes and their bits, whatever the box and the grid.
 * Refusals: 2 where an extent is 0, 3, 13 where `keys` has room for fewer */
uint64_t coronagamba_cover(coronagamba_volume volume, coronagamba_point lower,
                           coronagamba_point upper, uint64_t *keys,
                           size_t count, uint64_t *length);

/* The cell of a key. Writes its x, y and z to `cell`. Refusals: 2 where an
 * extent is 0, 3, 4 */
uint64_t coronagamba_cell_of(coronagamba_volume volume, uint64_t key,
                             uint32_t cell[3]);

/* Where a cell lies, in voxels, the volume's offset included. Writes where
 * it begins along x, y and z to `begin` and where it ends, that voxel
 * excluded, to `end`. Refusals: 2 */
uint64_t coronagamba_bounds_of(coronagamba_volume volume, coronagamba_cell cell,
                               int64_t begin[3], int64_t end[3]);

/* ---- The shard and the minishard of ids ---------------------------------- */

/* A sharding specification, its numbers as in a card: hash 0 is identity, 1
 * is murmur; kind 0 is volume, 1 is mesh. Any numbers; each call judges
 * them. The fields are wider than a card's, so that a greater number is not
 * cut off: above 255 each is refused with 1. */
typedef struct {
  uint32_t preshift;
  uint32_t hash;
  uint32_t minishard_bits;
  uint32_t shard_bits;
  uint32_t kind;
} coronagamba_sharding;

/* The shard and the minishard of an id. Writes them to `shard` and
 * `minishard`. Refusals: 1 */
uint64_t coronagamba_place_of(coronagamba_sharding sharding, uint64_t id,
                              uint64_t *shard, uint64_t *minishard);

/* The shards and the minishards of many ids, in their order. Writes them to
 * the front of `shards` and of `minishards`, and their number to `length`.
 * Refusals: 1, 13 where `shards` or `minishards` has room for fewer */
uint64_t coronagamba_places_of(coronagamba_sharding sharding,
                               const uint64_t *ids, size_t count,
                               uint64_t *shards, size_t shards_count,
                               uint64_t *minishards, size_t minishards_count,
                               uint64_t *length);

/* ---- The file names of chunks and shards --------------------------------- */

/* The file name of a cell's chunk where chunks are not sharded. Writes its
 * ASCII bytes, at most 71 and with no 0 byte behind them, to the front of
 * `out`, and their number to `length`. Refusals: 2, 13 where `out` is
 * shorter than the name */
uint64_t coronagamba_chunk_name(coronagamba_volume volume,
                                coronagamba_cell cell, uint8_t *out,
                                size_t count, uint64_t *length);

/* The file name of a shard. Writes its ASCII bytes, at most 14 and with no 0
 * byte behind them, to the front of `out`, and their number to `length`.
 * Refusals: 1, 5, 13 where `out` is shorter than the name */
uint64_t coronagamba_shard_name(coronagamba_sharding sharding, uint64_t shard,
                                uint8_t *out, size_t count, uint64_t *length);

/* ---- Shards: lookup, fragments, the check, listings, unlisted bytes, settling  */

/* Where the chunk of an id lies in the shard's file; in a mesh the chunk is
 * a manifest. Writes where it begins, counted from the file's first byte, to
 * `start`, and its number of bytes to `length`. Of the minishards it judges
 * the id's own alone. Refusals: 1, 5, 6, 7 to 11, 15 to 17 (mesh), 21 (mesh)
 * of the id's minishard with the position, 12 */
uint64_t coronagamba_lookup(coronagamba_sharding sharding, uint64_t shard,
                            const uint8_t *file, size_t count, uint64_t id,
                            uint64_t *start, uint64_t *length);

/* Where the fragment of a node lies in a mesh shard's file, by the id of its
 * manifest, its level and its number, both counted from 0. A manifest's
 * fragments are the bytes right before it, as many as its sizes make
 * together, one after the other in the order of its nodes. Writes where the
 * fragment begins, counted from the file's first byte, to `start`, and its
 * number of bytes to `length`. Of the minishards it judges the id's own
 * alone. Refusals: 1, 5, 6, 7 to 11, 15 to 17 (mesh), 21 (mesh) of the id's
 * minishard with the position, 12, 18 also where the kind is volume */
uint64_t coronagamba_fragment(coronagamba_sharding sharding, uint64_t shard,
                              const uint8_t *file, size_t count, uint64_t id,
                              uint32_t level, uint32_t node, uint64_t *start,
                              uint64_t *length);

/* Whether the whole shard is sound; in a mesh each chunk must be a sound
 * manifest with its fragments before it. Writes nothing. Where a minishard
 * has a fault, the answer word names the first such minishard and the
 * position. Refusals: 1, 5, 6, 7 to 11, 15 to 17 (mesh), 21 (mesh) with the
 * minishard and the position */
uint64_t coronagamba_check(coronagamba_sharding sharding, uint64_t shard,
                           const uint8_t *file, size_t count);

/* How many chunks a minishard lists. Writes the number to `chunks`.
 * Refusals: 1, 5, 33 for a minishard that is not there, 6, 7 to 11, 15 to 17
 * (mesh), 21 (mesh) of that minishard with the position */
uint64_t coronagamba_listed_count(coronagamba_sharding sharding, uint64_t shard,
                                  const uint8_t *file, size_t count,
                                  uint64_t minishard, uint64_t *chunks);

/* The chunks that a minishard lists, in stored order. Writes three numbers
 * for each to the front of `out`: id, start counted from the file's first
 * byte, length in bytes. Writes how many numbers these are, three times what
 * coronagamba_listed_count gives, to `length`. Refusals: 1, 5, 33 for a
 * minishard that is not there, 6, 7 to 11, 15 to 17 (mesh), 21 (mesh) of
 * that minishard with the position, 13 where `out` has room for fewer */
uint64_t coronagamba_listing(coronagamba_sharding sharding, uint64_t shard,
                             const uint8_t *file, size_t count,
                             uint64_t minishard, uint64_t *out,
                             size_t out_count, uint64_t *length);

/* How many bytes of a shard are unlisted: they lie past the shard index in
 * no listed chunk, no fragment and no nonempty minishard index. Writes the
 * number to `bytes`. Takes at most 512 KiB of stack, as no call of this
 * library takes more. Refusals: 1, 5, 6, 7 to 11, 15 to 17 (mesh), 21 (mesh)
 * of the first faulty minishard with the position */
uint64_t coronagamba_unlisted(coronagamba_sharding sharding, uint64_t shard,
                              const uint8_t *file, size_t count,
                              uint64_t *bytes);

/* How many bytes a shard's settled form has. Writes the number to `length`.
 * Unlisted bytes are not in it: a shard with some is refused unless
 * `drop_unlisted` is 1; no other number asks to drop them. Refusals: 1, 5,
 * 6, 7 to 11, 15 to 17 (mesh), 21 (mesh) of the first faulty minishard with
 * the position, 22 where bytes are unlisted and not dropped, 13 where the
 * form would pass 1 GiB */
uint64_t coronagamba_settled_length(coronagamba_sharding sharding,
                                    uint64_t shard, const uint8_t *file,
                                    size_t count, uint64_t drop_unlisted,
                                    uint64_t *length);

/* A shard's settled form; in a mesh each manifest has its fragments right
 * before it there too. Writes it to the front of `out`, which needs the room
 * that coronagamba_settled_length tells, and its number of bytes to
 * `length`. Unlisted bytes are lost: a shard with some is refused unless
 * `drop_unlisted` is 1; no other number asks to drop them. Refusals: 1, 5,
 * 6, 7 to 11, 15 to 17 (mesh), 21 (mesh) of the first faulty minishard with
 * the position, 22 where bytes are unlisted and not dropped, 13 where `out`
 * is shorter than the form or the form would pass 1 GiB */
uint64_t coronagamba_settle(coronagamba_sharding sharding, uint64_t shard,
                            const uint8_t *file, size_t count,
                            uint64_t drop_unlisted, uint8_t *out,
                            size_t out_count, uint64_t *length);

/* ---- Shards of the earlier edition, an index file and a data file each --- */

/* coronagamba_check of a pair: whether it is sound, as one file. Writes
 * nothing. The position is that in the joined file. Refusals: 1, 5, 23, 6, 7
 * to 11, 15 to 17 (mesh), 21 (mesh) with the minishard and the position */
uint64_t coronagamba_pair_check(coronagamba_sharding sharding, uint64_t shard,
                                const uint8_t *index, size_t count,
                                const uint8_t *data, size_t data_count);

/* coronagamba_lookup of a pair: where the chunk of an id lies. Writes where
 * it begins, counted from the index file's first byte, to `start`, and its
 * number of bytes to `length`. A chunk lies in the data file: there it
 * begins as many bytes earlier as the index file has. Refusals: 1, 5, 23, 6,
 * 7 to 11, 15 to 17 (mesh), 21 (mesh) of the id's minishard with the
 * position, 12 */
uint64_t coronagamba_pair_lookup(coronagamba_sharding sharding, uint64_t shard,
                                 const uint8_t *index, size_t count,
                                 const uint8_t *data, size_t data_count,
                                 uint64_t id, uint64_t *start,
                                 uint64_t *length);

/* coronagamba_fragment of a pair: where the fragment of a node lies, by the
 * id of its manifest, its level and its number. Writes where it begins,
 * counted from the index file's first byte, to `start`, and its number of
 * bytes to `length`. A fragment lies in the data file. Refusals: 1, 5, 23,
 * 6, 7 to 11, 15 to 17 (mesh), 21 (mesh) of the id's minishard with the
 * position, 12, 18 also where the kind is volume */
uint64_t coronagamba_pair_fragment(coronagamba_sharding sharding,
                                   uint64_t shard, const uint8_t *index,
                                   size_t count, const uint8_t *data,
                                   size_t data_count, uint64_t id,
                                   uint32_t level, uint32_t node,
                                   uint64_t *start, uint64_t *length);

/* coronagamba_listed_count of a pair: how many chunks a minishard lists.
 * Writes the number to `chunks`. Refusals: 1, 5, 33 for a minishard that is
 * not there, 23, 6, 7 to 11, 15 to 17 (mesh), 21 (mesh) of that minishard
 * with the position */
uint64_t coronagamba_pair_listed_count(coronagamba_sharding sharding,
                                       uint64_t shard, const uint8_t *index,
                                       size_t count, const uint8_t *data,
                                       size_t data_count, uint64_t minishard,
                                       uint64_t *chunks);

/* coronagamba_listing of a pair: the chunks that a minishard lists, in
 * stored order. Writes three numbers for each to the front of `out`: id,
 * start counted from the index file's first byte, length in bytes. Writes
 * how many numbers these are, three times what coronagamba_pair_listed_count
 * gives, to `length`. Refusals: 1, 5, 33 for a minishard that is not there,
 * 23, 6, 7 to 11, 15 to 17 (mesh), 21 (mesh) of that minishard with the
 * position, 13 where `out` has room for fewer */
uint64_t coronagamba_pair_listing(coronagamba_sharding sharding, uint64_t shard,
                                  const uint8_t *index, size_t count,
                                  const uint8_t *data, size_t data_count,
                                  uint64_t minishard, uint64_t *out,
                                  size_t out_count, uint64_t *length);

/* coronagamba_unlisted of a pair: how many bytes are unlisted. Writes the
 * number to `bytes`. Takes as much stack as coronagamba_unlisted does.
 * Refusals: 1, 5, 23, 6, 7 to 11, 15 to 17 (mesh), 21 (mesh) of the first
 * faulty minishard with the position */
uint64_t coronagamba_pair_unlisted(coronagamba_sharding sharding,
                                   uint64_t shard, const uint8_t *index,
                                   size_t count, const uint8_t *data,
                                   size_t data_count, uint64_t *bytes);

/* coronagamba_settled_length of a pair: how many bytes its settled form has,
 * which is one file. Writes the number to `length`. A pair with unlisted
 * bytes is refused unless `drop_unlisted` is 1; no other number asks to drop
 * them. Refusals: 1, 5, 23, 6, 7 to 11, 15 to 17 (mesh), 21 (mesh) of the
 * first faulty minishard with the position, 22 where bytes are unlisted and
 * not dropped, 13 where the form would pass 1 GiB */
uint64_t coronagamba_pair_settled_length(coronagamba_sharding sharding,
                                         uint64_t shard, const uint8_t *index,
                                         size_t count, const uint8_t *data,
                                         size_t data_count,
                                         uint64_t drop_unlisted,
                                         uint64_t *length);

/* coronagamba_settle of a pair: its settled form, which is one file. Writes
 * it to the front of `out`, which needs the room that
 * coronagamba_pair_settled_length tells, and its number of bytes to
 * `length`. Unlisted bytes are lost: a pair with some is refused unless
 * `drop_unlisted` is 1; no other number asks to drop them. Refusals: 1, 5,
 * 23, 6, 7 to 11, 15 to 17 (mesh), 21 (mesh) of the first faulty minishard
 * with the position, 22 where bytes are unlisted and not dropped, 13 where
 * `out` is shorter than the form or the form would pass 1 GiB */
uint64_t coronagamba_pair_settle(coronagamba_sharding sharding, uint64_t shard,
                                 const uint8_t *index, size_t count,
                                 const uint8_t *data, size_t data_count,
                                 uint64_t drop_unlisted, uint8_t *out,
                                 size_t out_count, uint64_t *length);

/* Where the bytes of the joined file from `start` up to `end`, end excluded,
 * are. Writes which file holds them to `file`: CORONAGAMBA_FILE_INDEX or
 * CORONAGAMBA_FILE_DATA; an empty range at the seam is the data file's.
 * Writes where they begin, counted from that file's first byte, to `place`,
 * and their number to `length`. Judges no minishard and takes no shard
 * number. Refusals: 1, 23, 6, 24 */
uint64_t coronagamba_pair_range(coronagamba_sharding sharding,
                                const uint8_t *index, size_t count,
                                const uint8_t *data, size_t data_count,
                                uint64_t start, uint64_t end, uint32_t *file,
                                uint64_t *place, uint64_t *length);

/* The name of a shard's index file. Writes its ASCII bytes, at most 14 and
 * with no 0 byte behind them, to the front of `out`, and their number to
 * `length`. Refusals: 1, 5, 13 where `out` is shorter than the name */
uint64_t coronagamba_index_name(coronagamba_sharding sharding, uint64_t shard,
                                uint8_t *out, size_t count, uint64_t *length);

/* The name of its data file, at most 13 bytes, in the same way. Refusals: 1,
 * 5, 13 where `out` is shorter than the name */
uint64_t coronagamba_data_name(coronagamba_sharding sharding, uint64_t shard,
                               uint8_t *out, size_t count, uint64_t *length);

/* ---- Intake: a new volume shard, written while its chunks come in parts -- */

/* Opens a new volume shard, which will grow at the front of `out`; `waiting`
 * will hold the ids and sizes of the chunks of one minishard at a time, 16
 * bytes for each. Writes the shard index of a shard with no chunk to the
 * front of `out`, and the state of the intake, 15 numbers, to `state`. The
 * caller keeps them and lends them to the calls that follow, each as the
 * last one left them, with both buffers; they need no look. Refusals: 1 also
 * where the kind is mesh, 5, 13 where the shard index passes `out` */
uint64_t coronagamba_intake_open(coronagamba_sharding sharding, uint64_t shard,
                                 uint8_t *out, size_t count,
                                 const uint8_t *waiting, size_t waiting_count,
                                 uint64_t state[15]);

/* Announces the next chunk, by rising minishard and then rising id, and its
 * number of bytes, which are owed from then on. Where it is the first of its
 * minishard, writes the minishard index of the one before, and that one's
 * entry in the shard index, to `out`. Writes its id and size to `waiting`,
 * and the new state to `state`. Refusals: 30 where a buffer has another
 * length than on opening, 10 where the id belongs to another shard, 25 out
 * of order or after the close or where the state contradicts itself or the
 * last pair of `waiting` or any pair of a minishard that the call ends, 26
 * while bytes are owed, 13 where the settled form of all announced so far
 * and this chunk would pass `out` or 1 GiB or `waiting` has no 16 bytes left
 * for it */
uint64_t coronagamba_intake_announce(uint64_t state[15], uint64_t id,
                                     uint64_t size, uint8_t *out, size_t count,
                                     uint8_t *waiting, size_t waiting_count);

/* Hands over the next bytes of the announced chunk, as many as are given,
 * none or all that are owed. Writes them to their final place in `out`, and
 * the new state to `state`. Refusals: 30 where a buffer has another length
 * than on opening, 25 after the close or where the state contradicts itself
 * or the last pair of `waiting`, 26 where these are more bytes than are owed */
uint64_t coronagamba_intake_part(uint64_t state[15], const uint8_t *bytes,
                                 size_t count, uint8_t *out, size_t out_count,
                                 const uint8_t *waiting, size_t waiting_count);

/* Closes the shard: `out` then begins with the settled form of what was
 * delivered. Writes its number of bytes to `length`, and to `state` a state
 * with which each further call is refused. Refusals: 30 where a buffer has
 * another length than on opening, 25 after the close or where the state
 * contradicts itself or any pair of `waiting`, 26 while bytes are owed */
uint64_t coronagamba_intake_close(uint64_t state[15], uint8_t *out,
                                  size_t count, const uint8_t *waiting,
                                  size_t waiting_count, uint64_t *length);

/* ---- Measures of shards, and the yearly holdings sheet ------------------- */

/* What a shard holds. Writes four numbers to `counts`: the chunks listed,
 * the sum of their sizes, the unlisted bytes, and the bytes of the settled
 * form, 1,073,741,825 where that would pass 1 GiB. The shard is judged once,
 * as coronagamba_check judges it. Refusals: 1, 5, 6, 7 to 11, 15 to 17
 * (mesh), 21 (mesh) with the minishard and the position, 27 where the sizes
 * together pass 2^64 - 1 */
uint64_t coronagamba_measure(coronagamba_sharding sharding, uint64_t shard,
                             const uint8_t *file, size_t count,
                             uint64_t counts[4]);

/* coronagamba_measure of a pair. The position is that in the joined file.
 * Refusals: 1, 5, 23, 6, 7 to 11, 15 to 17 (mesh), 21 (mesh) with the
 * minishard and the position, 27 where the sizes together pass 2^64 - 1 */
uint64_t coronagamba_pair_measure(coronagamba_sharding sharding, uint64_t shard,
                                  const uint8_t *index, size_t count,
                                  const uint8_t *data, size_t data_count,
                                  uint64_t counts[4]);

/* Adds a shard to a holdings sheet: to its shards sound, or to those refused
 * with the number that coronagamba_check gives; where it is sound, to the
 * chunks listed, the sum of their sizes and the unlisted bytes. `sheet` has
 * 17 numbers in this order: shards sound; shards refused with 1, 5, 6, 7, 8,
 * 9, 10, 11, 15, 16, 17, 21, 23; chunks, their bytes, unlisted bytes. An
 * empty sheet is 0 in each; any numbers are taken. The shard is judged once.
 * Refused, the sheet stays as it was. Refusals: 27 where a total would pass
 * 2^64 - 1 */
uint64_t coronagamba_sheet_add(uint64_t sheet[17],
                               coronagamba_sharding sharding, uint64_t shard,
                               const uint8_t *file, size_t count);

/* coronagamba_sheet_add of a pair. Refusals: 27 where a total would pass
 * 2^64 - 1 */
uint64_t coronagamba_pair_sheet_add(uint64_t sheet[17],
                                    coronagamba_sharding sharding,
                                    uint64_t shard, const uint8_t *index,
                                    size_t count, const uint8_t *data,
                                    size_t data_count);

/* Adds a sheet to another, row by row: the sheets of two parts of a year's
 * work make that of both. Refused, `sheet` stays as it was. Refusals: 27
 * where a total would pass 2^64 - 1 */
uint64_t coronagamba_sheet_join(uint64_t sheet[17], const uint64_t other[17]);

/* ---- Deposit cards ------------------------------------------------------- */

/* What a deposit card of these bytes says. Writes preshift, hash, minishard
 * bits, shard bits and kind to `sharding`, and volume size, chunk size and
 * voxel offset along x, y and z to `size`, `chunk` and `offset`. To use them
 * in other calls, copy the numbers into the structs one by one. Refusals:
 * 14, 1, 2, 3 */
uint64_t coronagamba_card_read(const uint8_t *bytes, size_t count,
                               uint8_t sharding[5], uint32_t size[3],
                               uint32_t chunk[3], int32_t offset[3]);

/* A deposit card. Writes its bytes, 46 or 61, of a mesh 50 or 65, to the
 * front of `out`, and their number to `length`. Refusals: 1, 2, 3, 13 where
 * `out` is shorter than the card */
uint64_t coronagamba_card_write(coronagamba_sharding sharding,
                                coronagamba_volume volume, uint8_t *out,
                                size_t count, uint64_t *length);

/* ---- Info files ---------------------------------------------------------- */

/* What the text of an info file says of its scale number `scale`, from 0:
 * the numbers that a deposit card of it says, written as
 * coronagamba_card_read writes them. The kind is 0, volume. Refusals: 19,
 * 20, 1, 2, 3 */
uint64_t coronagamba_info_read(const uint8_t *text, size_t count,
                               uint64_t scale, uint8_t sharding[5],
                               uint32_t size[3], uint32_t chunk[3],
                               int32_t offset[3]);

/* ---- Mesh manifests. Reals cross the border as their bit patterns -------- */

/* Whether the bytes are a sound manifest. Writes nothing. Refusals: 15, 16,
 * 17 */
uint64_t coronagamba_manifest_check(const uint8_t *bytes, size_t count);

/* The shape and the origin of a manifest. Writes the bits of six reals to
 * `header`: the chunk shape along x, y and z, then the grid origin.
 * Refusals: 15, 16, 17 */
uint64_t coronagamba_manifest_header(const uint8_t *bytes, size_t count,
                                     uint32_t header[6]);

/* A field of a manifest, by its number, counted from 0 in file order, one
 * for each 4 bytes. Writes its kind to `kind`: CORONAGAMBA_FIELD_REAL where
 * it is a real, CORONAGAMBA_FIELD_WHOLE where it is a whole number. Writes
 * the real's bits, or the number, to `value`. Refusals: 15, 16, 17, 18 */
uint64_t coronagamba_manifest_field(const uint8_t *bytes, size_t count,
                                    uint32_t number, uint32_t *kind,
                                    uint32_t *value);

/* A node of a level, both counted from 0. Writes its position along x, y and
 * z to `position`, where its fragment starts, counted from the first
 * fragment, to `start`, and the fragment's number of bytes to `size`.
 * Refusals: 15, 16, 17, 18 */
uint64_t coronagamba_manifest_node(const uint8_t *bytes, size_t count,
                                   uint32_t level, uint32_t node,
                                   uint32_t position[3], uint64_t *start,
                                   uint32_t *size);

/* All nodes of a level, counted from 0, in node order. Writes five numbers
 * for each to the front of `out`: its position along x, y and z, where its
 * fragment starts, counted from the first fragment, and the fragment's
 * number of bytes. Writes how many numbers these are to `length`. A level
 * has fewer nodes than a sixteenth of the bytes. Refusals: 15, 16, 17, 18
 * where there is no such level, 13 where `out` has room for fewer */
uint64_t coronagamba_manifest_nodes(const uint8_t *bytes, size_t count,
                                    uint32_t level, uint64_t *out,
                                    size_t out_count, uint64_t *length);

/* The corners of a node's box, level and node counted from 0. Writes the
 * bits of origin + (position x shape) x 2^level along x, y and z to
 * `near_corner`, and of that + shape x 2^level to `far_corner`, each
 * operation rounded once to a float. They are computed in the floating-point
 * environment that a C program starts with: round to nearest, subnormal
 * numbers kept, no traps. Refusals: 15, 16, 17, 18 also where a position is
 * 2^24 or more or a corner is not finite */
uint64_t coronagamba_manifest_corners(const uint8_t *bytes, size_t count,
                                      uint32_t level, uint32_t node,
                                      uint32_t near_corner[3],
                                      uint32_t far_corner[3]);

/* ---- Labels inside a chunk: the label of a voxel, a whole chunk unpacked - */

/* The label of a voxel in a chunk of the compressed segmentation encoding.
 * `size` and `block` are the chunk's and its blocks' extents in voxels;
 * `bits` is the label width, 32 or 64. Voxel and channel count from 0 in the
 * chunk. Writes the label to `label`. Refusals: 2 also where `bits` is
 * another number or a block size or the channel count is 0 or a voxel or
 * channel is outside, 29, 28 */
uint64_t coronagamba_label(const uint8_t *chunk, size_t count,
                           coronagamba_extents size, coronagamba_extents block,
                           uint32_t channels, uint64_t bits, uint32_t x,
                           uint32_t y, uint32_t z, uint32_t channel,
                           uint64_t *label);

/* How many bytes a chunk of labels has in the raw form, whatever it holds.
 * `size` and `block` are the chunk's and its blocks' extents in voxels;
 * `bits` is the label width, 32 or 64. Writes the number to `length`.
 * Refusals: 2 also where `bits` is another number or a block size or the
 * channel count is 0, 13 where the number does not fit 64 bits */
uint64_t coronagamba_unpacked_length(coronagamba_extents size,
                                     coronagamba_extents block,
                                     uint32_t channels, uint64_t bits,
                                     uint64_t *length);

/* A whole chunk of the compressed segmentation encoding in the raw form:
 * labels little-endian, x fastest, then y, z, channel. `size` and `block`
 * are the chunk's and its blocks' extents in voxels; `bits` is the label
 * width, 32 or 64. Writes the raw form to the front of `out`, which needs
 * the room that coronagamba_unpacked_length tells, and its number of bytes
 * to `length`. Refusals: 2 also where `bits` is another number or a block
 * size or the channel count is 0, 29 where coronagamba_label would give it
 * for any voxel, 28 where else that would for any, 13 where `out` is shorter
 * than the raw form */
uint64_t coronagamba_unpack(const uint8_t *chunk, size_t count,
                            coronagamba_extents size, coronagamba_extents block,
                            uint32_t channels, uint64_t bits, uint8_t *out,
                            size_t out_count, uint64_t *length);

#ifdef __cplusplus
}
#endif

#endif
