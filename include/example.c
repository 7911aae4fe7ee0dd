/* Every function of coronagamba.h once, on the worked cases of the format's
 * rules. Prints the cases that came out otherwise; the status is 0 where none
 * did. Compiles as C and as C++:
 *
 *   gcc -std=c11 -Iinclude include/example.c target/staticlib/libcoronagamba.a
 */
#include "coronagamba.h"

#include <stdio.h>
#include <string.h>

static int wrong = 0;

static void see(int holds, const char *what) {
  if (!holds) {
    printf("wrong: %s\n", what);
    wrong++;
  }
}

/* A number as it stands in a file: its bytes, lowest first. */
static void put(uint8_t *out, uint64_t number, size_t width) {
  size_t i;
  for (i = 0; i < width; i++) out[i] = (uint8_t)(number >> 8 * i);
}

static void version(void) {
  see(coronagamba_version() == CORONAGAMBA_VERSION,
      "the library belongs to this header");
}

/* The real that these bits mean. */
static float real_of(uint32_t bits) {
  float real;
  memcpy(&real, &bits, sizeof real);
  return real;
}

/* Grid 5,3,1: cell 4,2,0 has key 24; 3,1,0 has key 7; key 20 gives 4. The row
 * of cells 2, 3 and 4 along x at 2 along y has keys 12, 13 and 24. The box of
 * cells 1 and 2 along x, 0 and 1 along y has keys 1, 3, 4 and 6. */
static void grid(void) {
  coronagamba_volume volume = {{5, 3, 1}, {1, 1, 1}, {0, 0, 0}};
  coronagamba_volume strip = {{100, 1, 1}, {64, 1, 1}, {-64, 0, 0}};
  coronagamba_cell cell = {4, 2, 0};
  coronagamba_cell second = {1, 0, 0};
  coronagamba_point lower = {1, 0, 0}, upper = {3, 2, 1};
  const uint32_t cells[7] = {4, 2, 0, 3, 1, 0, 5};
  uint32_t found[3] = {0, 0, 0};
  int64_t begin[3], end[3];
  uint64_t key = 0, keys[3] = {9, 9, 9}, length = 0;
  uint64_t covering[5] = {9, 9, 9, 9, 9};
  uint8_t name[71];
  see(coronagamba_grid_of(volume, found) == 0 && found[0] == 5 && found[2] == 1,
      "grid_of");
  see(coronagamba_key_of(volume, cell, &key) == 0 && key == 24, "key_of");
  see(coronagamba_keys_of(volume, cells, 7, keys, 3, &length) == 0 &&
          length == 2 && keys[0] == 24 && keys[1] == 7 && keys[2] == 9,
      "keys_of");
  see(coronagamba_row_keys(volume, 2, 5, 2, 0, keys, 3, &length) == 0 &&
          length == 3 && keys[0] == 12 && keys[1] == 13 && keys[2] == 24,
      "row_keys");
  see(coronagamba_row_keys(volume, 2, 6, 2, 0, keys, 3, &length) ==
              CORONAGAMBA_REFUSED_NO_SUCH_CELL &&
          length == 3 && keys[2] == 24,
      "row_keys, past the grid");
  see(coronagamba_cover(volume, lower, upper, covering, 5, &length) == 0 &&
          length == 4 && covering[0] == 1 && covering[1] == 3 &&
          covering[2] == 4 && covering[3] == 6 && covering[4] == 9,
      "cover");
  see(coronagamba_cover(volume, lower, upper, keys, 3, &length) ==
              CORONAGAMBA_REFUSED_NO_ROOM &&
          length == 4 && keys[2] == 24,
      "cover, too short");
  see(coronagamba_cover(volume, upper, lower, keys, 3, &length) == 0 &&
          length == 0,
      "cover, reversed");
  see(coronagamba_cell_of(volume, 24, found) == 0 && found[0] == 4 &&
          found[1] == 2 && found[2] == 0,
      "cell_of");
  see(coronagamba_cell_of(volume, 20, found) ==
              CORONAGAMBA_REFUSED_KEY_OF_NO_CELL &&
          found[0] == 4,
      "cell_of, no cell");
  see(coronagamba_bounds_of(strip, second, begin, end) == 0 && begin[0] == 0 &&
          end[0] == 36,
      "bounds_of");
  see(coronagamba_chunk_name(strip, second, name, 71, &length) == 0 &&
          length == 12 && memcmp(name, "0-36_0-1_0-1", 12) == 0,
      "chunk_name");
}

/* Identity, preshift 1, minishard bits 1: ids 2 and 3 go to minishard 1. */
static void places(void) {
  coronagamba_sharding sharding = {1, CORONAGAMBA_HASH_IDENTITY, 1, 0,
                                   CORONAGAMBA_KIND_VOLUME};
  coronagamba_sharding five = {0, 0, 0, 5, 0};
  coronagamba_sharding other = {0, 0, 0, 0, 2};
  coronagamba_sharding wide = {256 + 1, 0, 1, 0, 0};
  const uint64_t ids[3] = {2, 3, 4};
  uint64_t shard = 9, minishard = 9, length = 0;
  uint64_t shards[3], minishards[3];
  uint8_t name[14];
  see(coronagamba_place_of(sharding, 3, &shard, &minishard) == 0 &&
          shard == 0 && minishard == 1,
      "place_of");
  see(coronagamba_place_of(other, 3, &shard, &minishard) ==
              CORONAGAMBA_REFUSED_SHARDING_NOT_ALLOWED &&
          minishard == 1,
      "place_of, neither volume nor mesh");
  see(coronagamba_place_of(wide, 3, &shard, &minishard) ==
              CORONAGAMBA_REFUSED_SHARDING_NOT_ALLOWED &&
          minishard == 1,
      "place_of, a preshift that a byte cuts to 1");
  see(coronagamba_places_of(sharding, ids, 3, shards, 3, minishards, 3,
                            &length) == 0 &&
          length == 3 && minishards[0] == 1 && minishards[2] == 0,
      "places_of");
  see(coronagamba_shard_name(five, 10, name, 14, &length) == 0 && length == 8 &&
          memcmp(name, "0a.shard", 8) == 0,
      "shard_name");
}

/* Ids 4 and 10 with bytes `ab` and `cde`: settled length 85, id 10 is bytes 34
 * up to 37, id 6 gives 12. */
static void shards(void) {
  coronagamba_sharding sharding = {0, 0, 1, 0, CORONAGAMBA_KIND_VOLUME};
  const uint64_t numbers[4] = {5, 53, 0, 0};
  const uint64_t rows[6] = {4, 6, 0, 0, 2, 3};
  uint8_t file[86], out[90];
  uint64_t start = 0, length = 0, chunks = 0, unlisted = 0, word, listed[6];
  size_t i;
  for (i = 0; i < 4; i++) put(file + 8 * i, numbers[i], 8);
  memcpy(file + 32, "abcde", 5);
  for (i = 0; i < 6; i++) put(file + 37 + 8 * i, rows[i], 8);
  file[85] = '-';
  see(coronagamba_check(sharding, 0, file, 85) == 0, "check");
  see(coronagamba_lookup(sharding, 0, file, 85, 10, &start, &length) == 0 &&
          start == 34 && length == 3,
      "lookup");
  see(coronagamba_lookup(sharding, 0, file, 85, 6, &start, &length) ==
              CORONAGAMBA_REFUSED_NOT_LISTED &&
          start == 34,
      "lookup, not listed");
  see(coronagamba_listed_count(sharding, 0, file, 85, 0, &chunks) == 0 &&
          chunks == 2,
      "listed_count");
  see(coronagamba_listing(sharding, 0, file, 85, 0, listed, 6, &length) == 0 &&
          length == 6 && listed[0] == 4 && listed[3] == 10 && listed[5] == 3,
      "listing");
  see(coronagamba_settled_length(sharding, 0, file, 85, 0, &length) == 0 &&
          length == 85,
      "settled_length");
  see(coronagamba_settle(sharding, 0, file, 85, 0, out, 90, &length) == 0 &&
          length == 85 && memcmp(out, file, 85) == 0,
      "settle");
  /* With a byte more, which nothing lists: settling stops unless it is asked
   * to drop it, and then makes the same form. */
  see(coronagamba_unlisted(sharding, 0, file, 86, &unlisted) == 0 &&
          unlisted == 1,
      "unlisted");
  length = 7;
  see(coronagamba_settle(sharding, 0, file, 86, 0, out, 90, &length) ==
              CORONAGAMBA_REFUSED_UNLISTED_BYTES &&
          length == 7,
      "settle, an unlisted byte");
  see(coronagamba_settle(sharding, 0, file, 86, 256 + 1, out, 90, &length) ==
              CORONAGAMBA_REFUSED_UNLISTED_BYTES &&
          length == 7,
      "settle, a wish that a byte cuts to 1");
  see(coronagamba_settle(sharding, 0, file, 86, 1, out, 90, &length) == 0 &&
          length == 85 && memcmp(out, file, 85) == 0,
      "settle, an unlisted byte dropped");
  /* The second minishard's entry, now with its start behind its end. The
   * position is where it begins: 16 bytes for each minishard before it. */
  file[16] = 1;
  word = coronagamba_check(sharding, 0, file, 85);
  see(CORONAGAMBA_NUMBER(word) == CORONAGAMBA_REFUSED_INDEX_ENTRY &&
          CORONAGAMBA_HAS_MINISHARD(word) && CORONAGAMBA_MINISHARD(word) == 1 &&
          CORONAGAMBA_HAS_POSITION(word) && CORONAGAMBA_POSITION(word) == 16,
      "check, a fault in minishard 1");
  /* The others pass the position on, and no minishard. */
  word = coronagamba_settled_length(sharding, 0, file, 85, 0, &length);
  see(CORONAGAMBA_NUMBER(word) == CORONAGAMBA_REFUSED_INDEX_ENTRY &&
          !CORONAGAMBA_HAS_MINISHARD(word) && CORONAGAMBA_HAS_POSITION(word) &&
          CORONAGAMBA_POSITION(word) == 16,
      "settled_length, a fault in minishard 1");
  /* The first one's too: minishard 0 and byte 0 are told from none. */
  file[0] = 54;
  word = coronagamba_check(sharding, 0, file, 85);
  see(CORONAGAMBA_HAS_MINISHARD(word) && CORONAGAMBA_MINISHARD(word) == 0 &&
          CORONAGAMBA_HAS_POSITION(word) && CORONAGAMBA_POSITION(word) == 0,
      "check, a fault in minishard 0");
  word = coronagamba_check(sharding, 1, file, 85);
  see(word == CORONAGAMBA_REFUSED_NO_SUCH_SHARD &&
          !CORONAGAMBA_HAS_MINISHARD(word) && !CORONAGAMBA_HAS_POSITION(word),
      "check, no such shard");
  /* Sound entries again, and a second id step of 0: id 4 stands twice. The
   * position is that step, the second number of the index at byte 37; reading
   * the file there gives it. */
  file[0] = 5;
  file[16] = 0;
  put(file + 45, 0, 8);
  word = coronagamba_lookup(sharding, 0, file, 85, 10, &start, &length);
  see(CORONAGAMBA_NUMBER(word) == CORONAGAMBA_REFUSED_ID_TWICE &&
          CORONAGAMBA_HAS_POSITION(word) && CORONAGAMBA_POSITION(word) == 45 &&
          memcmp(file + CORONAGAMBA_POSITION(word), "\0\0\0\0\0\0\0", 8) ==
              0,
      "lookup, an id that stands twice");
}

/* A mesh of one shard with one minishard, which lists a manifest under id 9.
 * Its two nodes have fragments of 4 and 3 bytes, right before it: the second is
 * bytes 20 up to 23. With a size of 8 in place of 4 they would start before the
 * data: refusal 21, its position the entry's start step at byte 111. */
static void meshes(void) {
  coronagamba_sharding mesh = {0, 0, 0, 0, CORONAGAMBA_KIND_MESH};
  coronagamba_sharding volume = {0, 0, 0, 0, CORONAGAMBA_KIND_VOLUME};
  const uint32_t one = 0x3f800000;
  const uint32_t items[20] = {one, one, one, 0, 0, 0, 1, 0, 0, 0,
                              0,   2,   0,   1, 0, 0, 0, 0, 4, 3};
  uint8_t file[16 + 7 + 80 + 24], out[16 + 7 + 80 + 24];
  const size_t count = sizeof file;
  uint64_t start = 0, length = 0, word;
  size_t i;
  put(file, 87, 8);
  put(file + 8, 111, 8);
  memcpy(file + 16, "nearfar", 7);
  for (i = 0; i < 20; i++) put(file + 23 + 4 * i, items[i], 4);
  put(file + 103, 9, 8);
  put(file + 111, 7, 8);
  put(file + 119, 80, 8);
  see(coronagamba_check(mesh, 0, file, count) == 0, "check, a mesh");
  see(coronagamba_fragment(mesh, 0, file, count, 9, 0, 1, &start, &length) ==
              0 &&
          start == 20 && length == 3 && memcmp(file + start, "far", 3) == 0,
      "fragment");
  see(coronagamba_fragment(mesh, 0, file, count, 9, 0, 2, &start, &length) ==
              CORONAGAMBA_REFUSED_NO_SUCH_NODE &&
          start == 20,
      "fragment, no such node");
  see(coronagamba_fragment(volume, 0, file, count, 9, 0, 1, &start, &length) ==
          CORONAGAMBA_REFUSED_NO_SUCH_NODE,
      "fragment, a volume");
  see(coronagamba_settle(mesh, 0, file, count, 0, out, count, &length) == 0 &&
          length == count && memcmp(out, file, count) == 0,
      "settle, a mesh");
  /* To a volume no fragment is listed. */
  see(coronagamba_unlisted(volume, 0, file, count, &start) == 0 && start == 7,
      "unlisted, a volume");
  see(coronagamba_settled_length(volume, 0, file, count, 0, &length) ==
          CORONAGAMBA_REFUSED_UNLISTED_BYTES,
      "settled_length, a volume would lose the fragments");
  see(coronagamba_settled_length(volume, 0, file, count, 1, &length) == 0 &&
          length == count - 7,
      "settled_length, a volume keeps what is listed");
  file[95] = 8;
  word = coronagamba_check(mesh, 0, file, count);
  see(CORONAGAMBA_NUMBER(word) == CORONAGAMBA_REFUSED_FRAGMENTS_BEFORE_DATA &&
          CORONAGAMBA_MINISHARD(word) == 0 &&
          CORONAGAMBA_POSITION(word) == 111,
      "check, fragments before the data");
}

/* The same shard of ids 4 and 10, written while the second chunk comes in two
 * parts. The second buffer has 16 bytes for each of the two. */
static void intakes(void) {
  coronagamba_sharding sharding = {0, 0, 1, 0, CORONAGAMBA_KIND_VOLUME};
  const uint64_t numbers[4] = {5, 53, 0, 0};
  const uint64_t rows[6] = {4, 6, 0, 0, 2, 3};
  const uint8_t bytes[5] = {'a', 'b', 'c', 'd', 'e'};
  uint8_t form[85], out[90], waiting[32];
  uint64_t state[CORONAGAMBA_INTAKE_NUMBERS], length = 7;
  size_t i;
  for (i = 0; i < 4; i++) put(form + 8 * i, numbers[i], 8);
  memcpy(form + 32, bytes, 5);
  for (i = 0; i < 6; i++) put(form + 37 + 8 * i, rows[i], 8);
  see(coronagamba_intake_open(sharding, 0, out, 31, waiting, 32, state) ==
          CORONAGAMBA_REFUSED_NO_ROOM,
      "intake_open, no room for the shard index");
  see(coronagamba_intake_open(sharding, 0, out, 90, waiting, 32, state) == 0,
      "intake_open");
  see(coronagamba_intake_announce(state, 4, 2, out, 90, waiting, 32) == 0 &&
          coronagamba_intake_part(state, bytes, 2, out, 90, waiting, 32) == 0,
      "intake_announce and intake_part");
  see(coronagamba_intake_announce(state, 4, 2, out, 90, waiting, 32) ==
          CORONAGAMBA_REFUSED_INTAKE_ORDER,
      "intake_announce, an id not above the last");
  see(coronagamba_intake_announce(state, 10, 3, out, 90, waiting, 32) == 0 &&
          coronagamba_intake_part(state, bytes + 2, 1, out, 90, waiting, 32) ==
              0,
      "intake_part, some of what is owed");
  see(coronagamba_intake_close(state, out, 90, waiting, 32, &length) ==
              CORONAGAMBA_REFUSED_INTAKE_OWED &&
          length == 7,
      "intake_close, bytes are owed");
  see(coronagamba_intake_part(state, bytes + 3, 2, out, 90, waiting, 31) ==
          CORONAGAMBA_REFUSED_INTAKE_BUFFERS,
      "intake_part, another length of the second buffer");
  see(coronagamba_intake_part(state, bytes + 3, 2, out, 90, waiting, 32) == 0 &&
          coronagamba_intake_close(state, out, 90, waiting, 32, &length) == 0 &&
          length == 85 && memcmp(out, form, 85) == 0,
      "intake_close");
}

static void cards(void) {
  coronagamba_sharding sharding = {0, 0, 1, 2, CORONAGAMBA_KIND_VOLUME};
  coronagamba_sharding mesh = {0, 0, 1, 2, CORONAGAMBA_KIND_MESH};
  coronagamba_volume volume = {{100, 100, 100}, {64, 64, 64}, {0, 0, 0}};
  uint8_t card[65], five[5];
  uint32_t size[3], chunk[3];
  int32_t offset[3] = {9, 9, 9};
  uint64_t length = 0;
  see(coronagamba_card_write(sharding, volume, card, 65, &length) == 0 &&
          length == 46,
      "card_write");
  see(coronagamba_card_read(card, 46, five, size, chunk, offset) == 0 &&
          five[2] == 1 && five[3] == 2 && five[4] == CORONAGAMBA_KIND_VOLUME &&
          size[0] == 100 && chunk[2] == 64 && offset[1] == 0,
      "card_read");
  see(coronagamba_card_read(card, 45, five, size, chunk, offset) ==
          CORONAGAMBA_REFUSED_CARD_MALFORMED,
      "card_read, cut short");
  see(coronagamba_card_write(mesh, volume, card, 65, &length) == 0 &&
          length == 50 &&
          coronagamba_card_read(card, 50, five, size, chunk, offset) == 0 &&
          five[4] == CORONAGAMBA_KIND_MESH,
      "card_write and card_read, a mesh");
}

static void infos(void) {
  static const char text[] =
      "{\"type\": \"image\", \"scales\": [{\"key\": \"8_8_8\","
      " \"size\": [100, 1, 1], \"chunk_sizes\": [[64, 1, 1]],"
      " \"voxel_offset\": [-64, 0, 0],"
      " \"sharding\": {\"@type\": \"neuroglancer_uint64_sharded_v1\","
      " \"preshift_bits\": 9, \"hash\": \"murmurhash3_x86_128\","
      " \"minishard_bits\": 6, \"shard_bits\": 15}}]}";
  const uint8_t *bytes = (const uint8_t *)text;
  size_t count = sizeof text - 1;
  uint8_t five[5];
  uint32_t size[3], chunk[3];
  int32_t offset[3];
  see(coronagamba_info_read(bytes, count, 0, five, size, chunk, offset) == 0 &&
          five[0] == 9 && five[1] == CORONAGAMBA_HASH_MURMUR && five[2] == 6 &&
          five[3] == 15 && five[4] == CORONAGAMBA_KIND_VOLUME &&
          size[0] == 100 && chunk[0] == 64 && offset[0] == -64 &&
          offset[2] == 0,
      "info_read");
  see(coronagamba_info_read(bytes, count, 1, five, size, chunk, offset) ==
          CORONAGAMBA_REFUSED_INFO_SETTINGS,
      "info_read, no such scale");
  see(coronagamba_info_read(bytes, count - 1, 0, five, size, chunk, offset) ==
          CORONAGAMBA_REFUSED_INFO_NOT_JSON,
      "info_read, cut short");
}

/* Origin 10, shape 8, position 3, level 2: corners 106 and 138. */
static void manifests(void) {
  const uint32_t eight = 0x41000000, ten = 0x41200000;
  uint32_t items[7 + 15 + 4] = {eight, eight, eight, ten, ten, ten, 3};
  uint8_t manifest[4 * (7 + 15 + 4)];
  const size_t count = sizeof manifest;
  uint32_t header[6], near_corner[3], far_corner[3];
  uint32_t kind = 9, value = 0, position[3], size = 0;
  uint64_t start = 9, nodes[6] = {9, 9, 9, 9, 9, 9}, length = 0;
  size_t i;
  items[21] = 1; /* one node in level 2 */
  items[22] = items[23] = items[24] = 3;
  items[25] = 700;
  for (i = 0; i < 26; i++) put(manifest + 4 * i, items[i], 4);
  see(coronagamba_manifest_check(manifest, count) == 0, "manifest_check");
  see(coronagamba_manifest_check(manifest, count - 1) ==
          CORONAGAMBA_REFUSED_MANIFEST_LENGTH,
      "manifest_check, cut short");
  see(coronagamba_manifest_header(manifest, count, header) == 0 &&
          real_of(header[0]) == 8 && real_of(header[5]) == 10,
      "manifest_header");
  see(coronagamba_manifest_field(manifest, count, 3, &kind, &value) == 0 &&
          kind == CORONAGAMBA_FIELD_REAL && real_of(value) == 10,
      "manifest_field, a real");
  see(coronagamba_manifest_field(manifest, count, 6, &kind, &value) == 0 &&
          kind == CORONAGAMBA_FIELD_WHOLE && value == 3,
      "manifest_field, a whole number");
  see(coronagamba_manifest_node(manifest, count, 2, 0, position, &start,
                                &size) == 0 &&
          position[0] == 3 && start == 0 && size == 700,
      "manifest_node");
  see(coronagamba_manifest_nodes(manifest, count, 2, nodes, 6, &length) == 0 &&
          length == 5 && nodes[0] == 3 && nodes[3] == 0 && nodes[4] == 700 &&
          nodes[5] == 9,
      "manifest_nodes");
  see(coronagamba_manifest_nodes(manifest, count, 0, NULL, 0, &length) == 0 &&
          length == 0,
      "manifest_nodes, a level without nodes");
  length = 9;
  see(coronagamba_manifest_nodes(manifest, count, 3, nodes, 6, &length) == 18 &&
          length == 9,
      "manifest_nodes, no such level");
  see(coronagamba_manifest_corners(manifest, count, 2, 0, near_corner,
                                   far_corner) == 0 &&
          real_of(near_corner[0]) == 106 && real_of(far_corner[2]) == 138,
      "manifest_corners");
}

int main(void) {
  version();
  grid();
  places();
  shards();
  meshes();
  intakes();
  cards();
  infos();
  manifests();
  printf("example: %d wrong\n", wrong);
  return wrong != 0;
}
