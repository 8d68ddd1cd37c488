/* LTFS-VOF packs, read and written by proved functions: link libvof.a or libvof.so, which
   bin/build-library makes.

   Every input has an answer: a result, or a refusal with a number. The numbers have names,
   VOF_REFUSED_.., and vof_reason says in a few words what each means; docs/REFUSALS.md, or the
   command `vof refusal`, what to do about it.

   Each function but vof_version and vof_xxh64 answers number + 256 * word, which vof_number and
   vof_word take apart. The number is that of the refusal, or 0. The word is 0 where nothing else is
   said. "With the place" means that the word is where in the pack the record at fault starts. A
   refusal writes nothing into lent memory, but into the state of a pipe, which remembers it.

   The caller owes what C cannot test: memory of the length that is said, numbers aligned as
   uint64_t is, no memory lent for writing that overlaps other memory handed in, and no other thread
   that changes any of it during the call. Of a length 0 the pointer plays no part. Lengths of
   numbers are counted in elements, all others in bytes; places are counted from 0. Nothing is
   allocated, and nothing is kept between calls. */
#ifndef VOF_H
#define VOF_H

#include <stddef.h>
#include <stdint.h>

#ifdef __cplusplus
extern "C" {
#endif

/* The version of what this file declares. It grows with each change that a caller built before
   would misread; the shared object's soname has it. A program may compare it with vof_version().
   1 had no number, told three numbers of each record, and named the tag "vr" VOF_VERSION. */
#define VOF_VERSION 2

/* The library's version. */
uint64_t vof_version(void);

/* The refusal's number, or 0. */
static inline unsigned vof_number(uint64_t answer) { return (unsigned)(answer % 256); }

/* What the answer tells beside it: a place or a count. */
static inline uint64_t vof_word(uint64_t answer) { return answer / 256; }

/* Tags of the records that can be read one by one: "bk", "vr", "vd" and "ol" as numbers. */
enum {
    VOF_TAG_BLOCK = 0x626B,
    VOF_TAG_VERSION = 0x7672,
    VOF_TAG_VERSION_DELETE = 0x7664,
    VOF_TAG_PACK_LIST = 0x6F6C
};

/* The bytes of a record before its value, and of a ULID; the longest bucket, object and composite
   text, `ULID:bucket/object`. */
enum {
    VOF_HEADER_LENGTH = 32,
    VOF_ULID_LENGTH = 26,
    VOF_BUCKET_LIMIT = 63,
    VOF_OBJECT_LIMIT = 1024,
    VOF_COMPOSITE_LIMIT = 1115
};

/* The longest pack. */
#define VOF_PACK_LIMIT UINT64_C(4294967295)

/* The XXH64 of the bytes, seed 0. */
uint64_t vof_xxh64(const uint8_t *data, size_t data_length);

/* ---- refusals

   Made from docs/REFUSALS.md by tests/refusals.py: change that, and run it. */

enum {
    VOF_REFUSED_PACK_TOO_LONG = 1,
    VOF_REFUSED_RECORD_CUT = 2,
    VOF_REFUSED_NO_RECORD = 3,
    VOF_REFUSED_FORMAT_VERSION = 4,
    VOF_REFUSED_HASH_TYPE = 5,
    VOF_REFUSED_HEADER_DAMAGED = 6,
    VOF_REFUSED_VALUE_CUT = 7,
    VOF_REFUSED_VALUE_DAMAGED = 8,
    VOF_REFUSED_VALUE_NO_ITEM = 9,
    VOF_REFUSED_VALUE_TOO_DEEP = 10,
    VOF_REFUSED_HEADER_NOT_DESCRIBED = 11,
    VOF_REFUSED_VALUE_NOT_FILLED = 12,
    VOF_REFUSED_TAG_UNKNOWN = 13,
    VOF_REFUSED_STRUCTURE_VERSION = 14,
    VOF_REFUSED_PRIMARY_ENCODED = 15,
    VOF_REFUSED_PRIMARY_NO_ITEM = 16,
    VOF_REFUSED_PRIMARY_NOT_DESCRIBED = 17,
    VOF_REFUSED_NAME_BREAKS_RULES = 18,
    VOF_REFUSED_NO_ROOM = 19,
    VOF_REFUSED_NOT_ADMITTED = 20,
    VOF_REFUSED_RANGE_IMPOSSIBLE = 21,
    VOF_REFUSED_KEY_REPEATED = 22,
    VOF_REFUSED_NOT_SHORT = 23,
    VOF_REFUSED_KEY_NOT_GIVEN = 24,
    VOF_REFUSED_HEADER_ORDER = 25,
    VOF_REFUSED_BLOCK_FORM = 26,
    VOF_REFUSED_SPARE_NOT_ZERO = 27,
    VOF_REFUSED_BUCKET_NAME = 28
};

/* Why it was refused, by the number. */
static inline const char *vof_reason(unsigned number) {
    switch (number) {
    case VOF_REFUSED_PACK_TOO_LONG:
        return "the pack is too long";
    case VOF_REFUSED_RECORD_CUT:
        return "fewer than 32 bytes are left, too few for a record";
    case VOF_REFUSED_NO_RECORD:
        return "no record begins here";
    case VOF_REFUSED_FORMAT_VERSION:
        return "the format's version is not 0";
    case VOF_REFUSED_HASH_TYPE:
        return "the hash is of another type than XXH64";
    case VOF_REFUSED_HEADER_DAMAGED:
        return "the record's header is damaged: its hash differs";
    case VOF_REFUSED_VALUE_CUT:
        return "the pack ends within the record's value";
    case VOF_REFUSED_VALUE_DAMAGED:
        return "the record's value is damaged: its hash differs";
    case VOF_REFUSED_VALUE_NO_ITEM:
        return "the value begins with no whole MessagePack item";
    case VOF_REFUSED_VALUE_TOO_DEEP:
        return "the value is nested deeper than 16";
    case VOF_REFUSED_HEADER_NOT_DESCRIBED:
        return "the value's header is not as described";
    case VOF_REFUSED_VALUE_NOT_FILLED:
        return "the header and the secondary part do not fill the value";
    case VOF_REFUSED_TAG_UNKNOWN:
        return "the record's tag is unknown";
    case VOF_REFUSED_STRUCTURE_VERSION:
        return "the version of the value's structure is not 0";
    case VOF_REFUSED_PRIMARY_ENCODED:
        return "the primary part is encrypted or compressed";
    case VOF_REFUSED_PRIMARY_NO_ITEM:
        return "the primary part is not one whole MessagePack item, or is nested deeper than 16";
    case VOF_REFUSED_PRIMARY_NOT_DESCRIBED:
        return "the primary part lacks a key, or has a wrong type";
    case VOF_REFUSED_NAME_BREAKS_RULES:
        return "a ULID, bucket or object breaks the rules";
    case VOF_REFUSED_NO_ROOM:
        return "what was lent is too short for the result";
    case VOF_REFUSED_NOT_ADMITTED:
        return "what was handed in is not admitted";
    case VOF_REFUSED_RANGE_IMPOSSIBLE:
        return "a pack list has a range or lengths that cannot be";
    case VOF_REFUSED_KEY_REPEATED:
        return "a key that is read is given twice";
    case VOF_REFUSED_NOT_SHORT:
        return "an item is not in its short form";
    case VOF_REFUSED_KEY_NOT_GIVEN:
        return "a map has a key that document 001 does not give";
    case VOF_REFUSED_HEADER_ORDER:
        return "the header's keys are not the writer's";
    case VOF_REFUSED_BLOCK_FORM:
        return "a block's map is not the writer's";
    case VOF_REFUSED_SPARE_NOT_ZERO:
        return "byte 28 or 29 is not 0";
    case VOF_REFUSED_BUCKET_NAME:
        return "the bucket's name may not be deposited";
    default:
        return "no refusal has this number";
    }
}

/* ---- reading */

/* What vof_scan tells of each record. */
enum {
    VOF_SCAN_START,
    VOF_SCAN_TAG,
    VOF_SCAN_VALUE_LENGTH,
    /* The XXH64 of the value, which the record's header has too. */
    VOF_SCAN_VALUE_HASH,
    VOF_SCAN_NUMBERS
};

/* Checks a pack, and lists its records in their order.
   Word: how many there are. `told` then has VOF_SCAN_NUMBERS numbers for each, and keeps the rest.
   A pack has at most one record for each 32 of its bytes.
   Refusals: 1 to 8, with the place; 19 where `told` is too short for all records. */
uint64_t vof_scan(const uint8_t *pack, size_t pack_length, uint64_t *told, size_t told_length);

/* Looks for a value by its hash, among records as vof_scan tells them. A rest of fewer than
   VOF_SCAN_NUMBERS numbers plays no part.
   Word: 1 plus the place in that list, counted from 0, of the first record with this hash; 0 where
   none has it.
   Refusal: 20 where there are more than 2^34 numbers. */
uint64_t vof_find_hash(const uint64_t *told, size_t told_length, uint64_t hash);

/* What vof_record tells. Starts are places in the pack; questions are answered by 0 or 1. */
enum {
    VOF_RECORD_TAG,
    VOF_RECORD_VALUE_START,
    VOF_RECORD_VALUE_LENGTH,
    VOF_RECORD_PRIMARY_START,
    VOF_RECORD_PRIMARY_LENGTH,
    VOF_RECORD_HAS_SECONDARY,
    /* Where there is no secondary part, its length is 0, and its `c` and `z` are the primary's. */
    VOF_RECORD_SECONDARY_START,
    VOF_RECORD_SECONDARY_LENGTH,
    /* The compression type `c`, 0 for none, and whether the crypt info `z` is there. */
    VOF_RECORD_PRIMARY_COMPRESSION,
    VOF_RECORD_PRIMARY_IS_ENCRYPTED,
    VOF_RECORD_SECONDARY_COMPRESSION,
    VOF_RECORD_SECONDARY_IS_ENCRYPTED,
    /* Whether a version is a delete marker; 0 in other records. */
    VOF_RECORD_IS_DELETE_MARKER,
    VOF_RECORD_COMPOSITE_LENGTH,
    /* A version delete's delete identifier; 0 and 0 in other records. */
    VOF_RECORD_DELETE_ULID_START,
    VOF_RECORD_DELETE_ULID_LENGTH,
    VOF_RECORD_NUMBERS
};

/* Reads the record at a place of a pack: a block, a version, a version delete or a pack list. The
   rest of the pack is not looked at.
   `told` then has VOF_RECORD_NUMBERS numbers, and `id` the identifier's composite text, whose
   length is one of them; both keep the rest.
   Refusals: 20 where the place is not inside the pack; 1 to 8, with the place; 9 to 18, 21 and 22;
   19 where `told` or `id` is too short. VOF_COMPOSITE_LIMIT bytes suffice for any `id`. */
uint64_t vof_record(const uint8_t *pack, size_t pack_length, size_t at, uint64_t *told,
                    size_t told_length, uint8_t *id, size_t id_length);

/* What vof_value tells, as vof_record does; but starts are places in the value. */
enum {
    VOF_VALUE_PRIMARY_START,
    VOF_VALUE_PRIMARY_LENGTH,
    VOF_VALUE_HAS_SECONDARY,
    VOF_VALUE_SECONDARY_START,
    VOF_VALUE_SECONDARY_LENGTH,
    VOF_VALUE_PRIMARY_COMPRESSION,
    VOF_VALUE_PRIMARY_IS_ENCRYPTED,
    VOF_VALUE_SECONDARY_COMPRESSION,
    VOF_VALUE_SECONDARY_IS_ENCRYPTED,
    /* The version `v` of the value's structure. */
    VOF_VALUE_STRUCTURE_VERSION,
    VOF_VALUE_NUMBERS
};

/* Takes a value apart, for whoever opens compressed or encrypted parts: `c`, `z` and `v` are told
   and not tested.
   `told` then has VOF_VALUE_NUMBERS numbers, and keeps the rest.
   Refusals: 9 to 12 and 22; 19 where `told` is too short. */
uint64_t vof_value(const uint8_t *value, size_t value_length, uint64_t *told, size_t told_length);

/* What vof_current tells: four zeros where there is no current version. */
enum {
    VOF_CURRENT_FOUND,
    VOF_CURRENT_RECORD_START,
    VOF_CURRENT_VALUE_LENGTH,
    VOF_CURRENT_IS_DELETE_MARKER,
    VOF_CURRENT_NUMBERS
};

/* Looks up the current version of an object. A delete marker that is current is told as such: the
   object then counts as deleted, whatever older versions there are.
   `told` then has VOF_CURRENT_NUMBERS numbers, and `ulid`, where a version was found, its ULID in
   VOF_ULID_LENGTH bytes; both keep the rest.
   Refusals: 20 where the bucket or the object breaks the rules for names; 1 to 8 of the pack, then
   9 to 12, 14 to 18 and 22 of its first version or version delete that cannot be read, all with the
   place; 19 where `told` is too short, or `ulid` where a version was found. */
uint64_t vof_current(const uint8_t *pack, size_t pack_length, const uint8_t *bucket,
                     size_t bucket_length, const uint8_t *object, size_t object_length,
                     uint64_t *told, size_t told_length, uint8_t *ulid, size_t ulid_length);

enum {
    /* No version delete takes fewer bytes. */
    VOF_LEAST_DELETION_LENGTH = 106,
    /* So many hints a lookup has itself: to lend no more, twice as many numbers, is of no use. */
    VOF_OWN_HINTS = 8192
};

/* How many numbers to lend to vof_current_with for a pack of so many bytes: a hint of two numbers for
   each version delete that it can have, or none where a lookup has enough itself. */
static inline size_t vof_scratch_length(size_t pack_length) {
    size_t most = pack_length / VOF_LEAST_DELETION_LENGTH;
    return most > VOF_OWN_HINTS ? 2 * most : 0;
}

/* The same, with memory lent for the search, of any length. What `scratch` holds changes no answer. On a
   refusal it is as it was; else what it then holds is not told.
   With vof_scratch_length numbers the time grows with the length n of the pack as n log n, whatever
   the pack holds; with fewer it can grow as n squared. So lend them where packs come from strangers. */
uint64_t vof_current_with(const uint8_t *pack, size_t pack_length, const uint8_t *bucket,
                          size_t bucket_length, const uint8_t *object, size_t object_length,
                          uint32_t *scratch, size_t scratch_length, uint64_t *out,
                          size_t out_length, uint8_t *ulid, size_t ulid_length);

/* Why a version record is current, or is not. Where several hold, the greatest is told. */
enum {
    VOF_REASON_CURRENT,
    /* It is current, and a delete marker. */
    VOF_REASON_CURRENT_MARKER,
    /* Another version is current, and its ULID is greater. */
    VOF_REASON_OLDER,
    /* An earlier version record has the same identifier. */
    VOF_REASON_REPEATED,
    /* A version delete names it. */
    VOF_REASON_REMOVED
};

/* What vof_explain tells of each version record. The place is where another record starts: of an
   older one the current one, of a repeated one the earliest with its identifier, of a removed one
   the earliest version delete that names it; of the current one it is its own start. */
enum { VOF_EXPLAIN_START, VOF_EXPLAIN_REASON, VOF_EXPLAIN_PLACE, VOF_EXPLAIN_NUMBERS };

/* Says why the current version of an object is current, or why there is none, record by record.
   Word: how many version records the name has. `told` then has VOF_EXPLAIN_NUMBERS numbers for
   each, in their order, and keeps the rest. A pack has at most one record for each 32 of its bytes.
   Refusals: those of vof_current but 19; then 19 where `told` is too short for all of them. */
uint64_t vof_explain(const uint8_t *pack, size_t pack_length, const uint8_t *bucket,
                     size_t bucket_length, const uint8_t *object, size_t object_length,
                     uint64_t *told, size_t told_length);

/* ---- the deposit profile */

/* Checks a pack against the deposit profile, a narrower rule for packs that are deposited: short forms,
   document 001's keys, the writer's headers, and bucket names as docs/REFUSALS.md has them in 23 to 28.
   Word: how many records there are.
   Refusals: 1 to 8 for the pack; then, of the first record at fault, 9 to 18, 21 or 22, or 23 to 28;
   each with the place. */
uint64_t vof_check_deposit(const uint8_t *pack, size_t pack_length);

/* ---- packs in parts

   A pack that is too long for memory, or comes through a pipe, is handed over in parts of any
   length, empty ones too: each begins where the bytes taken so far end. However it is cut, its
   records and its refusal are those that vof_scan would tell of the whole, with VOF_PIPE_LIMIT for
   4,294,967,295 bytes; but each record is told as it completes, so that those before a fault are told
   too. */

/* The longest pack that is taken in parts. */
#define VOF_PIPE_LIMIT UINT64_C(1099511627776)

/* How many numbers the state of a pipe has: all that is kept between calls, however long the pack.
   The caller lends it, and hands it over unchanged with the next part. It may be copied, and gone
   on with twice.

   0        the mark, 0x564F462050495045
   1        0 in a header, 1 in a value, 2 refused, 3 ended
   2        where the record that is taken now starts; the place, once refused
   3        how many records are complete
   4        the refusal's number
   5        how many bytes of the header are held
   6 to 9   the accumulators of the value's hash
   10       how many bytes of the value were taken
   11 to 14 the header's 32 bytes, eight in a number, the first of them highest
   15 to 18 likewise the value's bytes since its last whole 32

   It is well formed when number 0 is the mark and
   - in a header, number 5 is below 32, numbers 2 and 5 add up to at most VOF_PIPE_LIMIT, and number
     3 is at most number 2;
   - in a value, number 10 is below number 12, which is the value's length, numbers 2 and 10 and 32
     add up to at most VOF_PIPE_LIMIT, and number 3 is at most number 2;
   - refused, number 4 is from 1 to 8, and number 2 at most VOF_PIPE_LIMIT;
   - ended, number 3 is at most VOF_PIPE_LIMIT.
   What is not named there may be anything. Calls leave well-formed states. Every other one gets
   20, and every well-formed one its answer, whether or not a call has left it. */
enum { VOF_PIPE_STATE = 19 };

/* Begins a pack: `state` is then that before its first byte, and keeps the rest.
   Refusal: 19 where `state` has fewer than VOF_PIPE_STATE numbers. */
uint64_t vof_pipe_start(uint64_t *state, size_t state_length);

/* What has happened after a call of vof_pipe_take. */
enum {
    /* All of the part was taken, and more is wanted, or the end. */
    VOF_EVENT_WANTED,
    /* A record is complete, with the last byte taken. The rest of the part is to be handed over
       again. */
    VOF_EVENT_COMPLETE,
    /* The end was announced, and the pack is accepted. Nothing is taken. */
    VOF_EVENT_ENDED
};

/* What vof_pipe_take tells: how many bytes it took, what has happened, and of a complete record what
   vof_scan tells of it, else four zeros. */
enum {
    VOF_PIPE_TAKEN,
    VOF_PIPE_EVENT,
    VOF_PIPE_RECORD_START,
    VOF_PIPE_RECORD_TAG,
    VOF_PIPE_VALUE_LENGTH,
    VOF_PIPE_VALUE_HASH,
    VOF_PIPE_NUMBERS
};

/* Takes a part of a pack, up to the byte that completes a record.
   `told` then has VOF_PIPE_NUMBERS numbers, and keeps the rest.
   Refusals: 20 where `state` is too short or not well formed; 1 where a byte past VOF_PIPE_LIMIT would
   be taken, 3 to 6 once the header is whole, 8 once the value is, all with the place; after the
   end 2 and 7 too; then 19 where `told` is too short, which leaves `state` as it was. 1 to 8 take
   nothing of the part, are remembered in `state` even where `told` is too short, and are given again
   at every later call. */
uint64_t vof_pipe_take(uint64_t *state, size_t state_length, const uint8_t *part,
                       size_t part_length, uint64_t *told, size_t told_length);

/* Announces the end of the pack.
   Word: how many records it has.
   Refusals: 20 where `state` is too short or not well formed; 1 to 8, with the place: 2 where the
   last header is not whole, 7 where the last value is not. The answer is given again at every later
   call. */
uint64_t vof_pipe_end(uint64_t *state, size_t state_length);

/* ---- pack lists

   A pack list says which range of a version, the source range, is stored in which range of which
   pack. The functions here read its primary part, which vof_record tells the place of. */

/* What vof_pack_list tells of each entry. The pack's ULID has VOF_ULID_LENGTH bytes, and starts at
   a place of the primary part; the stored range is counted in bytes of that pack. There is a block
   for each length that is listed, and one more where these leave a rest of the stored range: none
   where nothing is listed of a range of 0 bytes. */
enum {
    VOF_PACK_LIST_ULID_START,
    VOF_PACK_LIST_SOURCE_START,
    VOF_PACK_LIST_SOURCE_LENGTH,
    VOF_PACK_LIST_STORED_START,
    VOF_PACK_LIST_STORED_LENGTH,
    VOF_PACK_LIST_BLOCKS,
    VOF_PACK_LIST_NUMBERS
};

/* Reads the primary part of a pack list.
   Word: how many entries it has, at most one for each 36 of its bytes. `told` then has
   VOF_PACK_LIST_NUMBERS numbers for each, in their order, and keeps the rest.
   Refusals: 16 to 18, 21 and 22; 19 where `told` is too short for all entries. */
uint64_t vof_pack_list(const uint8_t *primary, size_t primary_length, uint64_t *told,
                       size_t told_length);

/* Where a byte of the version stands. */
enum {
    /* In no entry; the other numbers are 0 too. */
    VOF_FOUND_NOWHERE,
    /* In an entry that has no block, or whose lengths place it in none: the block is told as 0, and
       the stored range is the entry's. */
    VOF_FOUND_ENTRY,
    VOF_FOUND_BLOCK
};

/* What vof_find_block tells. Entries and blocks are counted from 0; the stored range is that of the
   block's record, in bytes of the pack. */
enum {
    VOF_FIND_KIND,
    VOF_FIND_ENTRY,
    VOF_FIND_BLOCK,
    VOF_FIND_ULID_START,
    VOF_FIND_STORED_START,
    VOF_FIND_STORED_LENGTH,
    VOF_FIND_NUMBERS
};

/* Finds the block that holds a byte of the version, in the first entry whose source range has it.
   The list has no key for the stride, the usual source length of a block: it is taken to be the
   least with which the blocks of every entry hold its source range. Of a single entry whose last
   block is short that is a guess: 25 bytes in 3 blocks are read as 9, 9 and 7, and may have been
   10, 10 and 5.
   `told` then has VOF_FIND_NUMBERS numbers, and keeps the rest.
   Refusals: 16 to 18, 21 and 22; 19 where `told` is too short. */
uint64_t vof_find_block(const uint8_t *primary, size_t primary_length, uint64_t byte,
                        uint64_t *told, size_t told_length);

/* ---- MessagePack items */

/* The kind of an item. */
enum {
    VOF_KIND_NIL,
    VOF_KIND_BOOLEAN,
    VOF_KIND_INTEGER,
    VOF_KIND_FLOAT,
    VOF_KIND_TEXT,
    VOF_KIND_BYTES,
    VOF_KIND_ARRAY,
    VOF_KIND_MAP,
    VOF_KIND_EXTENSION
};

/* What vof_item tells. */
enum {
    VOF_ITEM_KIND,
    /* In bytes, with all that it holds. */
    VOF_ITEM_LENGTH,
    /* An integer's magnitude, a boolean as 0 or 1, the length of a text, of bytes, or of an extension
       without its type byte, an array's items, a map's pairs; else 0. */
    VOF_ITEM_ARGUMENT,
    /* 1 for a negative integer, else 0. */
    VOF_ITEM_IS_NEGATIVE,
    /* 1 where its own form is the short one, else 0: of an integer of at least 0 the fixed form if
       that holds it, else the least unsigned one; of a negative one the fixed, else the least signed
       one; of others the fixed form if that holds the length or count, else the least that does. */
    VOF_ITEM_IS_SHORT,
    VOF_ITEM_NUMBERS
};

/* Reads the item at the front of bytes.
   `out` then has VOF_ITEM_NUMBERS numbers, and keeps the rest.
   Refusals: 9, 10; 19 where `out` is too short. */
uint64_t vof_item(const uint8_t *bytes, size_t bytes_length, uint64_t *out, size_t out_length);

/* ---- writing

   Each vof_write_.. is told how many bytes at the front of `buf` are the pack so far, 0 at first, and puts
   one record directly after them. These bytes are not looked at, and every other byte keeps its
   content.
   Word: the new count.
   Refusals: 20 where what is handed in is not admitted, or the pack would become longer than
   4,294,967,295 bytes; 19 where the record does not fit into `buf`. */

/* A block with this data. `id` is the composite text. */
uint64_t vof_write_block(uint8_t *buf, size_t buf_length, size_t used, const uint8_t *id,
                         size_t id_length, const uint8_t *data, size_t data_length);

/* The longest primary part that vof_version_part makes. */
enum {
    VOF_VERSION_PART_LIMIT = 1129
};

/* The primary part of a version with this identifier, as composite text, for vof_write_version;
   of a delete marker where the last number is not 0. It is put at the front of `part`, and the
   other bytes keep their content.
   Word: its length.
   Refusals: 20 where the identifier breaks the rules; 19 where it does not fit into `part`. */
uint64_t vof_version_part(uint8_t *part, size_t part_length, const uint8_t *id, size_t id_length,
                          uint64_t is_delete_marker);

/* A version with this primary part, which must read as one (16 to 18, 22). */
uint64_t vof_write_version(uint8_t *buf, size_t buf_length, size_t used, const uint8_t *primary,
                           size_t primary_length);

/* A version delete with this primary part, which must read as one (16 to 18, 22). */
uint64_t vof_write_delete(uint8_t *buf, size_t buf_length, size_t used, const uint8_t *primary,
                          size_t primary_length);

/* A pack list with this primary part, which must read as one (16 to 18, 21, 22). */
uint64_t vof_write_pack_list(uint8_t *buf, size_t buf_length, size_t used, const uint8_t *primary,
                             size_t primary_length);

/* A version delete made from the identifier of the version that goes, as composite text, and a
   delete ULID of its own. */
uint64_t vof_write_delete_of(uint8_t *buf, size_t buf_length, size_t used, const uint8_t *id,
                             size_t id_length, const uint8_t *delete_ulid,
                             size_t delete_ulid_length);

#ifdef __cplusplus
}
#endif

#endif
