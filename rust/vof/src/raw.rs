//! The archive's functions as they are, with slices for pointers and lengths.
//!
//! Each answers `number + 256 * word`: the number of a refusal or 0, and a word that the function's
//! comment names. Lent memory past what a comment names keeps its content; a refusal leaves all of it
//! as it was, but for the state of a pipe, which remembers it. The functions of the crate's root are
//! easier to use.

extern "C" {
    fn vof_version() -> u64;
    fn vof_xxh64(bytes: *const u8, length: usize) -> u64;
    fn vof_scan(pack: *const u8, length: usize, told: *mut u64, told_length: usize) -> u64;
    fn vof_find_hash(told: *const u64, told_length: usize, hash: u64) -> u64;
    fn vof_record(
        pack: *const u8,
        length: usize,
        at: usize,
        told: *mut u64,
        told_length: usize,
        identifier: *mut u8,
        identifier_length: usize,
    ) -> u64;
    fn vof_value(value: *const u8, length: usize, told: *mut u64, told_length: usize) -> u64;
    fn vof_current(
        pack: *const u8,
        length: usize,
        bucket: *const u8,
        bucket_length: usize,
        object: *const u8,
        object_length: usize,
        told: *mut u64,
        told_length: usize,
        ulid: *mut u8,
        ulid_length: usize,
    ) -> u64;
    fn vof_current_with(
        pack: *const u8,
        length: usize,
        bucket: *const u8,
        bucket_length: usize,
        object: *const u8,
        object_length: usize,
        scratch: *mut u32,
        scratch_length: usize,
        out: *mut u64,
        out_length: usize,
        ulid: *mut u8,
        ulid_length: usize,
    ) -> u64;
    fn vof_explain(
        pack: *const u8,
        length: usize,
        bucket: *const u8,
        bucket_length: usize,
        object: *const u8,
        object_length: usize,
        told: *mut u64,
        told_length: usize,
    ) -> u64;
    fn vof_check_deposit(pack: *const u8, length: usize) -> u64;
    fn vof_pipe_start(state: *mut u64, state_length: usize) -> u64;
    fn vof_pipe_take(
        state: *mut u64,
        state_length: usize,
        part: *const u8,
        part_length: usize,
        told: *mut u64,
        told_length: usize,
    ) -> u64;
    fn vof_pipe_end(state: *mut u64, state_length: usize) -> u64;
    fn vof_pack_list(primary: *const u8, length: usize, told: *mut u64, told_length: usize) -> u64;
    fn vof_find_block(
        primary: *const u8,
        length: usize,
        byte: u64,
        told: *mut u64,
        told_length: usize,
    ) -> u64;
    fn vof_item(bytes: *const u8, length: usize, out: *mut u64, out_length: usize) -> u64;
    fn vof_write_block(
        buffer: *mut u8,
        length: usize,
        used: usize,
        identifier: *const u8,
        identifier_length: usize,
        data: *const u8,
        data_length: usize,
    ) -> u64;
    fn vof_version_part(
        part: *mut u8,
        part_length: usize,
        id: *const u8,
        id_length: usize,
        is_delete_marker: u64,
    ) -> u64;
    fn vof_write_version(
        buffer: *mut u8,
        length: usize,
        used: usize,
        primary: *const u8,
        primary_length: usize,
    ) -> u64;
    fn vof_write_delete(
        buffer: *mut u8,
        length: usize,
        used: usize,
        primary: *const u8,
        primary_length: usize,
    ) -> u64;
    fn vof_write_pack_list(
        buffer: *mut u8,
        length: usize,
        used: usize,
        primary: *const u8,
        primary_length: usize,
    ) -> u64;
    fn vof_write_delete_of(
        buffer: *mut u8,
        length: usize,
        used: usize,
        identifier: *const u8,
        identifier_length: usize,
        delete_ulid: *const u8,
        delete_ulid_length: usize,
    ) -> u64;
}

// SAFETY, of every call below: each pointer and length are those of a slice that outlives the call;
// the functions keep no pointer, write only through the mutable ones, and take every content.

/// The archive's version; the whole answer is the number.
pub fn version() -> u64 {
    unsafe { vof_version() }
}

/// The XXH64 of the bytes, seed 0; the whole answer is the hash.
pub fn xxh64(bytes: &[u8]) -> u64 {
    unsafe { vof_xxh64(bytes.as_ptr(), bytes.len()) }
}

/// Word: the place of refusals 1 to 8, else how many records. Told of each: start, tag, value length,
/// value hash.
pub fn scan(pack: &[u8], told: &mut [u64]) -> u64 {
    unsafe { vof_scan(pack.as_ptr(), pack.len(), told.as_mut_ptr(), told.len()) }
}

/// Word: 1 plus the place among records so told, from 0, of the first with this hash; 0 where none has it.
pub fn find_hash(told: &[u64], hash: u64) -> u64 {
    unsafe { vof_find_hash(told.as_ptr(), told.len(), hash) }
}

/// Word: the place of refusals 1 to 8. Told are 16 numbers: tag; the value's start and length; the
/// primary part's; 1 where there is a secondary part; its start and length; `c` and `z` of the primary
/// part, then of the secondary; delete flag; length of the composite text, which `identifier` gets;
/// start and length of a version delete's delete identifier. Starts are places of the pack.
pub fn record(pack: &[u8], at: usize, told: &mut [u64], identifier: &mut [u8]) -> u64 {
    unsafe {
        vof_record(
            pack.as_ptr(),
            pack.len(),
            at,
            told.as_mut_ptr(),
            told.len(),
            identifier.as_mut_ptr(),
            identifier.len(),
        )
    }
}

/// Told are 10 numbers: the primary part's start and length in the value; 1 where there is a secondary
/// part; its start and length; `c` and `z` of the primary part, then of the secondary; `v`.
pub fn value(value: &[u8], told: &mut [u64]) -> u64 {
    unsafe { vof_value(value.as_ptr(), value.len(), told.as_mut_ptr(), told.len()) }
}

/// Word: the place of refusals 1 to 18 and 22. Told are 4 numbers: 1 where a version is found, its
/// record's start, its value's length, its delete flag; `ulid` then gets 26 bytes. Zeros where there is
/// nothing.
pub fn current(
    pack: &[u8],
    bucket: &[u8],
    object: &[u8],
    told: &mut [u64],
    ulid: &mut [u8],
) -> u64 {
    unsafe {
        vof_current(
            pack.as_ptr(),
            pack.len(),
            bucket.as_ptr(),
            bucket.len(),
            object.as_ptr(),
            object.len(),
            told.as_mut_ptr(),
            told.len(),
            ulid.as_mut_ptr(),
            ulid.len(),
        )
    }
}

/// The same, with memory lent for the search, whatever it holds. On a refusal it is as it was.
pub fn current_with(
    pack: &[u8],
    bucket: &[u8],
    object: &[u8],
    scratch: &mut [u32],
    out: &mut [u64],
    ulid: &mut [u8],
) -> u64 {
    unsafe {
        vof_current_with(
            pack.as_ptr(),
            pack.len(),
            bucket.as_ptr(),
            bucket.len(),
            object.as_ptr(),
            object.len(),
            scratch.as_mut_ptr(),
            scratch.len(),
            out.as_mut_ptr(),
            out.len(),
            ulid.as_mut_ptr(),
            ulid.len(),
        )
    }
}

/// Word: the place of refusals 1 to 18 and 22, else how many version records the name has. Told of each:
/// its start; 0 current, 1 current marker, 2 older, 3 repeated, 4 removed; the place of the record that
/// makes it so.
pub fn explain(pack: &[u8], bucket: &[u8], object: &[u8], told: &mut [u64]) -> u64 {
    unsafe {
        vof_explain(
            pack.as_ptr(),
            pack.len(),
            bucket.as_ptr(),
            bucket.len(),
            object.as_ptr(),
            object.len(),
            told.as_mut_ptr(),
            told.len(),
        )
    }
}

/// Checks a pack against the deposit profile. The word is how many records there are.
pub fn check_deposit(pack: &[u8]) -> u64 {
    unsafe { vof_check_deposit(pack.as_ptr(), pack.len()) }
}

/// How many numbers the state of a pipe has; include/vof.h says which states are well formed.
pub const PIPE_STATE: usize = 19;

/// The state is then that before a pack's first byte.
pub fn pipe_start(state: &mut [u64]) -> u64 {
    unsafe { vof_pipe_start(state.as_mut_ptr(), state.len()) }
}

/// Word: the place of refusals 1 to 8, which the state remembers. Told are 6 numbers: how many bytes of
/// the part were taken; 0 where more is wanted, 1 a record is complete, 2 the pack has ended; of that
/// record start, tag, value length, value hash, else zeros.
pub fn pipe_take(state: &mut [u64], part: &[u8], told: &mut [u64]) -> u64 {
    unsafe {
        vof_pipe_take(
            state.as_mut_ptr(),
            state.len(),
            part.as_ptr(),
            part.len(),
            told.as_mut_ptr(),
            told.len(),
        )
    }
}

/// Word: the place of refusals 1 to 8, which the state remembers, else how many records.
pub fn pipe_end(state: &mut [u64]) -> u64 {
    unsafe { vof_pipe_end(state.as_mut_ptr(), state.len()) }
}

/// Word: how many entries. Told of each: where the pack's ULID starts in the primary part; the source
/// range's start and length; the pack range's; how many blocks.
pub fn pack_list(primary: &[u8], told: &mut [u64]) -> u64 {
    unsafe {
        vof_pack_list(
            primary.as_ptr(),
            primary.len(),
            told.as_mut_ptr(),
            told.len(),
        )
    }
}

/// Told are 6 numbers: 2 where a block is found, 1 an entry alone; the entry's number, the block's;
/// where the pack's ULID starts in the primary part; the start and length in the pack of the block's
/// record, or of the entry alone. Zeros where there is nothing.
pub fn find_block(primary: &[u8], byte: u64, told: &mut [u64]) -> u64 {
    unsafe {
        vof_find_block(
            primary.as_ptr(),
            primary.len(),
            byte,
            told.as_mut_ptr(),
            told.len(),
        )
    }
}

/// Kind; length; argument, by its magnitude; 1 for a negative integer; 1 where the form is the short
/// one.
pub fn item(bytes: &[u8], out: &mut [u64]) -> u64 {
    unsafe { vof_item(bytes.as_ptr(), bytes.len(), out.as_mut_ptr(), out.len()) }
}

/// Word: the new count of bytes.
pub fn write_block(buffer: &mut [u8], used: usize, identifier: &[u8], data: &[u8]) -> u64 {
    unsafe {
        vof_write_block(
            buffer.as_mut_ptr(),
            buffer.len(),
            used,
            identifier.as_ptr(),
            identifier.len(),
            data.as_ptr(),
            data.len(),
        )
    }
}

/// Word: the length of the part, at whose front it is put; of a delete marker where the number is not 0.
pub fn version_part(part: &mut [u8], identifier: &[u8], is_delete_marker: u64) -> u64 {
    unsafe {
        vof_version_part(
            part.as_mut_ptr(),
            part.len(),
            identifier.as_ptr(),
            identifier.len(),
            is_delete_marker,
        )
    }
}

/// Word: the new count of bytes.
pub fn write_version(buffer: &mut [u8], used: usize, primary: &[u8]) -> u64 {
    unsafe {
        vof_write_version(
            buffer.as_mut_ptr(),
            buffer.len(),
            used,
            primary.as_ptr(),
            primary.len(),
        )
    }
}

/// Word: the new count of bytes.
pub fn write_delete(buffer: &mut [u8], used: usize, primary: &[u8]) -> u64 {
    unsafe {
        vof_write_delete(
            buffer.as_mut_ptr(),
            buffer.len(),
            used,
            primary.as_ptr(),
            primary.len(),
        )
    }
}

/// Word: the new count of bytes.
pub fn write_pack_list(buffer: &mut [u8], used: usize, primary: &[u8]) -> u64 {
    unsafe {
        vof_write_pack_list(
            buffer.as_mut_ptr(),
            buffer.len(),
            used,
            primary.as_ptr(),
            primary.len(),
        )
    }
}

/// Word: the new count of bytes.
pub fn write_delete_of(
    buffer: &mut [u8],
    used: usize,
    identifier: &[u8],
    delete_ulid: &[u8],
) -> u64 {
    unsafe {
        vof_write_delete_of(
            buffer.as_mut_ptr(),
            buffer.len(),
            used,
            identifier.as_ptr(),
            identifier.len(),
            delete_ulid.as_ptr(),
            delete_ulid.len(),
        )
    }
}
