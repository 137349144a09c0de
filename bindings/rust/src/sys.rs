//! The calls of the library, over slices. All that is unsafe in this crate is here, but for what `tree::Known` asks of a host.
//!
//! The declarations are those of `tizulgech.h`. What makes each call sound is the same everywhere: a slice is passed as its
//! pointer, which is never null, and its length; what is written is lent for the time of the call; rooms that a call wants
//! with a fixed length are arrays of that length; and no call calls back.
#![allow(clippy::too_many_arguments)]

use std::cell::UnsafeCell;
use std::ptr::null_mut;

/// `tizulgech_repository`.
#[repr(C)]
pub struct Raw {
    pub is_open: bool,
    pub at: *mut u8,
}

// It has to lie as the header says.
const _: () = assert!(size_of::<Raw>() == 2 * size_of::<usize>());

unsafe extern "C" {
    pub fn tizulgech_version() -> u64;
    pub fn tizulgech_record_fault(bytes: *const u8, len: usize) -> u8;
    pub fn tizulgech_write_fault(
        kind: u8,
        there: bool,
        key: *const u8,
        key_len: usize,
        record: *const u8,
        record_len: usize,
    ) -> u8;
    pub fn tizulgech_layer(key: *const u8, len: usize) -> u16;
    pub fn tizulgech_is_key(key: *const u8, len: usize) -> bool;
    pub fn tizulgech_is_repository_key(key: *const u8, len: usize) -> bool;
    pub fn tizulgech_cid(block: *const u8, len: usize, out: *mut u8, room: usize);
    pub fn tizulgech_cids(
        blocks: *const u8,
        blocks_len: usize,
        ends: *const usize,
        count: usize,
        out: *mut u8,
        room: usize,
        size: *mut usize,
    ) -> u8;
    pub fn tizulgech_cid_text(cid: *const u8, len: usize, out: *mut u8, room: usize) -> bool;
    pub fn tizulgech_cid_from_text(text: *const u8, len: usize, out: *mut u8, room: usize) -> u8;
    pub fn tizulgech_step(node: *const u8, len: usize, key: *const u8, key_len: usize, out: *mut u8, room: usize) -> u8;
    pub fn tizulgech_below(
        node: *const u8,
        len: usize,
        keys: *const u8,
        keys_len: usize,
        key_ends: *const usize,
        key_count: usize,
        values: *const u8,
        values_len: usize,
        out: *mut u8,
        room: usize,
        size: *mut usize,
    ) -> u8;
    pub fn tizulgech_links(node: *const u8, len: usize, out: *mut u8, room: usize, size: *mut usize) -> u8;
    pub fn tizulgech_is_did(did: *const u8, len: usize) -> bool;
    pub fn tizulgech_is_tid(rev: *const u8, len: usize) -> bool;
    pub fn tizulgech_stamp_fault(
        before: *const u8,
        before_len: usize,
        did: *const u8,
        did_len: usize,
        rev: *const u8,
        rev_len: usize,
    ) -> u8;
    pub fn tizulgech_commit_bytes(
        did: *const u8,
        did_len: usize,
        rev: *const u8,
        rev_len: usize,
        root: *const u8,
        root_len: usize,
        out: *mut u8,
        room: usize,
        size: *mut usize,
    ) -> u8;
    pub fn tizulgech_tree_apply(
        nodes: *const u8,
        nodes_len: usize,
        node_ends: *const usize,
        node_count: usize,
        cids: *const u8,
        cids_len: usize,
        root: *const u8,
        root_len: usize,
        keys: *const u8,
        keys_len: usize,
        key_ends: *const usize,
        key_count: usize,
        values: *const u8,
        values_len: usize,
        missing: *mut u8,
        missing_room: usize,
        out: *mut u8,
        room: usize,
        size: *mut usize,
    ) -> u8;
    pub fn tizulgech_verify(
        blocks: *const u8,
        blocks_len: usize,
        ends: *const usize,
        count: usize,
        root: *const u8,
        root_len: usize,
        key: *const u8,
        key_len: usize,
        value: *mut u8,
        value_room: usize,
    ) -> u8;
    pub fn tizulgech_verify_change(
        nodes: *const u8,
        nodes_len: usize,
        node_ends: *const usize,
        node_count: usize,
        before: *const u8,
        before_len: usize,
        after: *const u8,
        after_len: usize,
        keys: *const u8,
        keys_len: usize,
        key_ends: *const usize,
        key_count: usize,
        befores: *const u8,
        befores_len: usize,
        afters: *const u8,
        afters_len: usize,
        missing: *mut u8,
        missing_room: usize,
        place: *mut usize,
    ) -> u8;
    pub fn tizulgech_verify_inversion(
        nodes: *const u8,
        nodes_len: usize,
        node_ends: *const usize,
        node_count: usize,
        before: *const u8,
        before_len: usize,
        after: *const u8,
        after_len: usize,
        keys: *const u8,
        keys_len: usize,
        key_ends: *const usize,
        key_count: usize,
        befores: *const u8,
        befores_len: usize,
        afters: *const u8,
        afters_len: usize,
        missing: *mut u8,
        missing_room: usize,
        place: *mut usize,
    ) -> u8;
    pub fn tizulgech_tree_root(
        keys: *const u8,
        keys_len: usize,
        ends: *const usize,
        count: usize,
        cids: *const u8,
        cids_len: usize,
        out: *mut u8,
        room: usize,
        nodes: *mut usize,
    ) -> u8;
    pub fn tizulgech_listing_car(
        did: *const u8,
        did_len: usize,
        rev: *const u8,
        rev_len: usize,
        keys: *const u8,
        keys_len: usize,
        key_ends: *const usize,
        key_count: usize,
        records: *const u8,
        records_len: usize,
        record_ends: *const usize,
        record_count: usize,
        out: *mut u8,
        room: usize,
        size: *mut usize,
    ) -> u8;
    pub fn tizulgech_node_entries(node: *const u8, len: usize, out: *mut u8, room: usize, size: *mut usize) -> u8;
    pub fn tizulgech_tree_prove_change(
        nodes: *const u8,
        nodes_len: usize,
        node_ends: *const usize,
        node_count: usize,
        cids: *const u8,
        cids_len: usize,
        root: *const u8,
        root_len: usize,
        keys: *const u8,
        keys_len: usize,
        key_ends: *const usize,
        key_count: usize,
        values: *const u8,
        values_len: usize,
        missing: *mut u8,
        missing_room: usize,
        out: *mut u8,
        room: usize,
        size: *mut usize,
    ) -> u8;
    pub fn tizulgech_difference(
        nodes: *const u8,
        nodes_len: usize,
        node_ends: *const usize,
        node_count: usize,
        cids: *const u8,
        cids_len: usize,
        before: *const u8,
        before_len: usize,
        after: *const u8,
        after_len: usize,
        missing: *mut u8,
        missing_room: usize,
        out: *mut u8,
        room: usize,
        size: *mut usize,
    ) -> u8;
    pub fn tizulgech_missing(
        nodes: *const u8,
        nodes_len: usize,
        node_ends: *const usize,
        node_count: usize,
        cids: *const u8,
        cids_len: usize,
        before: *const u8,
        before_len: usize,
        after: *const u8,
        after_len: usize,
        bad: *mut u8,
        bad_room: usize,
        out: *mut u8,
        room: usize,
        size: *mut usize,
    ) -> u8;
    pub fn tizulgech_record_json(bytes: *const u8, len: usize, out: *mut u8, room: usize, size: *mut usize) -> u8;
    pub fn tizulgech_json_record(text: *const u8, len: usize, out: *mut u8, room: usize, size: *mut usize) -> u8;
    pub fn tizulgech_link_text(cid: *const u8, len: usize, out: *mut u8, room: usize, size: *mut usize) -> u8;
    pub fn tizulgech_link_from_text(text: *const u8, len: usize, out: *mut u8, room: usize, size: *mut usize) -> u8;
    pub fn tizulgech_check_car(file: *const u8, len: usize, place: *mut usize, out: *mut u8, room: usize, size: *mut usize)
    -> u8;
    pub fn tizulgech_signed_commit(
        did: *const u8,
        did_len: usize,
        rev: *const u8,
        rev_len: usize,
        root: *const u8,
        root_len: usize,
        sig: *const u8,
        sig_len: usize,
        out: *mut u8,
        room: usize,
        size: *mut usize,
    ) -> u8;
    pub fn tizulgech_read_commit(bytes: *const u8, len: usize, out: *mut u8, room: usize, size: *mut usize) -> u8;
    pub fn tizulgech_file_head(root: *const u8, root_len: usize, out: *mut u8, room: usize, size: *mut usize) -> u8;
    pub fn tizulgech_file_section(
        cid: *const u8,
        cid_len: usize,
        block: *const u8,
        block_len: usize,
        out: *mut u8,
        room: usize,
        size: *mut usize,
    ) -> u8;
    pub fn tizulgech_next_tid(
        last: *const u8,
        last_len: usize,
        micros: u64,
        clock: u64,
        out: *mut u8,
        room: usize,
        size: *mut usize,
    ) -> u8;
    pub fn tizulgech_check_commit(
        previous: *const u8,
        previous_len: usize,
        message: *const u8,
        message_len: usize,
        place: *mut usize,
        missing: *mut u8,
        missing_room: usize,
        out: *mut u8,
        room: usize,
        size: *mut usize,
    ) -> u8;
    pub fn tizulgech_open(limit: usize, repository: *mut Raw) -> u8;
    pub fn tizulgech_open_car(limit: usize, file: *const u8, len: usize, repository: *mut Raw, place: *mut usize) -> u8;
    pub fn tizulgech_close(repository: *mut Raw);
    pub fn tizulgech_stage(
        repository: *mut Raw,
        kind: u8,
        key: *const u8,
        key_len: usize,
        record: *const u8,
        record_len: usize,
    ) -> u8;
    pub fn tizulgech_clear(repository: *mut Raw) -> u8;
    pub fn tizulgech_apply(
        repository: *mut Raw,
        did: *const u8,
        did_len: usize,
        rev: *const u8,
        rev_len: usize,
        place: *mut usize,
        root: *mut u8,
        root_room: usize,
        previous: *mut u8,
        previous_room: usize,
        commit: *mut u8,
        commit_room: usize,
    ) -> u8;
    pub fn tizulgech_get(repository: *mut Raw, key: *const u8, key_len: usize, out: *mut u8, room: usize, size: *mut usize)
    -> u8;
    pub fn tizulgech_list(
        repository: *mut Raw,
        from: *const u8,
        from_len: usize,
        most: usize,
        out: *mut u8,
        room: usize,
        size: *mut usize,
    ) -> u8;
    pub fn tizulgech_entries(
        repository: *mut Raw,
        from: *const u8,
        from_len: usize,
        most: usize,
        out: *mut u8,
        room: usize,
        size: *mut usize,
    ) -> u8;
    pub fn tizulgech_root(repository: *mut Raw, root: *mut u8, room: usize) -> u8;
    pub fn tizulgech_commit(repository: *mut Raw, commit: *mut u8, room: usize) -> u8;
    pub fn tizulgech_number(repository: *mut Raw, number: *mut u64) -> u8;
    pub fn tizulgech_car(repository: *mut Raw, out: *mut u8, room: usize, size: *mut usize) -> u8;
    pub fn tizulgech_car_length(repository: *mut Raw, length: *mut u64) -> u8;
    pub fn tizulgech_car_part(repository: *mut Raw, from: u64, out: *mut u8, room: usize, size: *mut usize) -> u8;
    pub fn tizulgech_car_head(repository: *mut Raw, out: *mut u8, room: usize, size: *mut usize) -> u8;
    pub fn tizulgech_car_section(
        repository: *mut Raw,
        cid: *const u8,
        cid_len: usize,
        out: *mut u8,
        room: usize,
        size: *mut usize,
    ) -> u8;
    pub fn tizulgech_prove(
        repository: *mut Raw,
        key: *const u8,
        key_len: usize,
        out: *mut u8,
        room: usize,
        size: *mut usize,
    ) -> u8;
    pub fn tizulgech_prove_change(
        repository: *mut Raw,
        keys: *const u8,
        keys_len: usize,
        key_ends: *const usize,
        key_count: usize,
        values: *const u8,
        values_len: usize,
        out: *mut u8,
        room: usize,
        size: *mut usize,
    ) -> u8;
    pub fn tizulgech_prove_inversion(
        repository: *mut Raw,
        keys: *const u8,
        keys_len: usize,
        key_ends: *const usize,
        key_count: usize,
        befores: *const u8,
        befores_len: usize,
        afters: *const u8,
        afters_len: usize,
        place: *mut usize,
        out: *mut u8,
        room: usize,
        size: *mut usize,
    ) -> u8;
    pub fn tizulgech_rev(repository: *mut Raw, out: *mut u8, room: usize, size: *mut usize) -> u8;
    pub fn tizulgech_preview(
        repository: *mut Raw,
        did: *const u8,
        did_len: usize,
        rev: *const u8,
        rev_len: usize,
        place: *mut usize,
        out: *mut u8,
        room: usize,
        size: *mut usize,
    ) -> u8;
    pub fn tizulgech_apply_signed(
        repository: *mut Raw,
        previous: *const u8,
        previous_len: usize,
        did: *const u8,
        did_len: usize,
        rev: *const u8,
        rev_len: usize,
        sig: *const u8,
        sig_len: usize,
        seq: u64,
        time: *const u8,
        time_len: usize,
        since: *const u8,
        since_len: usize,
        place: *mut usize,
        out: *mut u8,
        room: usize,
        size: *mut usize,
    ) -> u8;
}

pub type Cid = [u8; 36];

/// Parts one after another, and where each ends.
#[derive(Clone, Copy)]
pub struct Parts<'a> {
    pub bytes: &'a [u8],
    pub ends: &'a [usize],
}

/// Changes of keys: these, with 36 bytes for each in both lists, what it had and what it has.
#[derive(Clone, Copy)]
pub struct Told<'a> {
    pub keys: Parts<'a>,
    pub befores: &'a [u8],
    pub afters: &'a [u8],
}

pub fn version() -> u64 {
    // SAFETY: a number.
    unsafe { tizulgech_version() }
}

pub fn record_fault(bytes: &[u8]) -> u8 {
    // SAFETY: slices; see the head of this file, here and below.
    unsafe { tizulgech_record_fault(bytes.as_ptr(), bytes.len()) }
}

pub fn write_fault(kind: u8, there: bool, key: &[u8], record: &[u8]) -> u8 {
    // SAFETY: as above.
    unsafe { tizulgech_write_fault(kind, there, key.as_ptr(), key.len(), record.as_ptr(), record.len()) }
}

pub fn below(node: &[u8], keys: Parts<'_>, values: &[u8], out: &mut [u8], size: &mut usize) -> u8 {
    // SAFETY: as above.
    unsafe {
        tizulgech_below(
            node.as_ptr(),
            node.len(),
            keys.bytes.as_ptr(),
            keys.bytes.len(),
            keys.ends.as_ptr(),
            keys.ends.len(),
            values.as_ptr(),
            values.len(),
            out.as_mut_ptr(),
            out.len(),
            size,
        )
    }
}

pub fn links(node: &[u8], out: &mut [u8], size: &mut usize) -> u8 {
    // SAFETY: as above.
    unsafe { tizulgech_links(node.as_ptr(), node.len(), out.as_mut_ptr(), out.len(), size) }
}

pub fn layer(key: &[u8]) -> u16 {
    // SAFETY: as above.
    unsafe { tizulgech_layer(key.as_ptr(), key.len()) }
}

pub fn is_key(key: &[u8]) -> bool {
    // SAFETY: as above.
    unsafe { tizulgech_is_key(key.as_ptr(), key.len()) }
}

pub fn is_repository_key(key: &[u8]) -> bool {
    // SAFETY: as above.
    unsafe { tizulgech_is_repository_key(key.as_ptr(), key.len()) }
}

pub fn cid(block: &[u8], out: &mut Cid) {
    // SAFETY: as above, and room for the 36 bytes that the call wants.
    unsafe { tizulgech_cid(block.as_ptr(), block.len(), out.as_mut_ptr(), 36) }
}

pub fn cids(blocks: Parts<'_>, out: &mut [u8], size: &mut usize) -> u8 {
    // SAFETY: as above.
    unsafe {
        tizulgech_cids(
            blocks.bytes.as_ptr(),
            blocks.bytes.len(),
            blocks.ends.as_ptr(),
            blocks.ends.len(),
            out.as_mut_ptr(),
            out.len(),
            size,
        )
    }
}

pub fn cid_text(cid: &Cid, out: &mut [u8; 59]) -> bool {
    // SAFETY: as above, with 36 bytes and room for 59.
    unsafe { tizulgech_cid_text(cid.as_ptr(), 36, out.as_mut_ptr(), 59) }
}

pub fn cid_from_text(text: &[u8], out: &mut Cid) -> u8 {
    // SAFETY: as above, and room for 36 bytes.
    unsafe { tizulgech_cid_from_text(text.as_ptr(), text.len(), out.as_mut_ptr(), 36) }
}

pub fn step(node: &[u8], key: &[u8], out: &mut Cid) -> u8 {
    // SAFETY: as above, and room for 36 bytes.
    unsafe { tizulgech_step(node.as_ptr(), node.len(), key.as_ptr(), key.len(), out.as_mut_ptr(), 36) }
}

pub fn is_did(did: &[u8]) -> bool {
    // SAFETY: as above.
    unsafe { tizulgech_is_did(did.as_ptr(), did.len()) }
}

pub fn is_tid(rev: &[u8]) -> bool {
    // SAFETY: as above.
    unsafe { tizulgech_is_tid(rev.as_ptr(), rev.len()) }
}

pub fn stamp_fault(before: &[u8], did: &[u8], rev: &[u8]) -> u8 {
    // SAFETY: as above.
    unsafe { tizulgech_stamp_fault(before.as_ptr(), before.len(), did.as_ptr(), did.len(), rev.as_ptr(), rev.len()) }
}

pub fn commit_bytes(did: &[u8], rev: &[u8], root: &Cid, out: &mut [u8], size: &mut usize) -> u8 {
    // SAFETY: as above.
    unsafe {
        tizulgech_commit_bytes(
            did.as_ptr(),
            did.len(),
            rev.as_ptr(),
            rev.len(),
            root.as_ptr(),
            36,
            out.as_mut_ptr(),
            out.len(),
            size,
        )
    }
}

/// The CIDs are those of the first nodes, 36 bytes each; whoever calls owes that.
pub fn tree_apply(
    nodes: Parts<'_>,
    cids: &[u8],
    root: &Cid,
    keys: Parts<'_>,
    values: &[u8],
    missing: &mut Cid,
    out: &mut [u8],
    size: &mut usize,
) -> u8 {
    // SAFETY: as above, and room for 36 bytes.
    unsafe {
        tizulgech_tree_apply(
            nodes.bytes.as_ptr(),
            nodes.bytes.len(),
            nodes.ends.as_ptr(),
            nodes.ends.len(),
            cids.as_ptr(),
            cids.len(),
            root.as_ptr(),
            36,
            keys.bytes.as_ptr(),
            keys.bytes.len(),
            keys.ends.as_ptr(),
            keys.ends.len(),
            values.as_ptr(),
            values.len(),
            missing.as_mut_ptr(),
            36,
            out.as_mut_ptr(),
            out.len(),
            size,
        )
    }
}

pub fn node_entries(node: &[u8], out: &mut [u8], size: &mut usize) -> u8 {
    // SAFETY: as above.
    unsafe { tizulgech_node_entries(node.as_ptr(), node.len(), out.as_mut_ptr(), out.len(), size) }
}

pub fn tree_prove_change(
    nodes: Parts<'_>,
    cids: &[u8],
    root: &Cid,
    keys: Parts<'_>,
    values: &[u8],
    missing: &mut Cid,
    out: &mut [u8],
    size: &mut usize,
) -> u8 {
    // SAFETY: as above, and room for 36 bytes.
    unsafe {
        tizulgech_tree_prove_change(
            nodes.bytes.as_ptr(),
            nodes.bytes.len(),
            nodes.ends.as_ptr(),
            nodes.ends.len(),
            cids.as_ptr(),
            cids.len(),
            root.as_ptr(),
            36,
            keys.bytes.as_ptr(),
            keys.bytes.len(),
            keys.ends.as_ptr(),
            keys.ends.len(),
            values.as_ptr(),
            values.len(),
            missing.as_mut_ptr(),
            36,
            out.as_mut_ptr(),
            out.len(),
            size,
        )
    }
}

pub fn difference(
    nodes: Parts<'_>,
    cids: &[u8],
    before: &Cid,
    after: &Cid,
    missing: &mut Cid,
    out: &mut [u8],
    size: &mut usize,
) -> u8 {
    // SAFETY: as above, and room for 36 bytes.
    unsafe {
        tizulgech_difference(
            nodes.bytes.as_ptr(),
            nodes.bytes.len(),
            nodes.ends.as_ptr(),
            nodes.ends.len(),
            cids.as_ptr(),
            cids.len(),
            before.as_ptr(),
            36,
            after.as_ptr(),
            36,
            missing.as_mut_ptr(),
            36,
            out.as_mut_ptr(),
            out.len(),
            size,
        )
    }
}

pub fn missing(nodes: Parts<'_>, cids: &[u8], before: &Cid, after: &Cid, bad: &mut Cid, out: &mut [u8], size: &mut usize) -> u8 {
    // SAFETY: as above, and room for 36 bytes.
    unsafe {
        tizulgech_missing(
            nodes.bytes.as_ptr(),
            nodes.bytes.len(),
            nodes.ends.as_ptr(),
            nodes.ends.len(),
            cids.as_ptr(),
            cids.len(),
            before.as_ptr(),
            36,
            after.as_ptr(),
            36,
            bad.as_mut_ptr(),
            36,
            out.as_mut_ptr(),
            out.len(),
            size,
        )
    }
}

pub fn record_json(bytes: &[u8], out: &mut [u8], size: &mut usize) -> u8 {
    // SAFETY: as above.
    unsafe { tizulgech_record_json(bytes.as_ptr(), bytes.len(), out.as_mut_ptr(), out.len(), size) }
}

pub fn json_record(text: &[u8], out: &mut [u8], size: &mut usize) -> u8 {
    // SAFETY: as above.
    unsafe { tizulgech_json_record(text.as_ptr(), text.len(), out.as_mut_ptr(), out.len(), size) }
}

pub fn link_text(cid: &[u8], out: &mut [u8], size: &mut usize) -> u8 {
    // SAFETY: as above.
    unsafe { tizulgech_link_text(cid.as_ptr(), cid.len(), out.as_mut_ptr(), out.len(), size) }
}

pub fn link_from_text(text: &[u8], out: &mut [u8], size: &mut usize) -> u8 {
    // SAFETY: as above.
    unsafe { tizulgech_link_from_text(text.as_ptr(), text.len(), out.as_mut_ptr(), out.len(), size) }
}

pub fn check_car(file: &[u8], place: &mut usize, out: &mut [u8], size: &mut usize) -> u8 {
    // SAFETY: as above.
    unsafe { tizulgech_check_car(file.as_ptr(), file.len(), place, out.as_mut_ptr(), out.len(), size) }
}

pub fn verify(blocks: Parts<'_>, root: &Cid, key: &[u8], value: &mut Cid) -> u8 {
    // SAFETY: as above, and room for 36 bytes.
    unsafe {
        tizulgech_verify(
            blocks.bytes.as_ptr(),
            blocks.bytes.len(),
            blocks.ends.as_ptr(),
            blocks.ends.len(),
            root.as_ptr(),
            36,
            key.as_ptr(),
            key.len(),
            value.as_mut_ptr(),
            36,
        )
    }
}

pub fn verify_change(nodes: Parts<'_>, before: &Cid, after: &Cid, told: Told<'_>, missing: &mut Cid, place: &mut usize) -> u8 {
    // SAFETY: as above, and room for 36 bytes.
    unsafe {
        tizulgech_verify_change(
            nodes.bytes.as_ptr(),
            nodes.bytes.len(),
            nodes.ends.as_ptr(),
            nodes.ends.len(),
            before.as_ptr(),
            36,
            after.as_ptr(),
            36,
            told.keys.bytes.as_ptr(),
            told.keys.bytes.len(),
            told.keys.ends.as_ptr(),
            told.keys.ends.len(),
            told.befores.as_ptr(),
            told.befores.len(),
            told.afters.as_ptr(),
            told.afters.len(),
            missing.as_mut_ptr(),
            36,
            place,
        )
    }
}

pub fn verify_inversion(nodes: Parts<'_>, before: &Cid, after: &Cid, told: Told<'_>, missing: &mut Cid, place: &mut usize) -> u8 {
    // SAFETY: as above.
    unsafe {
        tizulgech_verify_inversion(
            nodes.bytes.as_ptr(),
            nodes.bytes.len(),
            nodes.ends.as_ptr(),
            nodes.ends.len(),
            before.as_ptr(),
            36,
            after.as_ptr(),
            36,
            told.keys.bytes.as_ptr(),
            told.keys.bytes.len(),
            told.keys.ends.as_ptr(),
            told.keys.ends.len(),
            told.befores.as_ptr(),
            told.befores.len(),
            told.afters.as_ptr(),
            told.afters.len(),
            missing.as_mut_ptr(),
            36,
            place,
        )
    }
}

pub fn tree_root(keys: Parts<'_>, cids: &[u8], out: &mut Cid, nodes: &mut usize) -> u8 {
    // SAFETY: as above, and room for 36 bytes.
    unsafe {
        tizulgech_tree_root(
            keys.bytes.as_ptr(),
            keys.bytes.len(),
            keys.ends.as_ptr(),
            keys.ends.len(),
            cids.as_ptr(),
            cids.len(),
            out.as_mut_ptr(),
            36,
            nodes,
        )
    }
}

pub fn listing_car(did: &[u8], rev: &[u8], keys: Parts<'_>, records: Parts<'_>, out: &mut [u8], size: &mut usize) -> u8 {
    // SAFETY: as above.
    unsafe {
        tizulgech_listing_car(
            did.as_ptr(),
            did.len(),
            rev.as_ptr(),
            rev.len(),
            keys.bytes.as_ptr(),
            keys.bytes.len(),
            keys.ends.as_ptr(),
            keys.ends.len(),
            records.bytes.as_ptr(),
            records.bytes.len(),
            records.ends.as_ptr(),
            records.ends.len(),
            out.as_mut_ptr(),
            out.len(),
            size,
        )
    }
}

pub fn signed_commit(did: &[u8], rev: &[u8], root: &Cid, sig: &[u8], out: &mut [u8], size: &mut usize) -> u8 {
    // SAFETY: as above.
    unsafe {
        tizulgech_signed_commit(
            did.as_ptr(),
            did.len(),
            rev.as_ptr(),
            rev.len(),
            root.as_ptr(),
            36,
            sig.as_ptr(),
            sig.len(),
            out.as_mut_ptr(),
            out.len(),
            size,
        )
    }
}

pub fn read_commit(bytes: &[u8], out: &mut [u8], size: &mut usize) -> u8 {
    // SAFETY: as above.
    unsafe { tizulgech_read_commit(bytes.as_ptr(), bytes.len(), out.as_mut_ptr(), out.len(), size) }
}

pub fn file_head(root: &Cid, out: &mut [u8], size: &mut usize) -> u8 {
    // SAFETY: as above.
    unsafe { tizulgech_file_head(root.as_ptr(), 36, out.as_mut_ptr(), out.len(), size) }
}

pub fn file_section(cid: &Cid, block: &[u8], out: &mut [u8], size: &mut usize) -> u8 {
    // SAFETY: as above.
    unsafe { tizulgech_file_section(cid.as_ptr(), 36, block.as_ptr(), block.len(), out.as_mut_ptr(), out.len(), size) }
}

pub fn next_tid(last: &[u8], micros: u64, clock: u64, out: &mut [u8], size: &mut usize) -> u8 {
    // SAFETY: as above.
    unsafe { tizulgech_next_tid(last.as_ptr(), last.len(), micros, clock, out.as_mut_ptr(), out.len(), size) }
}

pub fn check_commit(
    previous: &Cid,
    message: &[u8],
    place: &mut usize,
    missing: &mut Cid,
    out: &mut [u8],
    size: &mut usize,
) -> u8 {
    // SAFETY: as above, and room for 36 bytes.
    unsafe {
        tizulgech_check_commit(
            previous.as_ptr(),
            36,
            message.as_ptr(),
            message.len(),
            place,
            missing.as_mut_ptr(),
            36,
            out.as_mut_ptr(),
            out.len(),
            size,
        )
    }
}

/// A repository that is open, until it is dropped.
///
/// Calls that only read write to it too, while they run. So it isn't `Sync`; and since no call calls back, one call at a
/// time has it.
pub struct Handle {
    raw: UnsafeCell<Raw>,
}

// SAFETY: that what stands behind the pointer may go to another thread is proved in the library (`Send` of its `Handle`), and
// its calls ask for no thread of their own.
unsafe impl Send for Handle {}

impl Handle {
    pub fn open(limit: usize) -> Result<Handle, u8> {
        let mut raw = Raw { is_open: false, at: null_mut() };
        // SAFETY: a repository that isn't open.
        match unsafe { tizulgech_open(limit, &mut raw) } {
            0 => Ok(Handle { raw: UnsafeCell::new(raw) }),
            number => Err(number),
        }
    }

    pub fn open_car(limit: usize, file: &[u8], place: &mut usize) -> Result<Handle, u8> {
        let mut raw = Raw { is_open: false, at: null_mut() };
        // SAFETY: a repository that isn't open, and a slice.
        match unsafe { tizulgech_open_car(limit, file.as_ptr(), file.len(), &mut raw, place) } {
            0 => Ok(Handle { raw: UnsafeCell::new(raw) }),
            number => Err(number),
        }
    }

    pub fn stage(&mut self, kind: u8, key: &[u8], record: &[u8]) -> u8 {
        // SAFETY: an open repository that no other call has, here and below; and slices.
        unsafe { tizulgech_stage(self.raw.get(), kind, key.as_ptr(), key.len(), record.as_ptr(), record.len()) }
    }

    pub fn clear(&mut self) -> u8 {
        // SAFETY: as above.
        unsafe { tizulgech_clear(self.raw.get()) }
    }

    pub fn apply(
        &mut self,
        did: &[u8],
        rev: &[u8],
        place: &mut usize,
        root: &mut Cid,
        previous: &mut Cid,
        commit: &mut Cid,
    ) -> u8 {
        // SAFETY: as above, and room for three times 36 bytes.
        unsafe {
            tizulgech_apply(
                self.raw.get(),
                did.as_ptr(),
                did.len(),
                rev.as_ptr(),
                rev.len(),
                place,
                root.as_mut_ptr(),
                36,
                previous.as_mut_ptr(),
                36,
                commit.as_mut_ptr(),
                36,
            )
        }
    }

    pub fn get(&self, key: &[u8], out: &mut [u8], size: &mut usize) -> u8 {
        // SAFETY: as above.
        unsafe { tizulgech_get(self.raw.get(), key.as_ptr(), key.len(), out.as_mut_ptr(), out.len(), size) }
    }

    pub fn list(&self, from: &[u8], most: usize, out: &mut [u8], size: &mut usize) -> u8 {
        // SAFETY: as above.
        unsafe { tizulgech_list(self.raw.get(), from.as_ptr(), from.len(), most, out.as_mut_ptr(), out.len(), size) }
    }

    pub fn entries(&self, from: &[u8], most: usize, out: &mut [u8], size: &mut usize) -> u8 {
        // SAFETY: as above.
        unsafe { tizulgech_entries(self.raw.get(), from.as_ptr(), from.len(), most, out.as_mut_ptr(), out.len(), size) }
    }

    pub fn root(&self, root: &mut Cid) -> u8 {
        // SAFETY: as above, and room for 36 bytes.
        unsafe { tizulgech_root(self.raw.get(), root.as_mut_ptr(), 36) }
    }

    pub fn commit(&self, commit: &mut Cid) -> u8 {
        // SAFETY: as above, and room for 36 bytes.
        unsafe { tizulgech_commit(self.raw.get(), commit.as_mut_ptr(), 36) }
    }

    pub fn number(&self, number: &mut u64) -> u8 {
        // SAFETY: as above.
        unsafe { tizulgech_number(self.raw.get(), number) }
    }

    pub fn car(&self, out: &mut [u8], size: &mut usize) -> u8 {
        // SAFETY: as above.
        unsafe { tizulgech_car(self.raw.get(), out.as_mut_ptr(), out.len(), size) }
    }

    pub fn car_length(&self, length: &mut u64) -> u8 {
        // SAFETY: as above.
        unsafe { tizulgech_car_length(self.raw.get(), length) }
    }

    pub fn car_part(&self, from: u64, out: &mut [u8], size: &mut usize) -> u8 {
        // SAFETY: as above.
        unsafe { tizulgech_car_part(self.raw.get(), from, out.as_mut_ptr(), out.len(), size) }
    }

    pub fn car_head(&self, out: &mut [u8], size: &mut usize) -> u8 {
        // SAFETY: as above.
        unsafe { tizulgech_car_head(self.raw.get(), out.as_mut_ptr(), out.len(), size) }
    }

    pub fn car_section(&self, cid: &Cid, out: &mut [u8], size: &mut usize) -> u8 {
        // SAFETY: as above.
        unsafe { tizulgech_car_section(self.raw.get(), cid.as_ptr(), 36, out.as_mut_ptr(), out.len(), size) }
    }

    pub fn prove(&self, key: &[u8], out: &mut [u8], size: &mut usize) -> u8 {
        // SAFETY: as above.
        unsafe { tizulgech_prove(self.raw.get(), key.as_ptr(), key.len(), out.as_mut_ptr(), out.len(), size) }
    }

    pub fn rev(&self, out: &mut [u8], size: &mut usize) -> u8 {
        // SAFETY: as above.
        unsafe { tizulgech_rev(self.raw.get(), out.as_mut_ptr(), out.len(), size) }
    }

    pub fn preview(&self, did: &[u8], rev: &[u8], place: &mut usize, out: &mut [u8], size: &mut usize) -> u8 {
        // SAFETY: as above.
        unsafe {
            tizulgech_preview(
                self.raw.get(),
                did.as_ptr(),
                did.len(),
                rev.as_ptr(),
                rev.len(),
                place,
                out.as_mut_ptr(),
                out.len(),
                size,
            )
        }
    }

    pub fn apply_signed(
        &mut self,
        previous: &Cid,
        did: &[u8],
        rev: &[u8],
        sig: &[u8],
        seq: u64,
        time: &[u8],
        since: &[u8],
        place: &mut usize,
        out: &mut [u8],
        size: &mut usize,
    ) -> u8 {
        // SAFETY: as above.
        unsafe {
            tizulgech_apply_signed(
                self.raw.get(),
                previous.as_ptr(),
                36,
                did.as_ptr(),
                did.len(),
                rev.as_ptr(),
                rev.len(),
                sig.as_ptr(),
                sig.len(),
                seq,
                time.as_ptr(),
                time.len(),
                since.as_ptr(),
                since.len(),
                place,
                out.as_mut_ptr(),
                out.len(),
                size,
            )
        }
    }

    pub fn prove_change(&self, keys: Parts<'_>, values: &[u8], out: &mut [u8], size: &mut usize) -> u8 {
        // SAFETY: as above.
        unsafe {
            tizulgech_prove_change(
                self.raw.get(),
                keys.bytes.as_ptr(),
                keys.bytes.len(),
                keys.ends.as_ptr(),
                keys.ends.len(),
                values.as_ptr(),
                values.len(),
                out.as_mut_ptr(),
                out.len(),
                size,
            )
        }
    }

    pub fn prove_inversion(&self, told: Told<'_>, place: &mut usize, out: &mut [u8], size: &mut usize) -> u8 {
        // SAFETY: as above.
        unsafe {
            tizulgech_prove_inversion(
                self.raw.get(),
                told.keys.bytes.as_ptr(),
                told.keys.bytes.len(),
                told.keys.ends.as_ptr(),
                told.keys.ends.len(),
                told.befores.as_ptr(),
                told.befores.len(),
                told.afters.as_ptr(),
                told.afters.len(),
                place,
                out.as_mut_ptr(),
                out.len(),
                size,
            )
        }
    }
}

impl Drop for Handle {
    fn drop(&mut self) {
        // SAFETY: an open repository, for the last time.
        unsafe { tizulgech_close(self.raw.get()) }
    }
}
