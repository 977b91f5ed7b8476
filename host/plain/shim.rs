//! C entry points of the plain implementation. With `--cfg as_pedralume` they carry the archive's
//! names, so that the drivers can be tried before there is an archive.

mod plain;

/// A buffer of length 0 may have any pointer, null included.
///
/// # Safety
/// The pointer has its length of bytes behind it.
unsafe fn lent<'a>(pointer: *const u8, length: usize) -> &'a [u8] {
    if length == 0 { &[] } else { unsafe { std::slice::from_raw_parts(pointer, length) } }
}

/// # Safety
/// As for `lent`, and nobody else has these bytes.
unsafe fn lent_mut<'a>(pointer: *mut u8, length: usize) -> &'a mut [u8] {
    if length == 0 { &mut [] } else { unsafe { std::slice::from_raw_parts_mut(pointer, length) } }
}

/// # Safety
/// Each pointer has its length of bytes behind it; no two buffers overlap.
#[cfg_attr(as_pedralume, unsafe(export_name = "pedralume_replay"))]
#[cfg_attr(not(as_pedralume), unsafe(export_name = "plain_replay"))]
pub unsafe extern "C" fn replay(
    chips: *mut u8,
    chips_len: usize,
    ram: *mut u8,
    ram_len: usize,
    trace: *const u8,
    trace_len: usize,
    answers: *mut u8,
    answers_len: usize,
) -> u64 {
    unsafe {
        plain::replay(
            lent_mut(chips, chips_len),
            lent_mut(ram, ram_len),
            lent(trace, trace_len),
            lent_mut(answers, answers_len),
        )
    }
}

/// # Safety
/// As for `replay`.
#[cfg_attr(as_pedralume, unsafe(export_name = "pedralume_frame"))]
#[cfg_attr(not(as_pedralume), unsafe(export_name = "plain_frame"))]
pub unsafe extern "C" fn frame(
    chips: *const u8,
    chips_len: usize,
    ram: *const u8,
    ram_len: usize,
    frame: *mut u8,
    frame_len: usize,
) -> u64 {
    unsafe {
        plain::frame(
            lent(chips, chips_len),
            lent(ram, ram_len),
            lent_mut(frame, frame_len),
        )
    }
}

/// # Safety
/// As for `replay`.
#[cfg_attr(as_pedralume, unsafe(export_name = "pedralume_repaint"))]
#[cfg_attr(not(as_pedralume), unsafe(export_name = "plain_repaint"))]
pub unsafe extern "C" fn repaint(
    chips: *const u8,
    chips_len: usize,
    picture: *const u8,
    picture_len: usize,
    output: *mut u8,
    output_len: usize,
) -> u64 {
    unsafe {
        plain::repaint(
            lent(chips, chips_len),
            lent(picture, picture_len),
            lent_mut(output, output_len),
        )
    }
}

/// # Safety
/// As for `replay`.
#[cfg_attr(as_pedralume, unsafe(export_name = "pedralume_sparing_repaint"))]
#[cfg_attr(not(as_pedralume), unsafe(export_name = "plain_sparing_repaint"))]
pub unsafe extern "C" fn sparing_repaint(
    chips: *const u8,
    chips_len: usize,
    ram: *const u8,
    ram_len: usize,
    picture: *const u8,
    picture_len: usize,
    output: *mut u8,
    output_len: usize,
) -> u64 {
    unsafe {
        plain::sparing_repaint(
            lent(chips, chips_len),
            lent(ram, ram_len),
            lent(picture, picture_len),
            lent_mut(output, output_len),
        )
    }
}

/// # Safety
/// As for `replay`.
#[cfg_attr(as_pedralume, unsafe(export_name = "pedralume_feed_open"))]
#[cfg_attr(not(as_pedralume), unsafe(export_name = "plain_feed_open"))]
pub unsafe extern "C" fn feed_open(feed: *mut u8, feed_len: usize, chips: *const u8, chips_len: usize) -> u64 {
    unsafe { plain::feed_open(lent_mut(feed, feed_len), lent(chips, chips_len)) }
}

/// # Safety
/// As for `replay`.
#[cfg_attr(as_pedralume, unsafe(export_name = "pedralume_feed_part"))]
#[cfg_attr(not(as_pedralume), unsafe(export_name = "plain_feed_part"))]
pub unsafe extern "C" fn feed_part(
    feed: *mut u8,
    feed_len: usize,
    ram: *mut u8,
    ram_len: usize,
    part: *const u8,
    part_len: usize,
    answers: *mut u8,
    answers_len: usize,
) -> u64 {
    unsafe {
        plain::feed_part(
            lent_mut(feed, feed_len),
            lent_mut(ram, ram_len),
            lent(part, part_len),
            lent_mut(answers, answers_len),
        )
    }
}

/// # Safety
/// As for `replay`.
#[cfg_attr(as_pedralume, unsafe(export_name = "pedralume_feed_close"))]
#[cfg_attr(not(as_pedralume), unsafe(export_name = "plain_feed_close"))]
pub unsafe extern "C" fn feed_close(feed: *mut u8, feed_len: usize) -> u64 {
    unsafe { plain::feed_close(lent_mut(feed, feed_len)) }
}

/// # Safety
/// As for `replay`.
#[cfg_attr(as_pedralume, unsafe(export_name = "pedralume_changes"))]
#[cfg_attr(not(as_pedralume), unsafe(export_name = "plain_changes"))]
pub unsafe extern "C" fn changes(
    chips: *const u8,
    chips_len: usize,
    ram: *const u8,
    ram_len: usize,
    trace: *const u8,
    trace_len: usize,
    entries: *mut u8,
    entries_len: usize,
) -> u64 {
    unsafe {
        plain::changes(
            lent(chips, chips_len),
            lent(ram, ram_len),
            lent(trace, trace_len),
            lent_mut(entries, entries_len),
        )
    }
}

/// The version that the header's macros have.
#[cfg(as_pedralume)]
#[unsafe(export_name = "pedralume_version")]
pub extern "C" fn version() -> u64 {
    10300
}
