//! The C entries with slices for pointers and lengths: bytes in, numbers out, nothing read into them. They are
//! safe to call with any bytes and any options, because every input is answered.

use crate::Switches;

/// A bit of the options of [`convert_with`]: arrow functions become functions.
pub const ARROW: u32 = 1;
/// A bit of the options: async functions and async arrows will be moved.
pub const ASYNC_TO_GENERATOR: u32 = 2;
/// A bit of the options: async generators will be moved.
pub const ASYNC_GENERATORS: u32 = 4;
/// A bit of the options: a tablet calls, with its smaller limits.
pub const TABLET: u32 = 8;

/// The refusal of [`spelling`], which has no other.
pub const NO_SPELLING: u32 = 18;

/// What `thawcopper_convert` and `thawcopper_convert_with` return: the request's number and place, and the counts.
#[repr(C)]
#[derive(Clone, Copy, Debug, PartialEq, Eq)]
pub struct Answer {
    pub refusal: u32,
    pub place: u32,
    pub rows: u32,
    pub bindings: u32,
}

/// What `thawcopper_base_text` returns.
#[repr(C)]
#[derive(Clone, Copy, Debug, PartialEq, Eq)]
pub struct Spelled {
    pub refusal: u32,
    pub place: u32,
    pub bytes: u32,
}

/// What `thawcopper_make_names` returns: the request's number and place, and how many pairs and bytes were written.
#[repr(C)]
#[derive(Clone, Copy, Debug, PartialEq, Eq)]
pub struct Named {
    pub refusal: u32,
    pub place: u32,
    pub pairs: u32,
    pub bytes: u32,
}

/// What `thawcopper_spelling` returns: [`NO_SPELLING`] or 0, and a part of the script's text or of the made text.
#[repr(C)]
#[derive(Clone, Copy, Debug, PartialEq, Eq)]
pub struct Part {
    pub refusal: u32,
    pub start: u32,
    pub bytes: u32,
}

extern "C" {
    fn thawcopper_convert(
        arrow: u32,
        async_to_generator: u32,
        async_generator_functions: u32,
        rows: *const u8,
        rows_len: usize,
        names: *const u8,
        names_len: usize,
        text: *const u8,
        text_len: usize,
        out_rows: *mut u8,
        out_rows_len: usize,
        out_bindings: *mut u8,
        out_bindings_len: usize,
    ) -> Answer;

    fn thawcopper_convert_with(
        options: u32,
        rows: *const u8,
        rows_len: usize,
        names: *const u8,
        names_len: usize,
        text: *const u8,
        text_len: usize,
        out_rows: *mut u8,
        out_rows_len: usize,
        out_bindings: *mut u8,
        out_bindings_len: usize,
    ) -> Answer;

    fn thawcopper_base_text(
        number: u32,
        bindings: *const u8,
        bindings_len: usize,
        names: *const u8,
        names_len: usize,
        text: *const u8,
        text_len: usize,
        out: *mut u8,
        out_len: usize,
    ) -> Spelled;

    fn thawcopper_make_names(
        bindings: *const u8,
        bindings_len: usize,
        names: *const u8,
        names_len: usize,
        text: *const u8,
        text_len: usize,
        out_pairs: *mut u8,
        out_pairs_len: usize,
        out_text: *mut u8,
        out_text_len: usize,
    ) -> Named;

    fn thawcopper_spelling(
        attr: u32,
        number: u32,
        names: *const u8,
        names_len: usize,
        text: *const u8,
        text_len: usize,
        made_pairs: *const u8,
        made_pairs_len: usize,
        made_text: *const u8,
        made_text_len: usize,
    ) -> Part;
}

/// `thawcopper_convert`: as the print room.
pub fn convert(
    switches: &Switches,
    rows: &[u8],
    names: &[u8],
    text: &[u8],
    out_rows: &mut [u8],
    out_bindings: &mut [u8],
) -> Answer {
    // SAFETY: each pointer and length is that of a slice that is borrowed for the call, the written ones for writing.
    unsafe {
        thawcopper_convert(
            switches.arrow.into(),
            switches.async_to_generator.into(),
            switches.async_generator_functions.into(),
            rows.as_ptr(),
            rows.len(),
            names.as_ptr(),
            names.len(),
            text.as_ptr(),
            text.len(),
            out_rows.as_mut_ptr(),
            out_rows.len(),
            out_bindings.as_mut_ptr(),
            out_bindings.len(),
        )
    }
}

/// `thawcopper_convert_with`: the options are bits of one word, [`ARROW`] to [`TABLET`]. A bit without a name is not
/// looked at. [`Options::bits`](crate::Options::bits) makes the word.
pub fn convert_with(
    options: u32,
    rows: &[u8],
    names: &[u8],
    text: &[u8],
    out_rows: &mut [u8],
    out_bindings: &mut [u8],
) -> Answer {
    // SAFETY: as above.
    unsafe {
        thawcopper_convert_with(
            options,
            rows.as_ptr(),
            rows.len(),
            names.as_ptr(),
            names.len(),
            text.as_ptr(),
            text.len(),
            out_rows.as_mut_ptr(),
            out_rows.len(),
            out_bindings.as_mut_ptr(),
            out_bindings.len(),
        )
    }
}

/// `thawcopper_base_text`.
pub fn base_text(number: u32, bindings: &[u8], names: &[u8], text: &[u8], out: &mut [u8]) -> Spelled {
    // SAFETY: as above.
    unsafe {
        thawcopper_base_text(
            number,
            bindings.as_ptr(),
            bindings.len(),
            names.as_ptr(),
            names.len(),
            text.as_ptr(),
            text.len(),
            out.as_mut_ptr(),
            out.len(),
        )
    }
}

/// `thawcopper_make_names`: the names of all bindings end to end at the front of `out_text`, and for each binding its
/// pair at the front of `out_pairs`, 8 bytes.
pub fn make_names(bindings: &[u8], names: &[u8], text: &[u8], out_pairs: &mut [u8], out_text: &mut [u8]) -> Named {
    // SAFETY: as above.
    unsafe {
        thawcopper_make_names(
            bindings.as_ptr(),
            bindings.len(),
            names.as_ptr(),
            names.len(),
            text.as_ptr(),
            text.len(),
            out_pairs.as_mut_ptr(),
            out_pairs.len(),
            out_text.as_mut_ptr(),
            out_text.len(),
        )
    }
}

/// `thawcopper_spelling`: the part of `text` that pair `number` of `names` says where attr is 0, and of `made_text` by
/// `made_pairs` where it is 1.
pub fn spelling(attr: u32, number: u32, names: &[u8], text: &[u8], made_pairs: &[u8], made_text: &[u8]) -> Part {
    // SAFETY: as above; nothing is written.
    unsafe {
        thawcopper_spelling(
            attr,
            number,
            names.as_ptr(),
            names.len(),
            text.as_ptr(),
            text.len(),
            made_pairs.as_ptr(),
            made_pairs.len(),
            made_text.as_ptr(),
            made_text.len(),
        )
    }
}
