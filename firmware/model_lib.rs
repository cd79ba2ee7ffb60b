//! The model behind the functions of wilbryn.h, so that the C checks can run on it.

#[allow(dead_code)]
mod model;

use model::Form;
use std::slice::{from_raw_parts, from_raw_parts_mut};

/// Exports the calls on images of a form under these names.
macro_rules! export {
    (
        $form:expr,
        $fresh:ident,
        $check:ident,
        $milking:ident,
        $heard:ident,
        $settled:ident,
        $meeting:ident,
        $panel:ident
    ) => {
        #[no_mangle]
        unsafe extern "C" fn $fresh(image: *mut u8, len: usize, n: u8, stall: u8) -> u32 {
            $form.fresh(from_raw_parts_mut(image, len), n, stall)
        }

        #[no_mangle]
        unsafe extern "C" fn $check(image: *const u8, len: usize) -> u32 {
            $form.check(from_raw_parts(image, len))
        }

        #[no_mangle]
        unsafe extern "C" fn $milking(image: *mut u8, len: usize, new: u16) -> u32 {
            $form.milking(from_raw_parts_mut(image, len), new)
        }

        #[no_mangle]
        unsafe extern "C" fn $heard(
            image: *const u8,
            len: usize,
            records: *mut u8,
            records_len: usize,
        ) -> u32 {
            $form.heard(from_raw_parts(image, len), from_raw_parts_mut(records, records_len))
        }

        #[no_mangle]
        unsafe extern "C" fn $settled(
            image: *const u8,
            len: usize,
            counts: *mut u8,
            counts_len: usize,
        ) -> u32 {
            $form.settled(from_raw_parts(image, len), from_raw_parts_mut(counts, counts_len))
        }

        #[no_mangle]
        unsafe extern "C" fn $meeting(
            first: *mut u8,
            first_len: usize,
            second: *mut u8,
            second_len: usize,
            verdicts: *mut u8,
            verdicts_len: usize,
        ) -> u32 {
            $form.meeting(
                from_raw_parts_mut(first, first_len),
                from_raw_parts_mut(second, second_len),
                from_raw_parts_mut(verdicts, verdicts_len),
            )
        }

        #[no_mangle]
        unsafe extern "C" fn $panel(
            image: *const u8,
            len: usize,
            text: *mut u8,
            text_len: usize,
        ) -> u32 {
            $form.panel(from_raw_parts(image, len), from_raw_parts_mut(text, text_len))
        }
    };
}

export!(
    Form::Plain,
    wilbryn_fresh,
    wilbryn_check,
    wilbryn_milking,
    wilbryn_heard,
    wilbryn_settled,
    wilbryn_meeting,
    wilbryn_panel
);
export!(
    Form::Packed,
    wilbryn_packed_fresh,
    wilbryn_packed_check,
    wilbryn_packed_milking,
    wilbryn_packed_heard,
    wilbryn_packed_settled,
    wilbryn_packed_meeting,
    wilbryn_packed_panel
);

#[no_mangle]
unsafe extern "C" fn wilbryn_pack(
    image: *const u8,
    len: usize,
    packed: *mut u8,
    packed_len: usize,
) -> u32 {
    Form::Plain.convert(from_raw_parts(image, len), from_raw_parts_mut(packed, packed_len))
}

#[no_mangle]
unsafe extern "C" fn wilbryn_unpack(
    packed: *const u8,
    packed_len: usize,
    image: *mut u8,
    len: usize,
) -> u32 {
    Form::Packed.convert(from_raw_parts(packed, packed_len), from_raw_parts_mut(image, len))
}
