//! The calls on packed images, and packing and unpacking, in the library and in the model.

use crate::calls::{agree, hex, read_into, Calls, Counts, Outcome, Reading};
use crate::model::Form;
use std::process::exit;

extern "C" {
    fn wilbryn_pack(image: *const u8, len: usize, packed: *mut u8, packed_len: usize) -> u32;
    fn wilbryn_unpack(packed: *const u8, packed_len: usize, image: *mut u8, len: usize) -> u32;
    fn wilbryn_packed_fresh(packed: *mut u8, len: usize, n: u8, stall: u8) -> u32;
    fn wilbryn_packed_check(packed: *const u8, len: usize) -> u32;
    fn wilbryn_packed_milking(packed: *mut u8, len: usize, new: u16) -> u32;
    fn wilbryn_packed_heard(
        packed: *const u8,
        len: usize,
        records: *mut u8,
        records_len: usize,
    ) -> u32;
    fn wilbryn_packed_settled(
        packed: *const u8,
        len: usize,
        counts: *mut u8,
        counts_len: usize,
    ) -> u32;
    fn wilbryn_packed_meeting(
        first: *mut u8,
        first_len: usize,
        second: *mut u8,
        second_len: usize,
        verdicts: *mut u8,
        verdicts_len: usize,
    ) -> u32;
    fn wilbryn_packed_panel(packed: *const u8, len: usize, text: *mut u8, text_len: usize) -> u32;
}

pub static PACKED: Calls = Calls {
    form: Form::Packed,
    fresh: wilbryn_packed_fresh,
    check: wilbryn_packed_check,
    milking: wilbryn_packed_milking,
    heard: wilbryn_packed_heard,
    settled: wilbryn_packed_settled,
    meeting: wilbryn_packed_meeting,
    panel: wilbryn_packed_panel,
};

/// Packs an image, or unpacks one that is packed, into a buffer. An accepted one is turned back
/// too, which must give the same bytes again.
pub fn convert(counts: &mut Counts, form: Form, image: &[u8], before: &[u8]) -> Outcome {
    let there = convert_once(counts, form, image, before);
    if there.answer == 0 {
        let room = vec![0xee; image.len()];
        let back = convert_once(counts, form.other(), &there.runs[1], &room);
        if back.answer != 0 || *back.runs[1] != *image {
            println!("there and back is not the same: {}, {}", hex(image), hex(&back.runs[1]));
            exit(1);
        }
    }
    there
}

fn convert_once(counts: &mut Counts, form: Form, image: &[u8], before: &[u8]) -> Outcome {
    let (call, function) = match form {
        Form::Plain => ("pack", wilbryn_pack as Reading),
        Form::Packed => ("unpack", wilbryn_unpack as Reading),
    };
    let modelled = |image: &[u8], output: &mut [u8]| form.convert(image, output);
    let [library, model] = read_into(function, modelled, image, before);
    agree(call, &[image, before], &library, &model);
    counts.add_number(call, library.answer);
    library
}
