//! Every short body.

use super::{all_numbers, plain, roomy};
use crate::differences::Case;
use crate::inputs::{Random, all_bytes, every};

pub fn to_two(_: &mut Random, each: &mut dyn FnMut(&Case)) {
    for list in [Vec::new(), all_numbers()] {
        for version in [2, 3] {
            each(&roomy(&list, &plain(version, &[])));
            for length in 1..=2 {
                every_body(version, length, &list, each);
            }
        }
    }
}

pub fn three(_: &mut Random, each: &mut dyn FnMut(&Case)) {
    every_body(3, 3, &all_numbers(), each);
}

fn every_body(version: u8, length: u32, list: &[u8], each: &mut dyn FnMut(&Case)) {
    let mut drom = plain(version, &vec![0; length as usize]);
    let start = drom.len() - length as usize;
    every(&all_bytes(), length, |body| {
        drom[start..].copy_from_slice(body);
        each(&roomy(list, &drom));
    });
}
