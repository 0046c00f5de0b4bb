//! Parts of the caller's own bytes.

mod common;

use common::{Random, buffer, drom, random_body};
use drom::{body, entry, header, read, whole};

#[test]
fn header_body_and_whole() {
    let usb4 = drom(3, &[1, 0]);
    assert_eq!((header(&usb4), body(&usb4), whole(&usb4)), (0..16, 16..18, 0..18));
    let thunderbolt3 = drom(2, &[1]);
    assert_eq!(header(&thunderbolt3), 0..22);
    assert_eq!(thunderbolt3[body(&thunderbolt3)], [1]);
    assert_eq!(whole(&thunderbolt3), 0..23);
}

#[test]
fn refused_headers_have_empty_parts() {
    let good = drom(3, &[1]);
    for refused in [&[][..], &good[..15], &good[..16], &[0; 21], &[0xff; 5_000]] {
        assert!(header(refused).is_empty());
        assert!(body(refused).is_empty());
        assert!(whole(refused).is_empty());
        assert!(entry(&[], refused, 0).is_empty());
    }
}

#[test]
fn entries_by_number() {
    let drom = drom(3, &[1, 3, 8, 6, 2, 8]);
    assert_eq!(entry(&[], &drom, 0), 16..17);
    assert_eq!(drom[entry(&[], &drom, 1)], [3, 8, 6]);
    assert!(entry(&[], &drom, 2).is_empty(), "the refused entry");
    assert!(entry(&[], &drom, usize::MAX).is_empty());
    assert!(entry(&[5], &drom, 0).is_empty(), "an odd list");
}

#[test]
fn as_many_as_there_are_records() {
    let random = &mut Random::new(6);
    for _ in 0..5_000 {
        let list = random.bytes(12);
        let drom = drom(3, &random_body(random));
        let report = read(&list, &drom, &mut buffer());
        let mut end = 16;
        for n in 0..report.records {
            let part = entry(&list, &drom, n);
            assert_eq!((part.start, part.len()), (end, drom[end].into()));
            end = part.end;
        }
        assert!(entry(&list, &drom, report.records).is_empty());
        assert!(entry(&list, &drom, report.records + 1).is_empty());
    }
}
