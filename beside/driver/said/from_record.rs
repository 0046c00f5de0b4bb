//! What our records say: their fields, as document 01 lays them out ("Entries").

use super::{MODEL, MODEL_16, Product, Said, Usb3Port, VENDOR, VENDOR_16};
use crate::bits::Unpacker;

/// A record's head, and what it says.
pub struct Recorded {
    pub offset: usize,
    pub length: usize,
    pub said: Option<Said>,
}

/// The records, one after the other. A tag that is not known says nothing, and ends them.
pub fn records(mut bytes: &[u8]) -> Vec<Recorded> {
    let mut records = Vec::new();
    while !bytes.is_empty() {
        let mut fields = Unpacker::new(bytes);
        let [tag, offset, length] = [8, 13, 8].map(|width| fields.take(width) as usize);
        fields.take(3);
        let said = payload(tag, length, &mut fields);
        bytes = if said.is_some() { bytes.get(fields.used()..).unwrap_or(&[]) } else { &[] };
        records.push(Recorded { offset, length, said });
    }
    records
}

fn payload(tag: usize, length: usize, fields: &mut Unpacker) -> Option<Said> {
    Some(match tag {
        0 => Said::Unknown,
        1..=6 => adapter(tag, fields),
        7 => {
            fields.take(2);
            let kind = fields.take(6);
            Said::OtherKind { kind, data: fields.take_bytes(length.saturating_sub(2)).to_vec() }
        }
        8 => name(VENDOR, fields),
        9 => name(MODEL, fields),
        10 => Said::Tmu { mode: fields.take(8) as u8 as i8, rate: fields.take(8) as u8 },
        11 => product(fields),
        12 => Said::Serial { language: fields.take(16), text: text(fields) },
        13 => usb3_map(fields),
        14 => name(VENDOR_16, fields),
        15 => name(MODEL_16, fields),
        16 => Said::DataPath { preference: fields.take(8) },
        17 => dptx(fields),
        18 => {
            fields.take(3);
            Said::EmbeddedLink(fields.take(5))
        }
        _ => return None,
    })
}

fn adapter(tag: usize, fields: &mut Unpacker) -> Said {
    match tag {
        1 => {
            let disabled = fields.flag();
            fields.take(1);
            Said::Adapter { number: fields.take(6), disabled }
        }
        2 => {
            fields.take(2);
            Said::Unused { number: fields.take(6) }
        }
        3 => {
            fields.take(2);
            let number = fields.take(6);
            let valid = fields.flag();
            fields.take(1);
            Said::DisplayPort { number, valid, preferred: fields.take(6) }
        }
        4 => {
            let [is_lane_1, is_dual] = [(); 2].map(|()| fields.flag());
            let number = fields.take(6);
            fields.take(2);
            Said::Lane { number, is_lane_1, is_dual, other: fields.take(6) }
        }
        _ => {
            let [number, function, device] = [6, 3, 5].map(|width| fields.take(width));
            fields.take(2);
            Said::Pcie { is_up: tag == 5, number, function, device }
        }
    }
}

fn text(fields: &mut Unpacker) -> String {
    String::from_utf8_lossy(fields.take_text()).into_owned()
}

fn name(what: &'static str, fields: &mut Unpacker) -> Said {
    Said::Name { what, text: text(fields) }
}

fn product(fields: &mut Unpacker) -> Said {
    let pair = |fields: &mut Unpacker| [(); 2].map(|()| fields.take(8) as u8);
    Said::Product(Product {
        usb4: pair(fields),
        vendor: fields.take(16),
        product: fields.take(16),
        firmware: pair(fields),
        test_id: fields.take(32),
        revision: fields.take(8),
    })
}

fn usb3_map(fields: &mut Unpacker) -> Said {
    let count = fields.take(8);
    let port = |_| {
        let port = Usb3Port {
            port: fields.take(4),
            connector: fields.take(5),
            controller: fields.take(2),
            is_type_c: fields.flag(),
            adapter: fields.take(6),
            is_tunneled: fields.flag(),
        };
        fields.take(5);
        port
    };
    Said::Usb3Map((0..count).map(port).collect())
}

fn dptx(fields: &mut Unpacker) -> Said {
    let number = fields.take(5);
    let is_hub = fields.flag();
    fields.take(2);
    let [count, order] = [4, 3].map(|width| fields.take(width));
    fields.take(4);
    let upstream = fields.take(5);
    let ranks = (0..count).map(|_| (fields.take(5), fields.take(3))).collect();
    Said::Dptx { number, hub: is_hub.then_some(upstream), order, ranks }
}
