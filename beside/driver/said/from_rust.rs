//! What the Rust says of an entry.

use super::{MODEL, MODEL_16, Product, Said, Usb3Port, VENDOR, VENDOR_16};
use crate::record::{number_of_preference, number_of_rank};
use tbtools::drom::{DromEntry, Usb3PortMap};

pub fn from_rust(entry: &DromEntry) -> Said {
    if entry.is_adapter() { adapter(entry) } else { generic(entry) }
}

fn adapter(entry: &DromEntry) -> Said {
    match *entry {
        DromEntry::Adapter { disabled, adapter_num } => {
            Said::Adapter { number: adapter_num.into(), disabled }
        }
        DromEntry::DisplayPortAdapter {
            adapter_num,
            preferred_lane_adapter_num,
            preference_valid,
        } => Said::DisplayPort {
            number: adapter_num.into(),
            valid: preference_valid,
            preferred: preferred_lane_adapter_num.into(),
        },
        DromEntry::LaneAdapter {
            adapter_num,
            lane_1_adapter,
            dual_lane_adapter,
            dual_lane_adapter_num,
        } => Said::Lane {
            number: adapter_num.into(),
            is_lane_1: lane_1_adapter,
            is_dual: dual_lane_adapter,
            other: dual_lane_adapter_num.into(),
        },
        DromEntry::PcieUpAdapter { adapter_num, function_num, device_num } => {
            pcie(true, [adapter_num, function_num, device_num])
        }
        DromEntry::PcieDownAdapter { adapter_num, function_num, device_num } => {
            pcie(false, [adapter_num, function_num, device_num])
        }
        DromEntry::UnusedAdapter { adapter_num } => Said::Unused { number: adapter_num.into() },
        _ => unreachable!("not an adapter"),
    }
}

fn pcie(is_up: bool, numbers: [u8; 3]) -> Said {
    let [number, function, device] = numbers.map(u32::from);
    Said::Pcie { is_up, number, function, device }
}

fn generic(entry: &DromEntry) -> Said {
    match entry {
        DromEntry::Unknown(_) => Said::Unknown,
        DromEntry::Generic { kind, data, .. } => {
            Said::OtherKind { kind: (*kind).into(), data: data.to_vec() }
        }
        DromEntry::AsciiVendorName(text) => name(VENDOR, text),
        DromEntry::AsciiModelName(text) => name(MODEL, text),
        DromEntry::Utf16VendorName(text) => name(VENDOR_16, text),
        DromEntry::Utf16ModelName(text) => name(MODEL_16, text),
        DromEntry::Tmu { mode, rate } => {
            Said::Tmu { mode: mode.clone() as i8, rate: rate.clone() as u8 }
        }
        DromEntry::SerialNumber { lang_id, serial_number } => {
            Said::Serial { language: (*lang_id).into(), text: serial_number.clone() }
        }
        DromEntry::Usb3PortMapping(maps) => Said::Usb3Map(maps.iter().map(port).collect()),
        DromEntry::SingleDataPath(preference) => {
            Said::DataPath { preference: number_of_preference(preference) }
        }
        DromEntry::EmbeddedLink(link) => Said::EmbeddedLink((*link).into()),
        DromEntry::DptxRanking { adapter_num, mh, preferred_order, mu, records, .. } => {
            Said::Dptx {
                number: (*adapter_num).into(),
                hub: mh.then_some((*mu).into()),
                order: (*preferred_order).into(),
                ranks: records
                    .iter()
                    .map(|record| (number_of_rank(&record.rank_type), record.rank.into()))
                    .collect(),
            }
        }
        _ => product(entry),
    }
}

fn name(what: &'static str, text: &str) -> Said {
    Said::Name { what, text: text.to_string() }
}

fn product(entry: &DromEntry) -> Said {
    let DromEntry::ProductDescriptor {
        usb4_version,
        vendor,
        product,
        fw_version,
        test_id,
        hw_revision,
    } = entry
    else {
        unreachable!("an adapter")
    };
    Said::Product(Product {
        usb4: [usb4_version.major, usb4_version.minor],
        vendor: (*vendor).into(),
        product: (*product).into(),
        firmware: [fw_version.major, fw_version.minor],
        test_id: *test_id,
        revision: (*hw_revision).into(),
    })
}

fn port(map: &Usb3PortMap) -> Usb3Port {
    Usb3Port {
        port: map.usb3_port_num.into(),
        connector: map.pd_port_num.into(),
        controller: map.xhci_index.into(),
        is_type_c: map.usb_type_c,
        adapter: map.usb3_adapter_num.into(),
        is_tunneled: map.tunneling,
    }
}
