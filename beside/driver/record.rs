//! The record of an entry that the Rust has read, as document 01 lays records out ("Entries").

use crate::bits::Packer;
use tbtools::drom::{DptxRank, DromEntry, RankType, SingleDataPathPreference, Usb3PortMap};

/// The record of an entry of `length` bytes at `offset`.
pub fn of(entry: &DromEntry, offset: usize, length: usize) -> Vec<u8> {
    let mut out = Packer::default();
    out.put(tag(entry), 8).put(offset as u32, 13).put(length as u32, 8).put(0, 3);
    if entry.is_adapter() {
        put_adapter(entry, &mut out);
    } else {
        put_generic(entry, &mut out);
    }
    out.into_bytes()
}

fn tag(entry: &DromEntry) -> u32 {
    match entry {
        DromEntry::Unknown(_) => 0,
        DromEntry::Adapter { .. } => 1,
        DromEntry::UnusedAdapter { .. } => 2,
        DromEntry::DisplayPortAdapter { .. } => 3,
        DromEntry::LaneAdapter { .. } => 4,
        DromEntry::PcieUpAdapter { .. } => 5,
        DromEntry::PcieDownAdapter { .. } => 6,
        DromEntry::Generic { .. } => 7,
        DromEntry::AsciiVendorName(_) => 8,
        DromEntry::AsciiModelName(_) => 9,
        DromEntry::Tmu { .. } => 10,
        DromEntry::ProductDescriptor { .. } => 11,
        DromEntry::SerialNumber { .. } => 12,
        DromEntry::Usb3PortMapping(_) => 13,
        DromEntry::Utf16VendorName(_) => 14,
        DromEntry::Utf16ModelName(_) => 15,
        DromEntry::SingleDataPath(_) => 16,
        DromEntry::DptxRanking { .. } => 17,
        DromEntry::EmbeddedLink(_) => 18,
    }
}

fn put_adapter(entry: &DromEntry, out: &mut Packer) {
    match *entry {
        DromEntry::Adapter { disabled, adapter_num } => {
            out.put(disabled.into(), 1).put(0, 1).put(adapter_num.into(), 6);
        }
        DromEntry::UnusedAdapter { adapter_num } => {
            out.put(0, 2).put(adapter_num.into(), 6);
        }
        DromEntry::DisplayPortAdapter {
            adapter_num,
            preferred_lane_adapter_num,
            preference_valid,
        } => {
            out.put(0, 2).put(adapter_num.into(), 6);
            out.put(preference_valid.into(), 1).put(0, 1).put(preferred_lane_adapter_num.into(), 6);
        }
        DromEntry::LaneAdapter {
            adapter_num,
            lane_1_adapter,
            dual_lane_adapter,
            dual_lane_adapter_num,
        } => {
            out.put(lane_1_adapter.into(), 1).put(dual_lane_adapter.into(), 1);
            out.put(adapter_num.into(), 6).put(0, 2).put(dual_lane_adapter_num.into(), 6);
        }
        DromEntry::PcieUpAdapter { adapter_num, function_num, device_num }
        | DromEntry::PcieDownAdapter { adapter_num, function_num, device_num } => {
            out.put(adapter_num.into(), 6).put(function_num.into(), 3);
            out.put(device_num.into(), 5).put(0, 2);
        }
        _ => unreachable!("not an adapter"),
    }
}

fn put_generic(entry: &DromEntry, out: &mut Packer) {
    match entry {
        DromEntry::Unknown(_) => (),
        DromEntry::Generic { kind, data, .. } => {
            out.put(0, 2).put((*kind).into(), 6).put_bytes(data);
        }
        DromEntry::AsciiVendorName(name) | DromEntry::AsciiModelName(name) => {
            out.put_text(name.as_bytes());
        }
        DromEntry::Tmu { mode, rate } => {
            out.put((mode.clone() as i8 as u8).into(), 8).put(rate.clone() as u32, 8);
        }
        DromEntry::ProductDescriptor { .. } => put_product(entry, out),
        DromEntry::SerialNumber { lang_id, serial_number } => {
            out.put((*lang_id).into(), 16).put_text(serial_number.as_bytes());
        }
        DromEntry::Usb3PortMapping(maps) => put_maps(maps, out),
        DromEntry::Utf16VendorName(name) | DromEntry::Utf16ModelName(name) => {
            out.put_text(name.as_bytes());
        }
        DromEntry::SingleDataPath(preference) => {
            out.put(number_of_preference(preference), 8);
        }
        DromEntry::DptxRanking { .. } => put_dptx(entry, out),
        DromEntry::EmbeddedLink(link) => {
            out.put(0, 3).put((*link).into(), 5);
        }
        _ => unreachable!("an adapter"),
    }
}

fn put_product(entry: &DromEntry, out: &mut Packer) {
    if let DromEntry::ProductDescriptor {
        usb4_version,
        vendor,
        product,
        fw_version,
        test_id,
        hw_revision,
    } = entry
    {
        out.put_bytes(&[usb4_version.major, usb4_version.minor]);
        out.put((*vendor).into(), 16).put((*product).into(), 16);
        out.put_bytes(&[fw_version.major, fw_version.minor]);
        out.put(*test_id, 32).put((*hw_revision).into(), 8);
    }
}

fn put_maps(maps: &[Usb3PortMap], out: &mut Packer) {
    out.put(maps.len() as u32, 8);
    for map in maps {
        out.put(map.usb3_port_num.into(), 4).put(map.pd_port_num.into(), 5);
        out.put(map.xhci_index.into(), 2).put(map.usb_type_c.into(), 1);
        out.put(map.usb3_adapter_num.into(), 6).put(map.tunneling.into(), 1).put(0, 5);
    }
}

pub fn number_of_preference(preference: &SingleDataPathPreference) -> u32 {
    match preference {
        SingleDataPathPreference::PcieTunneling => 0,
        SingleDataPathPreference::Usb3GenTTunneling => 1,
        SingleDataPathPreference::Reserved(value) => (*value).into(),
    }
}

fn put_dptx(entry: &DromEntry, out: &mut Packer) {
    if let DromEntry::DptxRanking { adapter_num, nrr, mh, preferred_order, mu, records } = entry {
        out.put((*adapter_num).into(), 5).put((*mh).into(), 1).put(0, 2);
        out.put((*nrr).into(), 4).put((*preferred_order).into(), 3).put(0, 1);
        out.put(0, 3).put((*mu).into(), 5);
        for DptxRank { rank_type, rank } in records {
            out.put(number_of_rank(rank_type), 5).put((*rank).into(), 3);
        }
    }
}

pub fn number_of_rank(rank: &RankType) -> u32 {
    match rank {
        RankType::Power => 0,
        RankType::Performance => 1,
        RankType::Reserved(value) => (*value).into(),
    }
}
