//! What is said of an entry, in plain words: by the Rust, whose entries have values, and by us, whose
//! records have bytes.

mod from_record;
mod from_rust;

pub use from_record::{Recorded, records};
pub use from_rust::from_rust;

use std::fmt::{Display, Formatter, Result};

#[derive(Clone, Debug, PartialEq)]
pub enum Said {
    Unknown,
    Adapter { number: u32, disabled: bool },
    Unused { number: u32 },
    DisplayPort { number: u32, valid: bool, preferred: u32 },
    Lane { number: u32, is_lane_1: bool, is_dual: bool, other: u32 },
    Pcie { is_up: bool, number: u32, function: u32, device: u32 },
    OtherKind { kind: u32, data: Vec<u8> },
    Name { what: &'static str, text: String },
    Tmu { mode: i8, rate: u8 },
    Product(Product),
    Serial { language: u32, text: String },
    Usb3Map(Vec<Usb3Port>),
    DataPath { preference: u32 },
    Dptx { number: u32, hub: Option<u32>, order: u32, ranks: Vec<(u32, u32)> },
    EmbeddedLink(u32),
}

#[derive(Clone, Debug, PartialEq)]
pub struct Product {
    pub usb4: [u8; 2],
    pub vendor: u32,
    pub product: u32,
    pub firmware: [u8; 2],
    pub test_id: u32,
    pub revision: u32,
}

#[derive(Clone, Debug, PartialEq)]
pub struct Usb3Port {
    pub port: u32,
    pub connector: u32,
    pub controller: u32,
    pub is_type_c: bool,
    pub adapter: u32,
    pub is_tunneled: bool,
}

pub const VENDOR: &str = "vendor name (ASCII)";
pub const MODEL: &str = "model name (ASCII)";
pub const VENDOR_16: &str = "vendor name (UTF-16)";
pub const MODEL_16: &str = "model name (UTF-16)";

impl Display for Said {
    fn fmt(&self, out: &mut Formatter) -> Result {
        match self {
            Said::Unknown => write!(out, "a single byte: unknown, or padding"),
            Said::Adapter { number, disabled } => {
                let state = if *disabled { ", disabled" } else { "" };
                write!(out, "adapter {number}{state}, of another kind or not in the list")
            }
            Said::Unused { number } => write!(out, "adapter {number}, unused"),
            Said::DisplayPort { .. } | Said::Lane { .. } | Said::Pcie { .. } => self.adapter(out),
            Said::OtherKind { kind, data } => {
                write!(out, "kind {kind:02x} (hex), which has no meaning here, bytes {data:02x?}")
            }
            Said::Name { what, text } => write!(out, "{what} {text:?}"),
            Said::Tmu { mode, rate } => {
                write!(out, "TMU: mode {}, rate {}", mode_of(*mode), rate_of(*rate))
            }
            Said::Product(product) => write!(out, "{product}"),
            Said::Serial { language, text } => {
                write!(out, "serial number {text:?}, language {language:04x} (hex)")
            }
            Said::Usb3Map(ports) => show_ports(ports, out),
            Said::DataPath { preference } => {
                write!(out, "single data path: {}", path_of(*preference))
            }
            Said::Dptx { .. } => self.dptx(out),
            Said::EmbeddedLink(link) => write!(out, "embedded USB4 link {link}"),
        }
    }
}

impl Said {
    fn adapter(&self, out: &mut Formatter) -> Result {
        match self {
            Said::DisplayPort { number, valid: true, preferred } => {
                write!(out, "adapter {number}, DisplayPort, prefers lane adapter {preferred}")
            }
            Said::DisplayPort { number, preferred, .. } => {
                write!(
                    out,
                    "adapter {number}, DisplayPort, no preference (number {preferred} stored)"
                )
            }
            Said::Lane { number, is_lane_1, is_dual, other } => {
                let lane = u8::from(*is_lane_1);
                let width = if *is_dual { "two lanes" } else { "one lane" };
                write!(
                    out,
                    "adapter {number}, lane {lane} of a port of {width}, other lane adapter {other}"
                )
            }
            Said::Pcie { is_up, number, function, device } => {
                let way = if *is_up { "up" } else { "down" };
                write!(out, "adapter {number}, PCIe {way}, device {device}, function {function}")
            }
            _ => Ok(()),
        }
    }

    fn dptx(&self, out: &mut Formatter) -> Result {
        if let Said::Dptx { number, hub, order, ranks } = self {
            write!(out, "DPTX ranking of adapter {number}, order {order}")?;
            if let Some(upstream) = hub {
                write!(out, ", MST hub with upstream {upstream}")?;
            }
            for (kind, rank) in ranks {
                match kind {
                    0 => write!(out, "; power rank {rank}")?,
                    1 => write!(out, "; performance rank {rank}")?,
                    kind => write!(out, "; reserved type {kind}, rank {rank}")?,
                }
            }
        }
        Ok(())
    }
}

impl Display for Product {
    fn fmt(&self, out: &mut Formatter) -> Result {
        let [major, minor] = self.usb4;
        write!(out, "product: USB4 version {major:x}.{minor:x}, ")?;
        write!(out, "vendor {:04x}, product {:04x} (hex), ", self.vendor, self.product)?;
        let [major, minor] = self.firmware;
        write!(out, "firmware {major:x}.{minor:x}, ")?;
        write!(out, "test id {:08x}, hardware revision {:02x} (hex)", self.test_id, self.revision)
    }
}

fn show_ports(ports: &[Usb3Port], out: &mut Formatter) -> Result {
    write!(out, "USB3 port map of {} ports", ports.len())?;
    for map in ports {
        write!(out, "; port {} of host controller {}", map.port, map.controller)?;
        match map.is_type_c {
            true => write!(out, ", USB-C connector {}", map.connector)?,
            false => write!(out, ", no USB-C connector")?,
        }
        match map.is_tunneled {
            true => write!(out, ", USB3 adapter {}", map.adapter)?,
            false => write!(out, ", no USB3 adapter")?,
        }
    }
    Ok(())
}

fn mode_of(mode: i8) -> &'static str {
    match mode {
        0 => "off",
        1 => "unidirectional",
        2 => "bidirectional",
        _ => "unknown",
    }
}

fn rate_of(rate: u8) -> &'static str {
    match rate {
        1 => "HiFi",
        2 => "LowRes",
        _ => "unknown",
    }
}

fn path_of(preference: u32) -> &'static str {
    match preference {
        0 => "PCIe tunneling preferred",
        1 => "USB3 Gen T tunneling preferred",
        2 => "reserved value 2",
        _ => "reserved value 3",
    }
}
