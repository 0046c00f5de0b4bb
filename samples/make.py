#!/usr/bin/env python3
"""Writes the dumps that README.md describes, beside this file. An entry is given by its kind byte and its bytes from 2 on."""
import pathlib
import struct

from model import crc8, crc32

HERE = pathlib.Path(__file__).parent


def entry(kind, rest=""):
    rest = bytes.fromhex(rest) if isinstance(rest, str) else rest
    return bytes([2 + len(rest), kind]) + rest


def name(kind, text):
    return entry(kind, text.encode() + b"\0")


def wide(kind, text, before=b""):
    return entry(kind, before + text.encode("utf-16-le"))


def dump(version, entries, uuid=0, ids="", stale=0):
    """A DROM with right checksums, or a CRC32 that is off by `stale`."""
    after = bytes.fromhex(ids) + b"".join(entries)
    covered = struct.pack("<BH", version, 3 + len(after)) + after
    owner = struct.pack("<Q", uuid)
    first = bytes([crc8(owner)]) + owner if version < 3 else bytes(9)
    return first + struct.pack("<I", crc32(covered) ^ stale) + covered


ENGLISH = bytes.fromhex("0904")

usb4_adapters = [
    entry(0x81, "8002"), entry(0x82, "9001"), entry(0x83, "8004"), entry(0x84, "9003"),  # two lanes, two lanes
    entry(0x85, "000041"), entry(0x86, "000003"),  # DisplayPort
    entry(0x87, "20"), entry(0x88, "08"), entry(0x89, "29"),  # PCIe up, down, down
    entry(0x8A), entry(0xCB), entry(0xCC),  # USB3, and two unused
]
usb4_names = [
    name(0x01, "Nordlicht"), name(0x02, "Dock 14 \N{SUPERSCRIPT TWO}"),
    wide(0x0C, "Nordlicht"), wide(0x0D, "Dock 14"),
]
usb4_values = [
    entry(0x08, "06"),  # TMU: bidirectional, HiFi
    entry(0x09, "0002" "8780" "3412" "0701" "44332211" "05"),  # USB4 2.0, vendor 8087, product 1234, firmware 1.7
    wide(0x0A, "NL14-000217", ENGLISH),
    entry(0x0B, "018a05" "028b86"),  # USB3: two ports
    entry(0x0E, "0001"),  # data path: USB3 Gen T
    entry(0x0F, "0552" "07" "2142"),  # DPTX of adapter 5, an MST hub, two ranks
    entry(0x10, "03"),  # embedded link
    entry(0x30, "deadbeef"),  # a vendor's own kind
    b"\x01",  # padding
]
usb4 = usb4_names + usb4_adapters + usb4_values

thunderbolt3 = [
    entry(0x81, "8002" "80000000"), entry(0x82, "9001" "80000000"),
    entry(0x83, "8004" "80010000"), entry(0x84, "9003" "80010000"),
    entry(0xC5), entry(0xC6),
    entry(0x87, "20"), entry(0x88, "20"), entry(0x89, "28"),  # PCIe up, down, down
    entry(0x8A, "400000"), entry(0x8B, "400041"),  # DisplayPort
    name(0x01, "Schneeweg"), name(0x02, "TB3 Dock"),
]

DUMPS = {
    "usb4-dock": dump(3, usb4),
    "thunderbolt3-dock": dump(1, thunderbolt3, uuid=0x00D4_0217_5A3C_9E01, ids="d400" "4100" "01" "01"),
    "odd-serial": dump(3, usb4_names + usb4_adapters + [entry(0x0A, ENGLISH + b"N\0L\0" + b"7")] + usb4_values),
    "zero-length": dump(3, usb4_names + [b"\0"] + usb4_adapters),
    "stale-crc32": dump(3, usb4, stale=0x0000_0100),
}

if __name__ == "__main__":
    for title, data in DUMPS.items():
        (HERE / f"{title}.bin").write_bytes(data)
