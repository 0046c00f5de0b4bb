//! Adapters, of which `drom.rs` asks the number and the kind.

/// The kinds that `drom.rs` tells apart, and one for all others.
#[derive(Clone, Copy, Debug, PartialEq)]
pub enum Type {
    Lane,
    DisplayPortIn,
    DisplayPortOut,
    PcieUp,
    PcieDown,
    Other,
}

#[derive(Clone, Debug)]
pub struct Adapter {
    number: u8,
    kind: Type,
}

impl Adapter {
    /// An adapter by its number and its kind byte, as a list of adapters has them.
    pub fn new(number: u8, kind: u8) -> Self {
        let kind = match kind {
            1 => Type::Lane,
            2 => Type::DisplayPortIn,
            3 => Type::DisplayPortOut,
            4 => Type::PcieUp,
            5 => Type::PcieDown,
            _ => Type::Other,
        };
        Adapter { number, kind }
    }

    pub fn adapter(&self) -> u8 {
        self.number
    }

    pub fn kind(&self) -> Type {
        self.kind
    }
}
