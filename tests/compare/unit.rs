//! A memory protection unit of the ARMv7-M manual, as far as unprivileged accesses go: eight regions that keep what is written to them.

#[derive(Clone, Copy, PartialEq, Eq, Debug, Default)]
pub struct Rights {
    pub read: bool,
    pub write: bool,
    pub execute: bool,
}

pub struct Unit {
    selected: usize,
    regions: [(u32, u32); 8],
}

impl Unit {
    /// Filled with what an earlier owner may have left: every region enabled, over all addresses, with every right.
    pub fn open() -> Unit {
        Unit { selected: 5, regions: [(0, 31 << 1 | 3 << 24 | 1); 8] }
    }

    pub fn write(&mut self, [first, second]: [u32; 2]) {
        if first & 0x10 != 0 {
            self.selected = first as usize & 0xF;
        }
        self.regions[self.selected] = (first & !0x1F, second);
    }

    /// The highest region that covers the address decides.
    pub fn rights(&self, address: u32) -> Rights {
        let covers = |&&(base, attributes): &&(u32, u32)| {
            let last = u32::MAX >> (31 - (attributes >> 1 & 0x1F));
            attributes & 1 == 1 && (address ^ base) & !last == 0
        };
        let Some(&(_, attributes)) = self.regions.iter().rev().find(covers) else { return Rights::default() };
        let (read, write) = match attributes >> 24 & 7 {
            3 => (true, true),
            2 | 6 | 7 => (true, false),
            _ => (false, false),
        };
        Rights { read, write, execute: read && attributes >> 28 & 1 == 0 }
    }
}
