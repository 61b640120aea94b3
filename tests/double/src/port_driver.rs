//! The MAX6957's part of a record: its registers, pin levels and transition detection (004, Tables 3 and 4).

/// Bit k of a row of 28 is port k+4.
#[derive(Clone, Copy, Debug, PartialEq, Eq)]
pub struct PortDriver {
    /// The stored bits of P4 to P31.
    pub stored: u32,
    /// Levels of the pins of P4 to P31.
    pub pins: u32,
    /// 0x09 to 0x0F port configuration.
    pub pairs: [u8; 7],
    /// 0x12 to 0x1F, Current054 to Current1FE.
    pub currents: [u8; 14],
    /// 0x02 global current.
    pub global: u8,
    /// 0x07 display test.
    pub test: u8,
    /// Configuration bit M.
    pub m: u8,
    /// Configuration bit I.
    pub i: u8,
    /// Configuration bit S.
    pub s: u8,
    /// 0x06 transition detection mask, bit k for P24+k.
    pub mask: u8,
    /// The comparison copy of P24 to P30, in the same order.
    pub snapshot: u8,
    /// 1 while transition detection is enabled.
    pub detecting: u8,
    /// 1 when INT is latched high.
    pub interrupt: u8,
}

impl PortDriver {
    /// Table 4: every port an input without pullup; 0 for the rest and for what it omits.
    pub fn power_up() -> PortDriver {
        PortDriver {
            stored: 0,
            pins: 0,
            pairs: [0xAA; 7],
            currents: [0; 14],
            global: 0,
            test: 0,
            m: 0,
            i: 0,
            s: 0,
            mask: 0,
            snapshot: 0,
            detecting: 0,
            interrupt: 0,
        }
    }

    /// Every field fits its width.
    pub fn sound(&self) -> bool {
        let single = [
            self.test,
            self.m,
            self.i,
            self.s,
            self.detecting,
            self.interrupt,
        ];
        let rows = [self.stored, self.pins];
        rows.iter().all(|row| *row < 268_435_456)
            && single.iter().all(|bit| *bit <= 1)
            && self.global <= 15
            && self.mask <= 127
            && self.snapshot <= 127
    }
}
