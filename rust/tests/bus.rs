//! The two-wire bus through the safe calls: transfers either way, bytes out of place, and every refusal.
use ratchetelm::two_wire::{read, start, stop, write, Bus, Byte};
use ratchetelm::{access, scan, Device, Refusal};

const STRAPS: [u8; 16] = [
    0x60, 0x6F, 255, 255, 255, 255, 255, 255, 255, 255, 255, 255, 255, 255, 255, 255,
];

/// Parts at 60 and 6F and their bus.
struct Panel {
    parts: [Device; 2],
    bus: Bus,
}

impl Panel {
    fn new() -> Panel {
        Panel {
            parts: [Device::power_up(); 2],
            bus: Bus::IDLE,
        }
    }

    fn start(&mut self) {
        self.bus = start(&self.parts, self.bus, STRAPS).unwrap();
    }

    fn stop(&mut self) {
        self.bus = stop(&self.parts, self.bus, STRAPS).unwrap();
    }

    /// Gives bytes; whether each was acknowledged. A byte that is has data 0, another 255.
    fn give<const N: usize>(&mut self, bytes: [u8; N]) -> [bool; N] {
        bytes.map(|byte| {
            let given = write(&mut self.parts, self.bus, STRAPS, byte).unwrap();
            assert_eq!(given.data, if given.acknowledged { 0 } else { 255 });
            self.bus = given.bus;
            given.acknowledged
        })
    }

    /// Asks for bytes: their data, or none where it isn't acknowledged.
    fn get<const N: usize>(&mut self) -> [Option<u8>; N] {
        [(); N].map(|()| {
            let got = read(&mut self.parts, self.bus, STRAPS).unwrap();
            assert!(got.acknowledged || got.data == 255);
            self.bus = got.bus;
            got.acknowledged.then_some(got.data)
        })
    }

    fn commands(&self) -> [u8; 2] {
        self.parts.map(|part| part.command)
    }
}

#[test]
fn registers_are_written_and_read() {
    let mut panel = Panel::new();
    panel.start();
    assert_eq!(panel.give([0xDE, 0x82, 0x05, 0x03]), [true; 4]);
    panel.stop();
    assert_eq!(panel.bus, Bus::IDLE);
    let controls = panel.parts[1].registers.controls;
    assert_eq!((controls.global, controls.limit), (5, 3));
    assert_eq!(panel.commands(), [0, 4]);
    panel.start();
    assert_eq!(panel.give([0xDE, 0x01]), [true; 2]);
    panel.start();
    assert_eq!(panel.give([0xDF]), [true]);
    assert_eq!(panel.get(), [Some(0xFF), Some(5), Some(3), Some(0x80)]);
    assert_eq!(panel.commands(), [0, 5]);
    assert_eq!(panel.parts[0], Device::power_up());
}

#[test]
fn the_address_stays_at_127() {
    let mut panel = Panel::new();
    panel.start();
    assert_eq!(panel.give([0xC0, 0xFE, 1, 2, 3]), [true; 5]);
    assert_eq!(panel.commands(), [127, 0]);
}

#[test]
fn bytes_out_of_place_change_nothing() {
    let mut panel = Panel::new();
    assert_eq!(panel.give([0xC0]), [false]);
    assert_eq!(panel.get(), [None]);
    panel.start();
    assert_eq!(panel.get(), [None]);
    assert_eq!(panel.give([0xC2, 0xC0]), [false; 2]);
    assert_eq!(panel.bus, Bus { part: 0, phase: 2 });
    assert_eq!(panel.parts, [Device::power_up(); 2]);
    panel.start();
    assert_eq!(panel.give([0xC0]), [true]);
    assert_eq!(panel.get(), [None]);
    assert_eq!(panel.bus, Bus { part: 1, phase: 0 });
    assert_eq!(panel.give([0x06]), [true]);
    panel.start();
    assert_eq!(panel.give([0xC1, 0x00]), [true, false]);
    assert_eq!(panel.get(), [Some(0x1F)]);
    assert_eq!(panel.bus, Bus { part: 1, phase: 2 });
}

#[test]
fn keys_are_read_once_and_shift_words_stay() {
    let mut panel = Panel::new();
    let mut answer = [0; 4];
    let words = [0x84, 0x00, 0x84, 0x00];
    assert_eq!(access(&mut panel.parts, 32, &words, &mut answer), Ok(()));
    panel.start();
    assert_eq!(panel.give([0xDE, 0x06, 0x80]), [true; 3]);
    for _ in 0..2 {
        assert_eq!(scan(&mut panel.parts, 2, [1, 2, 4, 8]), Ok(()));
    }
    for keys in [[1, 2, 4, 8], [0; 4]] {
        panel.start();
        assert_eq!(panel.give([0xDE, 0x08]), [true; 2]);
        panel.start();
        assert_eq!(panel.give([0xDF]), [true]);
        assert_eq!(panel.get(), keys.map(Some));
    }
    for part in panel.parts {
        assert_eq!((part.shift, part.answer_mark), (0x8480, 1));
    }
}

#[test]
fn each_call_is_refused_by_its_number() {
    let up = Device::power_up();
    let unsound = Device { command: 128, ..up };
    let with = |second: u8| {
        let mut straps = STRAPS;
        straps[1] = second;
        straps
    };
    let rows = [
        (vec![], 9, 3, with(0x60), Refusal::ChainLength),
        (vec![up; 17], 9, 3, with(0x60), Refusal::ChainLength),
        (vec![up, unsound], 0, 0, with(0x60), Refusal::Unsound),
        (vec![up; 2], 3, 0, with(0x60), Refusal::Unsound),
        (vec![up; 2], usize::MAX, 0, with(0x60), Refusal::Unsound),
        (vec![up; 2], 1, 3, with(0x60), Refusal::Unsound),
        (vec![up; 2], 1, 1, with(0x60), Refusal::OneAddress),
        (vec![up; 3], 1, 1, STRAPS, Refusal::AddressTooHigh),
        (vec![up; 4], 1, 1, STRAPS, Refusal::OneAddress),
        (vec![up; 2], 1, 2, with(0x80), Refusal::AddressTooHigh),
    ];
    for (before, part, phase, straps, refusal) in rows {
        let (mut parts, bus) = (before.clone(), Bus { part, phase });
        assert_eq!(start(&parts, bus, straps), Err(refusal));
        assert_eq!(stop(&parts, bus, straps), Err(refusal));
        assert_eq!(write(&mut parts, bus, straps, 0xC0), Err(refusal));
        assert_eq!(read(&mut parts, bus, straps), Err(refusal));
        assert_eq!(parts, before);
    }
}

#[test]
fn the_straps_of_other_parts_do_not_count() {
    let mut part = [Device::power_up()];
    let open = Bus { part: 1, phase: 2 };
    let byte = Byte {
        bus: open,
        acknowledged: true,
        data: 0,
    };
    assert_eq!(read(&mut part, open, [0x60; 16]), Ok(byte));
    assert_eq!(part[0].command, 1);
}
