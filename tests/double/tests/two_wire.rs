//! The worked examples of the two-wire bus, and its refusals.

use second_double::{bus_call, call, Bus, BusCall, Call, Record, Straps};

/// Parts on a bus with their straps; the bus takes its calls as text.
struct Panel {
    parts: Vec<Record>,
    bus: Bus,
    straps: Straps,
}

impl Panel {
    /// Parts at power-up at these addresses, on an idle bus; the straps past them are 255.
    fn new(addresses: &[u8]) -> Panel {
        let mut straps = [255; 16];
        straps[..addresses.len()].copy_from_slice(addresses);
        Panel {
            parts: vec![Record::power_up(); addresses.len()],
            bus: Bus { part: 0, phase: 0 },
            straps,
        }
    }

    /// Calls in turn: S a start, P a stop, R a byte asked for, two hex digits a byte given. What the bytes answer:
    /// + and - for acknowledged and not, then the data of those asked for or not acknowledged.
    fn run(&mut self, calls: &str) -> String {
        let mut answers = Vec::new();
        for word in calls.split_whitespace() {
            let call = match word {
                "S" => BusCall::Start,
                "P" => BusCall::Stop,
                "R" => BusCall::Read,
                byte => BusCall::Write(u8::from_str_radix(byte, 16).expect("hex digits")),
            };
            let reply = bus_call(&mut self.parts, self.bus, &self.straps, call);
            assert_eq!(reply.number, 0, "{word} of {calls}");
            self.bus = reply.bus;
            answers.extend(answer(call, &reply.back));
        }
        answers.join(" ")
    }

    /// A scan of part 1.
    fn scan(&mut self, keys: [u8; 4]) {
        let scan = Call::Scan { driver: 1, keys };
        assert_eq!(call(&mut self.parts, &scan).number, 0);
    }

    /// The command addresses of the parts.
    fn commands(&self) -> Vec<u8> {
        self.parts.iter().map(|part| part.command).collect()
    }
}

fn answer(call: BusCall, back: &[u8]) -> Option<String> {
    match (call, back) {
        (BusCall::Write(_), [1, 0]) => Some("+".to_string()),
        (_, [1, data]) => Some(format!("+{data:02X}")),
        (_, [0, data]) => Some(format!("-{data:02X}")),
        _ => None,
    }
}

#[test]
fn example_1_a_register_is_written_and_read() {
    let mut panel = Panel::new(&[0x60]);
    assert_eq!(panel.run("S C0 04 01 P"), "+ + +");
    assert_eq!((panel.parts[0].s, panel.parts[0].command), (1, 0x05));
    assert_eq!(panel.run("S C0 04 S C1 R"), "+ + + +81");
    // The address has stepped: it isn't the register that was written.
    assert_eq!(panel.run("P S C1 R R"), "+ +00 +1F");
    assert_eq!(panel.commands(), [0x07]);
}

#[test]
fn example_2_a_read_begins_at_0_after_power_up() {
    let mut panel = Panel::new(&[0x60]);
    assert_eq!(panel.run("S C1 R R R R"), "+ +00 +FF +00 +07");
}

#[test]
fn example_3_many_bytes_in_one_transfer() {
    let mut panel = Panel::new(&[0x60]);
    assert_eq!(panel.run("S C0 21 41 42 43 P"), "+ + + + +");
    assert_eq!(panel.run("S C0 20 P"), "+ +");
    assert_eq!(panel.run("S C1 R R R R R"), "+ +20 +41 +42 +43 +20");
    assert_eq!(panel.commands(), [0x25]);
}

#[test]
fn example_4_the_last_address_stays() {
    let mut panel = Panel::new(&[0x60]);
    assert_eq!(
        panel.run("S C0 7E 11 22 33 S C1 R R"),
        "+ + + + + + +00 +00"
    );
    assert_eq!(panel.commands(), [0x7F]);
}

#[test]
fn example_5_the_top_bit_of_a_command_is_ignored() {
    let mut panel = Panel::new(&[0x60]);
    assert_eq!(panel.run("S C0 82 05 P"), "+ + +");
    assert_eq!((panel.parts[0].global, panel.parts[0].command), (5, 0x03));
}

#[test]
fn example_6_every_address_is_stepped_through() {
    let mut panel = Panel::new(&[0x60]);
    assert_eq!(panel.run("S C0 0C 81 AA BB CC 7B P"), "+ + + + + + +");
    let part = &panel.parts[0];
    assert_eq!(
        (part.types, part.intensities[0], part.command),
        (0x81, 0x7B, 0x11)
    );
    assert_eq!(panel.run("S C0 06 9F P"), "+ + +");
    panel.scan([0x11, 0x22, 0x33, 0x44]);
    let read = panel.run("S C0 0C S C1 R R R R R");
    assert_eq!(read, "+ + + +11 +22 +33 +44 +7B");
}

#[test]
fn example_7_keys_are_read_and_cleared() {
    let mut panel = Panel::new(&[0x60]);
    assert_eq!(panel.run("S C0 06 9F 00 FF 00 00 0F P"), "+ + + + + + + +");
    panel.scan([0x05, 0x00, 0x00, 0xF0]);
    panel.scan([0x05, 0x00, 0x00, 0xF0]);
    assert_eq!(panel.parts[0].interrupt, 1);
    // A matched slave byte reads nothing ahead.
    assert_eq!(panel.run("S C0 08 S C1 P"), "+ + +");
    assert_eq!(panel.parts[0].interrupt, 1);
    let read = panel.run("S C0 08 S C1 R R R R P");
    assert_eq!(read, "+ + + +05 +00 +00 +F0");
    assert_eq!(panel.parts[0].interrupt, 0);
    assert_eq!(panel.run("S C0 08 S C1 R"), "+ + + +00");
    assert_eq!((panel.parts[0].shift, panel.parts[0].answer_mark), (0, 0));
}

#[test]
fn example_8_nobodys_bytes_change_nothing() {
    let mut panel = Panel::new(&[0x60, 0x61]);
    assert_eq!(panel.run("S C4 C0 04 R"), "-FF -FF -FF -FF");
    assert_eq!(panel.bus, Bus { part: 0, phase: 2 });
    assert_eq!(panel.parts, vec![Record::power_up(); 2]);
    assert_eq!(panel.run("S C0 04 01 P"), "+ + +");
    assert_eq!(panel.run("C0 R"), "-FF -FF");
    assert_eq!(panel.bus, Bus { part: 0, phase: 0 });
    assert_eq!(panel.run("S 80 S 00 S E0"), "-FF -FF -FF");
}

#[test]
fn example_9_a_byte_against_the_direction_has_no_effect() {
    let mut panel = Panel::new(&[0x60]);
    let mixed = panel.run("S R C0 R 04 R 01 R 55 P");
    assert_eq!(mixed, "-FF + -FF + -FF + -FF +");
    let part = &panel.parts[0];
    assert_eq!((part.s, part.gpio, part.command), (1, 0x15, 0x06));
    assert_eq!(panel.run("S C1 00 R"), "+ -FF +1F");
    assert_eq!(panel.commands(), [0x07]);
}

#[test]
fn example_10_each_part_keeps_its_own_address() {
    let mut panel = Panel::new(&[0x60, 0x6F]);
    let answers = panel.run("S C0 02 03 S DE 0F 00 59 S C1 R S DE 10 S DF R P");
    assert_eq!(answers, "+ + + + + + + + +07 + + + +59");
    assert_eq!(panel.commands(), [0x04, 0x11]);
    assert_eq!(panel.run("S C0 S DE 07 01 P"), "+ + + +");
    assert_eq!([panel.parts[0].test, panel.parts[1].test], [0, 1]);
    assert_eq!(panel.commands(), [0x04, 0x08]);
}

/// The numbers of a start, a byte given, a byte asked for and a stop, each on a fresh bus; a refused one changes nothing.
fn numbers(n: usize, straps: &[u8], part: usize, phase: u8) -> [u8; 4] {
    let mut panel = Panel::new(straps);
    panel.parts = vec![Record::power_up(); n];
    panel.bus = Bus { part, phase };
    let calls = [
        BusCall::Start,
        BusCall::Write(0xC0),
        BusCall::Read,
        BusCall::Stop,
    ];
    calls.map(|call| {
        let before = panel.parts.clone();
        let reply = bus_call(&mut panel.parts, panel.bus, &panel.straps, call);
        if reply.number != 0 {
            assert_eq!((reply.bus, &panel.parts), (panel.bus, &before));
            assert!(reply.back.iter().all(|byte| *byte == 0));
        }
        reply.number
    })
}

#[test]
fn example_11_refusals_in_their_order() {
    assert_eq!(numbers(2, &[0x60, 0x60], 0, 1), [10; 4]);
    assert_eq!(numbers(2, &[0xC8, 0xC8], 0, 1), [10; 4]);
    assert_eq!(numbers(2, &[0x60, 0xE0], 0, 1), [11; 4]);
    assert_eq!(numbers(2, &[0x60, 0x60], 3, 1), [7; 4]);
    assert_eq!(numbers(2, &[0x60, 0x61], 2, 3), [7; 4]);
    assert_eq!(numbers(2, &[0x60, 0x61], 0, 3), [7; 4]);
    assert_eq!(numbers(0, &[0x60, 0x60], 3, 3), [1; 4]);
    assert_eq!(numbers(17, &[0x60, 0x60], 3, 3), [1; 4]);
    assert_eq!(numbers(1, &[0x60, 0x60, 0xFF], 1, 2), [0; 4]);
    assert_eq!(
        numbers(
            16,
            &std::array::from_fn::<u8, 16, _>(|k| 127 - k as u8),
            16,
            2
        ),
        [0; 4]
    );
}

#[test]
fn a_command_address_of_128_is_not_sound() {
    for (command, number) in [(0, 0), (127, 0), (128, 7), (255, 7)] {
        let mut panel = Panel::new(&[0x60, 0x61]);
        panel.parts[1].command = command;
        assert_eq!(panel.parts[1].sound(), number == 0);
        let reply = bus_call(&mut panel.parts, panel.bus, &panel.straps, BusCall::Start);
        assert_eq!(reply.number, number);
    }
}

#[test]
fn a_start_and_a_stop_do_the_same_in_every_state() {
    for (part, phase) in [(0, 0), (0, 1), (0, 2), (2, 0), (2, 1), (2, 2)] {
        for (call, after) in [(BusCall::Start, 1), (BusCall::Stop, 0)] {
            let mut panel = Panel::new(&[0x60, 0x61]);
            panel.parts[1].command = 9;
            let before = panel.parts.clone();
            let reply = bus_call(&mut panel.parts, Bus { part, phase }, &panel.straps, call);
            assert_eq!((reply.number, reply.back), (0, vec![]));
            assert_eq!(
                reply.bus,
                Bus {
                    part: 0,
                    phase: after
                }
            );
            assert_eq!(panel.parts, before);
        }
    }
}
