//! Every address read at power-up (Table 15) and after a write of FF, test mode and the plane part.

use second_double::{access, call, Call, Record};

/// What a read of the address gives in the next access.
fn read(record: &Record, address: u8) -> u8 {
    let mut chain = [record.clone()];
    let mut answer = [0; 2];
    assert_eq!(
        access(&mut chain, 16, &[0x80 + address, 0x55], &mut answer),
        0
    );
    assert_eq!(access(&mut chain, 16, &[0, 0], &mut answer), 0);
    assert_eq!(answer[0], 0x80 + address);
    answer[1]
}

#[test]
fn power_up_reads() {
    let record = Record::power_up();
    assert!(record.sound() && record.fitted == 255);
    for address in 0..=0x7F {
        let expected = match address {
            0x01 => 0xFF,
            0x03 => 0x07,
            0x04 => 0x80,
            0x06 => 0x1F,
            0x20..=0x27 | 0x40..=0x47 => 0x20,
            _ => 0,
        };
        assert_eq!(read(&record, address), expected, "{address:02X}");
    }
}

#[test]
fn widths() {
    let mut chain = [Record::power_up()];
    for address in 0..=0x7F {
        assert_eq!(access(&mut chain, 16, &[address, 0xFF], &mut [0; 2]), 0);
        if address == 0x04 {
            assert_eq!((chain[0].p0, chain[0].p1), ([0; 16], [0; 16]));
        }
    }
    let [record] = chain;
    assert_eq!(
        (record.gpio, record.types, record.mask),
        (31, 255, [255; 4])
    );
    for address in 0..=0x7F {
        let expected = match address {
            0x01 | 0x06 | 0x10..=0x17 | 0x20..=0x2F | 0x40..=0x4F => 0xFF,
            0x02 => 0x0F,
            0x03 => 0x07,
            0x04 => 0xCD,
            0x07 => 0x01,
            _ => 0,
        };
        assert_eq!(read(&record, address), expected, "{address:02X}");
    }
}

#[test]
fn test_mode_lights_the_configured_display() {
    let mut record = Record {
        test: 1,
        limit: 0,
        types: 0x80,
        global: 3,
        ..Record::power_up()
    };
    let tables = Call::Segments {
        driver: 1,
        cathode: 7,
        font14: vec![0; 128],
        font16: vec![0; 128],
    };
    let expected = [2, 4, 2, 2, 2, 4, 0, 1, 2, 2, 2, 2, 2, 2, 2, 2, 2, 2, 2];
    let chain = std::slice::from_mut(&mut record);
    assert_eq!(call(chain, &tables).back, expected);
    assert_eq!(
        call(
            chain,
            &Call::Brightness {
                driver: 1,
                digit: 0
            }
        )
        .back,
        [7, 3]
    );
    chain[0].test = 0;
    chain[0].s = 1;
    assert_eq!(call(chain, &tables).back, [0; 19]);
}

#[test]
fn the_part_is_of_the_plane_shown() {
    let mut chain = [Record {
        e: 1,
        blink: 2_000_000,
        ..Record::power_up()
    }];
    let part = Call::Plane {
        driver: 1,
        p0: (0..16).collect(),
        p1: (100..116).collect(),
        first: 14,
        last: 15,
    };
    assert_eq!(call(&mut chain, &part).back, [114, 115]);
    chain[0].e = 0;
    assert_eq!(call(&mut chain, &part).back, [14, 15]);
}
