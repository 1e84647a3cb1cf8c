//! The cases that request T-13 and docs/RULES.md name, by their bits.

use second::logger::{mean_of, Mean};

fn of(bits: &[u32]) -> Mean {
    mean_of(&bits.iter().flat_map(|n| n.to_le_bytes()).collect::<Vec<u8>>())
}

fn mean(mean: i32) -> Mean {
    Mean { refusal: 0, reading: 0, mean }
}

fn refused(refusal: u32, reading: u32) -> Mean {
    Mean { refusal, reading, mean: 0 }
}

#[test]
fn readings() {
    for (bits, due) in [
        (0x41c8_0000, mean(250)),
        (0x41a2_0000, mean(202)),
        (0x41a6_0000, mean(208)),
        (0xbe80_0000, mean(-2)),
        (0xbf40_0000, mean(-8)),
        (0x0000_0000, mean(0)),
        (0x8000_0000, mean(0)),
        (0x0000_0001, mean(0)),
        (0x44e1_0148, mean(18_000)),
        (0x44e1_019a, refused(20, 1)),
        (0xc1a0_6666, mean(-200)),
        (0xc1a0_7ae1, refused(20, 1)),
        (0x7f80_0000, refused(19, 1)),
        (0xff80_0000, refused(19, 1)),
        (0x7fc0_0000, refused(19, 1)),
        (0x7fa0_0000, refused(19, 1)),
        (0x7f7f_ffff, refused(20, 1)),
        (0xff7f_ffff, refused(20, 1)),
    ] {
        assert_eq!(of(&[bits]), due, "{bits:08x}");
    }
}

#[test]
fn means() {
    assert_eq!(of(&[0x41a2_0000, 0x41a6_0000]), mean(205));
    assert_eq!(of(&[0x41c8_0000, 0x41c8_cccd]), mean(250));
    assert_eq!(of(&[0x41c8_cccd, 0x41c9_999a]), mean(252));
    assert_eq!(of(&[0x41c8_0000, 0x7f80_0000, 0x7f7f_ffff]), refused(19, 2));
    assert_eq!(of(&[0x41c8_0000, 0x7f7f_ffff, 0x7f80_0000]), refused(20, 2));
}

#[test]
fn lengths() {
    for length in 0..11_530 {
        let due = if length > 0 && length <= 11_520 && length % 4 == 0 { mean(0) } else { refused(18, 0) };
        assert_eq!(mean_of(&vec![0; length]), due, "{length} bytes");
    }
}
