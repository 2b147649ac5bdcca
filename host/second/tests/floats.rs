//! Worked values of document 02 (vii), of the second converter.

use second::floats::{convert, file, Level, Refused};
use Level::{Fixed, Halfway};

fn refusal<T>(number: usize, place: usize) -> Result<T, Refused> {
    Err(Refused { number, place })
}

/// The samples of some voxels, in a slice of their count.
fn samples(level: Level, scale: u32, voxels: &[f32]) -> Vec<i16> {
    convert(level, scale, voxels, voxels.len()).expect("samples")
}

#[test]
fn worked_values() {
    let halves = [0.5, 1.0, 1.5];
    assert_eq!(samples(Fixed(1.0), 1, &halves), [1, 0, 0]);
    assert_eq!(samples(Halfway(0.0, 2.0), 256, &halves), [128, 0, -128]);
    assert_eq!(samples(Fixed(100.0), 4, &[100.25, 99.75]), [-1, 1]);
    assert_eq!(samples(Fixed(0.0), 256, &[65_536.0, -65_536.0]), [-32_767, 32_767]);
    assert_eq!(samples(Fixed(1.0), 1, &[1.0 - 2f32.powi(-24)]), [1]);
    assert_eq!(samples(Fixed(1e-40), 1, &[0.0]), [1]);
    assert_eq!(convert(Halfway(2.0, 2.0), 1, &[0.0], 1), refusal(22, 0));
    assert_eq!(convert(Halfway(2.0, 2.0), 1, &[0.0, f32::NAN], 1), refusal(21, 1));
}

#[test]
fn cut_towards_zero_and_held() {
    assert_eq!(samples(Fixed(0.0), 1, &[1.5, -1.5, 1.999_999_9, 2.0, -2.0]), [-1, 1, -1, -2, 2]);
    let ends = [32_766.998, 32_767.5, 32_768.0, -32_766.998, -32_767.5, -32_768.0];
    assert_eq!(samples(Fixed(0.0), 1, &ends), [-32_766, -32_767, -32_767, 32_766, 32_767, 32_767]);
    assert_eq!(samples(Fixed(0.0), 2, &[16_383.25, 16_383.75, -16_383.25]), [-32_766, -32_767, 32_766]);
}

#[test]
fn rounded_as_f32_does() {
    let tiny = 2f32.powi(-30);
    assert_eq!(samples(Fixed(2.0), 1, &[tiny]), [2]);
    assert_eq!(samples(Fixed(-2.0), 1, &[-tiny]), [-2]);
    let least = f32::from_bits(1);
    assert_eq!(samples(Halfway(least, 2.0 * least), 1, &[least, 2.0 * least]), [1, 0]);
    assert_eq!(samples(Fixed(-0.0), 256, &[0.0, -0.0, least, -least]), [0, 0, 0, 1]);
}

#[test]
fn refusals_in_order() {
    let nan = f32::NAN;
    for scale in [0, 3, 257, 512, u32::MAX] {
        assert_eq!(convert(Fixed(nan), scale, &[nan], 0), refusal(26, 0));
    }
    for level in [Fixed(nan), Fixed(65_536.01), Halfway(2.0, f32::INFINITY), Halfway(nan, 2.0)] {
        assert_eq!(convert(level, 1, &[0.0, nan], 0), refusal(21, 0));
    }
    for wrong in [nan, 65_536.01, -65_536.01, f32::NEG_INFINITY] {
        assert_eq!(convert(Halfway(3.0, 2.0), 1, &[65_536.0, -65_536.0, wrong, nan], 0), refusal(21, 2));
    }
    assert_eq!(convert(Halfway(3.0, 2.0), 1, &[0.0], 0), refusal(22, 0));
    assert_eq!(convert(Halfway(-0.0, 0.0), 1, &[0.0], 1), refusal(22, 0));
    assert_eq!(convert(Halfway(2.0, 3.0), 1, &[0.0], 0), refusal(2, 0));
    assert_eq!(convert(Fixed(2.0), 1, &[0.0], 2), refusal(2, 0));
    assert_eq!(convert(Fixed(2.0), 1, &[], 0), Ok(vec![]));
}

#[test]
fn files() {
    let bytes: Vec<u8> = [2, 0, 2, 0, 2, 0].into_iter().chain((0..8).flat_map(|n| (n as f32).to_le_bytes())).collect();
    let samples: Vec<i16> = (0..8).map(|n| 2 * (3 - n)).collect();
    assert_eq!(file(&bytes, None, Fixed(3.0), 2), Ok(([2; 3], samples.clone())));
    assert_eq!(file(&bytes[6..], Some([2; 3]), Fixed(3.0), 2), Ok(([2; 3], samples)));
    assert_eq!(file(&bytes[..5], None, Fixed(3.0), 3), refusal(1, 0));
    assert_eq!(file(&bytes[..37], None, Fixed(3.0), 3), refusal(2, 0));
    assert_eq!(file(&bytes[6..], Some([2, 1, 4]), Fixed(3.0), 3), refusal(1, 0));
    assert_eq!(file(&bytes, Some([2; 3]), Fixed(3.0), 3), refusal(2, 0));
    assert_eq!(file(&bytes, None, Fixed(3.0), 3), refusal(26, 0));
}
