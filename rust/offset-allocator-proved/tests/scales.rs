//! Scales beside numbers of 128 bits: random bases, units and bytes, and each at its ends.

#[path = "../../random.rs"]
mod random;

use offset_allocator_proved::Scale;
use random::Random;

const MOST: u128 = u32::MAX as u128;

fn number(random: &mut Random) -> u64 {
    let wide = u64::from(random.next() as u32) << 32 | u64::from(random.next() as u32);
    match random.below(6) {
        0 => u64::from(random.below(20)),
        1 => 1 << random.below(64),
        2 => (1u64 << random.below(64)).wrapping_sub(1),
        3 => u64::MAX - u64::from(random.below(20)),
        4 => u64::from(random.below(20)) << random.below(40),
        _ => wide >> random.below(64),
    }
}

fn within_32(number: u128) -> Option<u32> {
    u32::try_from(number).ok()
}

fn within_64(number: u128) -> Option<u64> {
    u64::try_from(number).ok()
}

#[test]
fn numbers_are_those_of_128_bits() {
    let mut random = Random(9);
    let mut found = [0; 5];
    for _ in 0..200_000 {
        let scale = Scale { base: number(&mut random), unit: number(&mut random) };
        let bytes = number(&mut random);
        let units = number(&mut random) as u32;
        let (base, unit, wide) = (u128::from(scale.base), u128::from(scale.unit), u128::from(bytes));
        // the fewest units, one by one from a guess that is too small
        let mut fewest = (unit != 0).then(|| (wide / unit).saturating_sub(1));
        while fewest.is_some_and(|it| it * unit < wide) {
            fewest = fewest.map(|it| it + 1);
        }
        assert_eq!(scale.units_of(bytes), fewest.and_then(within_32), "{scale:?} {bytes}");
        assert_eq!(scale.bytes_of(units), within_64(unit * u128::from(units)));
        assert_eq!(scale.address_of(units), within_64(base + unit * u128::from(units)));
        let there = scale.offset_at(bytes);
        match there {
            Some(offset) => {
                let begin = base + unit * u128::from(offset);
                assert!(begin <= wide && wide < begin + unit, "{scale:?} {bytes}");
            }
            None => assert!(unit == 0 || wide < base || wide >= base + unit * (MOST + 1), "{scale:?} {bytes}"),
        }
        let align = scale.align_of(bytes);
        if let Some(align) = align {
            for offset in (0..9).chain([align - 1, align, align.wrapping_add(1), align.wrapping_mul(3), units]) {
                let is_multiple = (base + unit * u128::from(offset)) % wide == 0;
                assert_eq!(is_multiple, offset % align == 0, "{scale:?} {bytes} {offset}");
            }
        } else if unit != 0 && wide != 0 && base % wide == 0 && (unit % wide == 0 || wide % unit == 0) {
            assert!(wide / unit > MOST, "{scale:?} {bytes}");
        }
        let some = [scale.units_of(bytes).is_some(), scale.bytes_of(units).is_some(), scale.address_of(units).is_some(),
            there.is_some(), align.is_some()];
        for (count, is_some) in found.iter_mut().zip(some) {
            *count += u32::from(is_some);
        }
    }
    assert!(found.iter().all(|it| (2_000..198_000).contains(it)), "{found:?}");
}
