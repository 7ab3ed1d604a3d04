//! Multiframes of 2048 kbit/s, built and taken apart.

use spritbobbin::{Multiframe, Refusal};

/// Every byte differs from its neighbours, and each channel from 1 to 15 signals something.
fn carried() -> Multiframe {
    let mut all = Multiframe { channels: [[0; 16]; 30], signalling: [0; 15], spare: [0; 9] };
    for (c, channel) in all.channels.iter_mut().enumerate() {
        for (f, byte) in channel.iter_mut().enumerate() {
            *byte = (16 * c + f) as u8;
        }
    }
    for (k, byte) in all.signalling.iter_mut().enumerate() {
        *byte = (16 * (k + 1) + 15 - k) as u8;
    }
    all.spare = [0x80, 0x01, 0x23, 0x45, 0x67, 0x89, 0xAB, 0xCD, 0xE0];
    all
}

#[test]
fn words_second_digits_and_channels_stand_in_their_places() {
    let bytes = carried().build().unwrap();
    for f in 0..16 {
        let frame = &bytes[32 * f..32 * (f + 1)];
        if f % 2 == 0 {
            assert_eq!(frame[0] & 0x7F, 0x1B);
        } else {
            assert_eq!(frame[0] & 0x40, 0x40);
        }
        for c in 1..=30_usize {
            let at = if c < 16 { c } else { c + 1 };
            assert_eq!(frame[at], (16 * (c - 1) + f) as u8);
        }
    }
    assert_eq!((bytes[0], bytes[16]), (0x9B, 0x00));
    assert_eq!(bytes[32 + 16], 0x1F);
    assert_eq!(bytes[15 * 32 + 16], 0xF1);
}

#[test]
fn what_was_built_comes_back() {
    assert_eq!(Multiframe::apart(&carried().build().unwrap()), Ok(carried()));
    let mut more = carried();
    more.spare[8] |= 0x0F; // not looked at
    assert_eq!(Multiframe::apart(&more.build().unwrap()), Ok(carried()));
}

#[test]
fn the_first_silent_channel_is_named() {
    let mut silent = carried();
    silent.signalling[14] = 0x0F;
    let refusal = silent.build().unwrap_err();
    assert_eq!(refusal, Refusal::Signalling { channel: 15 });
    assert_eq!(refusal.number(), 11);
    silent.signalling[0] = 0;
    assert_eq!(silent.build(), Err(Refusal::Signalling { channel: 1 }));
    assert!(refusal.to_string().contains("channel 15"));
}

#[test]
fn channels_from_16_on_may_be_silent() {
    let mut quiet = carried();
    quiet.signalling = [0x10; 15];
    assert_eq!(Multiframe::apart(&quiet.build().unwrap()), Ok(quiet));
}

#[test]
fn fixed_digits_are_not_looked_at_when_taking_apart() {
    let zeros = Multiframe { channels: [[0; 16]; 30], signalling: [0; 15], spare: [0; 9] };
    assert_eq!(Multiframe::apart(&[0; 512]), Ok(zeros));
}
