//! Keys: sealed texts, opened payloads and fulfillments, compared with a second implementation.

use super::plain::seal::{PlainKeys, sha256};
use super::plain::{Met, Samples};
use super::{inputs, run_all, sure_at};
use crate::seeds::Numbers;
use ilpstream::{Error, Keys, condition};

const TEXTS: Samples<'static> = Samples {
    lawful: &[
        b"\x01\x0c\x01\x01\x01\0\x01\x01\x14\x07\x01\x01\x01\0\x02hi",
        &[7; 100],
    ],
    fronts: &[b"", b"\x01\x0c", &[0; 15], &[0; 16], &[0; 17]],
    common: b"\0\xff",
    behind: 40,
};

fn random<const N: usize>(numbers: &mut Numbers) -> [u8; N] {
    std::array::from_fn(|_| numbers.next() as u8)
}

/// 0 if a payload is opened by both to one text, the number if it is refused by both, and None if they differ.
fn told_of_payload(keys: &mut Keys, plain: &PlainKeys, payload: &[u8]) -> Option<u64> {
    match (keys.open(payload), plain.open(payload)) {
        (Ok(text), Some(same)) if text == same => Some(0),
        (Err(Error::Short), None) if payload.len() < 28 => Some(30),
        (Err(Error::Tag), None) if payload.len() >= 28 => Some(31),
        _ => None,
    }
}

fn run(seed: u64, met: &mut Met) {
    let mut numbers = Numbers::of(seed);
    let secret = random(&mut numbers);
    let (mut keys, plain) = (Keys::new(&secret).unwrap(), PlainKeys::of(&secret));
    for step in 0..10 {
        let (iv, text) = (random(&mut numbers), TEXTS.hostile(&mut numbers));
        let payload = keys.seal(&iv, &text).unwrap();
        sure_at(payload == plain.seal(&iv, &text), seed, step, &text);
        let fulfillment = keys.fulfillment(&payload).unwrap();
        sure_at(
            fulfillment == plain.fulfillment(&payload),
            seed,
            step,
            &text,
        );
        sure_at(
            condition(&fulfillment) == sha256(&fulfillment),
            seed,
            step,
            &text,
        );
        for payload in [TEXTS.changed(&mut numbers, &payload), payload] {
            let told = told_of_payload(&mut keys, &plain, &payload);
            sure_at(told.is_some(), seed, step, &payload);
            met.note(told.unwrap_or(0));
        }
    }
}

#[test]
fn payloads_are_sealed_and_opened_as_by_another() {
    run_all(inputs() / 20, &[0, 30, 31], run);
}
