//! Hostile bytes as the answers to an end's Prepares.

use super::ends::{OWN, PEER, SECRET};
use super::plain::Met;
use super::plain::answers::{ANSWERS, fulfill_bytes, reject_bytes};
use super::plain::ilp::{self, PlainAnswer};
use super::plain::seal::PlainKeys;
use super::plain::stream::{PlainFrame, packet_bytes};
use super::{STEPS, inputs, run_all, sure_at};
use crate::seeds::Numbers;
use ilpstream::{End, EndConfig, Error, Outgoing, Role};

/// A client that has bytes and money to send.
fn new_client() -> End {
    let config = EndConfig {
        packets: 100,
        packet_limit: 100,
        ..EndConfig::default()
    };
    let mut end = End::new(Role::Client, &SECRET, PEER, OWN, config).unwrap();
    let stream = end.open_stream().unwrap();
    end.write(stream, &[7; 200]).unwrap();
    end.offer(stream, 1_000).unwrap();
    end
}

/// The sealed packet of a Fulfill, with the limits of a peer that accepts what arrives.
fn reply(keys: &PlainKeys, numbers: &mut Numbers, iv: [u8; 12]) -> Vec<u8> {
    let sequence = numbers.choice(&[1, 2, 3, 4]);
    let frame = |kind, numbers| PlainFrame {
        index: 0,
        kind,
        numbers,
        bytes: b"",
    };
    let receive_max = numbers.choice(&[0, 10, 500, u64::MAX]);
    let received = numbers.choice(&[0, 10]);
    let limits = [
        frame(0x03, [100, 0, 0]),
        frame(0x12, [1, receive_max, received]),
    ];
    keys.seal(&iv, &packet_bytes(13, sequence, 0, &limits))
}

/// The Fulfill of a Prepare, with a sealed packet, or sometimes with other data.
fn fulfill(keys: &PlainKeys, numbers: &mut Numbers, iv: [u8; 12], prepare: &[u8]) -> Vec<u8> {
    let payload = match ilp::prepare(prepare) {
        Ok(prepare) => prepare.payload,
        Err(_) => &[],
    };
    let reply = reply(keys, numbers, iv);
    let data = match numbers.below(4) {
        0 => b"short".as_slice(),
        _ => reply.as_slice(),
    };
    fulfill_bytes(&keys.fulfillment(payload), data)
}

/// A Reject with one of the codes that count for a sender.
fn reject(numbers: &mut Numbers) -> Vec<u8> {
    let data = numbers.pick(&[
        b"",
        b"\0\0\0\0\0\0\0\x96\0\0\0\0\0\0\0\x64",
        b"\0\0\0\0\0\0\0\0\0\0\0\0\0\0\0\x01",
        b"\xff\xff\xff\xff\xff\xff\xff\xff\0\0\0\0\0\0\0\0",
    ]);
    let code = match numbers.below(24) {
        0 => b"F02",
        1 => b"F99",
        2..=7 => b"T04",
        8..=12 => b"R00",
        _ => b"F08",
    };
    reject_bytes(code, b"test.c", data)
}

/// These bytes with changes.
fn changed(numbers: &mut Numbers, bytes: &[u8]) -> Vec<u8> {
    ANSWERS.changed(numbers, bytes)
}

/// What is answered to a Prepare.
fn answer(keys: &PlainKeys, numbers: &mut Numbers, iv: [u8; 12], prepare: &[u8]) -> Vec<u8> {
    match numbers.below(8) {
        0..=2 => fulfill(keys, numbers, iv, prepare),
        3 | 4 => {
            let bytes = fulfill(keys, numbers, iv, prepare);
            changed(numbers, &bytes)
        }
        5 => reject(numbers),
        6 => {
            let bytes = reject(numbers);
            changed(numbers, &bytes)
        }
        _ => ANSWERS.hostile(numbers),
    }
}

/// What an answer does to a sender.
#[derive(Clone, Copy, PartialEq, Eq)]
enum Does {
    /// It is the Fulfill that was paid for.
    Pays,
    /// It fails the connection: a Reject of letter F other than F08 and F99.
    Fails,
    /// Its Prepare is due again.
    Nothing,
}

/// What bytes do as the answer to a Prepare with this fulfillment, by the rules of RFC 0027 and this profile.
fn done_by(bytes: &[u8], preimage: &[u8; 32]) -> Does {
    match ilp::answer(bytes) {
        Ok(PlainAnswer::Fulfill { fulfillment, .. }) if fulfillment == preimage.as_slice() => {
            Does::Pays
        }
        Ok(PlainAnswer::Reject { code, .. })
            if code.starts_with(b"F") && code != b"F08".as_slice() && code != b"F99".as_slice() =>
        {
            Does::Fails
        }
        _ => Does::Nothing,
    }
}

/// Takes note of what an answer has to do, and of what it pays.
fn note(want: Does, amount: u64, paid: &mut u64, met: &mut Met) {
    if want == Does::Pays {
        *paid = paid.saturating_add(amount);
    }
    met.note(match want {
        Does::Pays => 0,
        Does::Fails => 1,
        Does::Nothing => 2,
    });
}

/// Whether an end does with the answer to its next Prepare what the rules say. It paid this much before.
fn is_done(
    keys: &PlainKeys,
    end: &mut End,
    numbers: &mut Numbers,
    paid: &mut u64,
    met: &mut Met,
) -> bool {
    let mut iv = [0; 12];
    iv[..8].copy_from_slice(&numbers.next().to_be_bytes());
    let Some(Outgoing {
        flight,
        bytes: prepare,
    }) = end.send(&iv, 0).unwrap()
    else {
        return true;
    };
    let Ok(plain) = ilp::prepare(&prepare) else {
        return false;
    };
    iv[11] = 1;
    let mut bytes = answer(keys, numbers, iv, &prepare);
    let want = done_by(&bytes, &keys.fulfillment(plain.payload));
    note(want, plain.amount, paid, met);
    end.answer(flight, &mut bytes) == Ok(want == Does::Pays)
        && end.answer(flight, &mut bytes) == Err(Error::Unknown)
        && end.is_failed() == Ok(want == Does::Fails)
}

/// All steps of a seed, at one end after another.
fn runs(seed: u64, met: &mut Met) {
    let keys = PlainKeys::of(&SECRET);
    let mut numbers = Numbers::of(seed);
    let mut end = new_client();
    let mut paid = 0;
    for step in 0..STEPS {
        if end.is_failed().unwrap() {
            end = new_client();
            paid = 0;
        }
        let agrees = is_done(&keys, &mut end, &mut numbers, &mut paid, met);
        sure_at(
            agrees && end.totals().unwrap().paid == paid,
            seed,
            step,
            "an answer",
        );
    }
}

/// An end pays for the Fulfill of its Prepare alone, and its connection fails for a final Reject alone.
#[test]
fn an_end_takes_the_answers_that_the_rules_say() {
    run_all(inputs() / STEPS, &[0, 1, 2], runs);
}
