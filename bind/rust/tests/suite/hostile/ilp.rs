//! Hostile bytes at the readers of ILP packets.

use super::plain::ilp::{self, PlainAnswer, PlainPrepare};
use super::plain::{EDGES, Met, Samples, changed_at};
use super::{inputs, run_all, sure_at};
use crate::seeds::Numbers;
use ilpstream::{Answer, Error, Prepare};

/// A Prepare of 5 to `example.b`, of 70 bytes.
const PREPARE: &[u8] = b"\x0c\x44\0\0\0\0\0\0\0\x0520240102030405006\
\0\0\0\0\0\0\0\0\0\0\0\0\0\0\0\0\0\0\0\0\0\0\0\0\0\0\0\0\0\0\0\0\x09example.b\0";

/// A Prepare of 2^64 - 1 to an address of each character, with four bytes of data.
const FULL: &[u8] = b"\x0c\x4d\xff\xff\xff\xff\xff\xff\xff\xff00000229235959999\
\0\x01\x02\x03\x04\x05\x06\x07\x08\x09\x0a\x0b\x0c\x0d\x0e\x0f\
\xf0\xf1\xf2\xf3\xf4\xf5\xf6\xf7\xf8\xf9\xfa\xfb\xfc\xfd\xfe\xff\x0ea.Z.0_~-.9.b.c\x04data";

/// A Prepare whose length has two bytes, with 64 bytes of data.
const LONG: &[u8] = b"\x0c\x81\x84\0\0\0\0\0\0\0\x0599991231235959999\
\0\0\0\0\0\0\0\0\0\0\0\0\0\0\0\0\0\0\0\0\0\0\0\0\0\0\0\0\0\0\0\0\x09example.b\x40\
................................................................";

/// The Fulfill of 32 zero bytes, without data.
const FULFILL: &[u8] = b"\x0d\x21\
\0\0\0\0\0\0\0\0\0\0\0\0\0\0\0\0\0\0\0\0\0\0\0\0\0\0\0\0\0\0\0\0\0";

/// A Fulfill with three bytes of data.
const FULFILL_DATA: &[u8] = b"\x0d\x240123456789abcdef0123456789abcdef\x03abc";

const REJECT: &[u8] = b"\x0e\x0fT04\x09example.c\0\0";

const TOO_LARGE: &[u8] = b"\x0e\x1fF08\x09example.c\0\x10\0\0\0\0\0\0\0\x96\0\0\0\0\0\0\0\x64";

/// A Reject of nobody, with the message "é" and two bytes of data.
const MESSAGE: &[u8] = b"\x0e\x0aR00\0\x02\xc3\xa9\x02ab";

const SAMPLES: Samples<'static> = Samples {
    lawful: &[
        PREPARE,
        FULL,
        LONG,
        FULFILL,
        FULFILL_DATA,
        REJECT,
        TOO_LARGE,
        MESSAGE,
    ],
    fronts: &[
        b"",
        b"\x0c",
        b"\x0c\x44",
        b"\x0c\x44\0\0\0\0\0\0\0\x0520240102030405006",
        b"\x0d",
        b"\x0d\x21",
        b"\x0d\x81",
        b"\x0e",
        b"\x0e\x0fT04",
        b"\x0e\x0aF99\0\x02",
    ],
    common: b"\0\x01\x02\x09\x0c\x0d\x0e\x21\x44\x7f\x80\x81\x82\xff0129.ab",
    behind: 80,
};

/// Whether a Prepare has these fields.
fn is_prepare(prepare: &Prepare<'_>, plain: &PlainPrepare<'_>) -> bool {
    prepare.amount == plain.amount
        && prepare.expiry == plain.expiry
        && prepare.condition.as_slice() == plain.condition
        && prepare.destination.as_bytes() == plain.destination
        && prepare.payload == plain.payload
}

/// 0 if bytes are read as the plain Prepare, the number if both refuse them so, and None if they differ.
fn told_of_prepare(bytes: &[u8]) -> Option<u64> {
    match (Prepare::read(bytes), ilp::prepare(bytes)) {
        (Ok(prepare), Ok(plain)) if is_prepare(&prepare, &plain) => Some(0),
        (Err(error), Err(refusal)) if error.number() == u32::from(refusal.number) => {
            Some(u64::from(refusal.number))
        }
        _ => None,
    }
}

/// Whether an answer has these fields.
fn is_answer(answer: Answer<'_>, plain: PlainAnswer<'_>) -> bool {
    match (answer, plain) {
        (
            Answer::Fulfill {
                fulfillment,
                payload,
            },
            PlainAnswer::Fulfill {
                fulfillment: preimage,
                payload: data,
            },
        ) => fulfillment.as_slice() == preimage && payload == data,
        (
            Answer::Reject {
                code,
                by,
                message,
                payload,
            },
            PlainAnswer::Reject {
                code: three,
                by: sender,
                message: text,
                payload: data,
            },
        ) => {
            code.as_slice() == three
                && by.as_bytes() == sender
                && message.as_bytes() == text
                && payload == data
        }
        _ => false,
    }
}

/// The same for an answer.
fn told_of_answer(bytes: &[u8]) -> Option<u64> {
    match (Answer::read(bytes), ilp::answer(bytes)) {
        (Ok(answer), Ok(plain)) if is_answer(answer, plain) => Some(0),
        (Err(error), Err(refusal)) if error.number() == u32::from(refusal.number) => {
            Some(u64::from(refusal.number))
        }
        _ => None,
    }
}

/// Both readers get the same bytes, and what they say is noted: of an answer 100 more. A failed test says the answer as step 1.
fn read(bytes: &[u8], seed: u64, met: &mut Met) {
    for (step, told) in [(0, told_of_prepare(bytes)), (1, told_of_answer(bytes))] {
        sure_at(told.is_some(), seed, step, bytes);
        met.note(told.unwrap_or(0) + 100 * step);
    }
}

#[test]
fn packets_are_read_as_the_rules_say() {
    let wanted = [0, 10, 11, 12, 13, 17, 100, 110, 111, 113, 115, 116, 117];
    run_all(inputs(), &wanted, |seed, met| {
        read(&SAMPLES.hostile(&mut Numbers::of(seed)), seed, met);
    });
}

#[test]
fn every_prefix_and_change_of_a_packet() {
    let mut met = Met::new();
    for bytes in SAMPLES.lawful {
        for at in 0..=bytes.len() {
            for edge in EDGES {
                read(&changed_at(bytes, at, edge), 0, &mut met);
            }
        }
    }
}

const DATES: Samples<'static> = Samples {
    lawful: &[
        b"20240102030405006",
        b"20240229235959999",
        b"19000228000000000",
        b"20001231235959999",
        b"00000101000000000",
        b"99991231235959999",
    ],
    fronts: &[b"", b"2", b"20240", b"2023022", b"2024010203", b"1999113"],
    common: b"0123456789",
    behind: 18,
};

/// Expiries are read in a Prepare, whose 17 digits follow its amount.
#[test]
fn expiries_are_read_as_the_rules_say() {
    run_all(inputs(), &[0, 12], |seed, met| {
        let mut text = DATES.hostile(&mut Numbers::of(seed));
        text.resize(17, b'0');
        let mut bytes = PREPARE.to_vec();
        bytes[10..27].copy_from_slice(&text);
        let told = match (Prepare::read(&bytes), ilp::expiry(&text)) {
            (Ok(prepare), Some(plain)) if prepare.expiry == plain => Some(0),
            (Err(Error::Expiry), None) => Some(12),
            _ => None,
        };
        sure_at(told.is_some(), seed, 0, &text);
        met.note(told.unwrap_or(0));
    });
}

/// What is read is written as the same bytes.
#[test]
fn what_is_read_is_written() {
    for bytes in SAMPLES.lawful {
        let written = match bytes[0] {
            12 => Prepare::read(bytes).and_then(|prepare| prepare.write()),
            _ => Answer::read(bytes).and_then(|answer| answer.write()),
        };
        assert_eq!(written.as_deref(), Ok(*bytes));
    }
}
