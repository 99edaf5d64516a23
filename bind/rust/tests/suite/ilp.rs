//! ILP packets: worked ones, those that break one rule, the longest, and writing while memory is refused.

use ilpstream::refusing::{asked, has_refused, refuse_from, refuse_none, refuse_only};
use ilpstream::{Answer, Error, Prepare};

/// A Prepare of 5 to `example.b` that expires at 2024-01-02 03:04:05.006.
const OFFER: Prepare<'static> = Prepare {
    amount: 5,
    expiry: 1_704_164_645_006,
    condition: [0; 32],
    destination: "example.b",
    payload: &[],
};

const PREPARE: &[u8; 70] = b"\x0c\x44\0\0\0\0\0\0\0\x0520240102030405006\
\0\0\0\0\0\0\0\0\0\0\0\0\0\0\0\0\0\0\0\0\0\0\0\0\0\0\0\0\0\0\0\0\x09example.b\0";

const T04: Answer<'static> = Answer::Reject {
    code: *b"T04",
    by: "example.c",
    message: "",
    payload: &[],
};

const REJECT: &[u8; 17] = b"\x0e\x0fT04\x09example.c\0\0";

/// An answer of each kind, and its bytes by RFC 0027.
const ANSWERS: [(Answer<'static>, &[u8]); 4] = [
    (T04, REJECT),
    (
        Answer::Fulfill {
            fulfillment: *b"0123456789abcdef0123456789abcdef",
            payload: b"\x07\x08",
        },
        b"\x0d\x230123456789abcdef0123456789abcdef\x02\x07\x08",
    ),
    (
        Answer::Reject {
            code: *b"T04",
            by: "example.c",
            message: "no",
            payload: b"\x09",
        },
        b"\x0e\x12T04\x09example.c\x02no\x01\x09",
    ),
    (
        Answer::Reject {
            code: *b"F08",
            by: "example.c",
            message: "",
            payload: b"\0\0\0\0\0\0\0\x96\0\0\0\0\0\0\0\x64",
        },
        b"\x0e\x1fF08\x09example.c\0\x10\0\0\0\0\0\0\0\x96\0\0\0\0\0\0\0\x64",
    ),
];

#[test]
fn worked_packets_go_both_ways() {
    assert_eq!(Prepare::read(PREPARE), Ok(OFFER));
    assert_eq!(OFFER.write().unwrap(), PREPARE);
    for (answer, bytes) in ANSWERS {
        assert_eq!(Answer::read(bytes), Ok(answer));
        assert_eq!(answer.write().unwrap(), bytes);
    }
}

/// The Prepare with this text as its expiry.
fn expiring(text: &[u8; 17]) -> [u8; 70] {
    let mut bytes = *PREPARE;
    bytes[10..27].copy_from_slice(text);
    bytes
}

#[test]
fn packets_that_break_a_rule_are_refused() {
    let no_date = expiring(b"20240230000000000");
    let prepares: [(&[u8], Error); 3] = [
        (REJECT, Error::Kind),
        (&no_date, Error::Expiry),
        (b"\x0c\x88\xff\xff\xff\xff\xff\xff\xff\xff", Error::Oer),
    ];
    for (bytes, want) in prepares {
        assert_eq!(Prepare::read(bytes), Err(want), "{bytes:?}");
    }
    let answers: [(&[u8], Error); 4] = [
        (PREPARE, Error::Kind),
        (b"\x0e\x0fT04\x09example.c\0\0\0", Error::Trailing),
        (b"\x0e\x10T04\x09example.c\0\0\0", Error::Trailing),
        (b"\x0e\x07F00\0\x01\xff\0", Error::NotUtf8),
    ];
    for (bytes, want) in answers {
        assert_eq!(Answer::read(bytes), Err(want), "{bytes:?}");
    }
}

/// Texts of an expiry, and the milliseconds since 1970-01-01 UTC.
#[test]
fn expiries_go_both_ways() {
    for (expiry, text) in [
        (-1, b"19691231235959999"),
        (-62_167_219_200_000, b"00000101000000000"),
        (253_402_300_799_999, b"99991231235959999"),
        (1_704_164_645_006, b"20240102030405006"),
    ] {
        let offer = Prepare { expiry, ..OFFER };
        assert_eq!(offer.write().unwrap(), expiring(text));
        assert_eq!(Prepare::read(&expiring(text)), Ok(offer));
    }
    for text in [
        b"20240102030460006",
        b"20240230000000000",
        b"2024010203040500x",
    ] {
        assert_eq!(Prepare::read(&expiring(text)), Err(Error::Expiry));
    }
    for expiry in [253_402_300_800_000, -62_167_219_200_001, i64::MIN, i64::MAX] {
        assert_eq!(Prepare { expiry, ..OFFER }.write(), Err(Error::Expiry));
    }
}

/// The first rule that is broken is reported, and no memory is asked for.
#[test]
fn what_breaks_a_rule_is_not_written() {
    let (late, long) = (253_402_300_800_000, [0; 32_768]);
    refuse_from(1);
    for (expiry, destination, size, want) in [
        (late, "example.b", 0, Error::Expiry),
        (0, "example..b", 0, Error::Address),
        (0, "example.b", 32_768, Error::DataTooLong),
        (late, "example..b", 32_768, Error::Expiry),
        (0, "example..b", 32_768, Error::Address),
    ] {
        let offer = Prepare {
            expiry,
            destination,
            payload: &long[..size],
            ..OFFER
        };
        assert_eq!(offer.write(), Err(want));
    }
    let text = "x".repeat(8_192);
    for (code, length, size, want) in [
        (*b"T 4", 0, 0, Error::Code),
        (*b"F99", 8_192, 0, Error::DataTooLong),
        (*b"F99", 0, 32_768, Error::DataTooLong),
    ] {
        let reject = Answer::Reject {
            code,
            by: "",
            message: &text[..length],
            payload: &long[..size],
        };
        assert_eq!(reject.write(), Err(want));
    }
    let asked = asked();
    refuse_none();
    assert_eq!(asked, 0);
}

/// The greatest data, and the longest message. The fronts are the fields of RFC 0027 with their lengths in hexadecimal.
#[test]
fn the_longest_packets_go_both_ways() {
    let data = [0xa5; 32_767];
    let offer = Prepare {
        payload: &data,
        ..OFFER
    };
    let front = b"\x0c\x82\x80\x45\0\0\0\0\0\0\0\x0520240102030405006\
\0\0\0\0\0\0\0\0\0\0\0\0\0\0\0\0\0\0\0\0\0\0\0\0\0\0\0\0\0\0\0\0\x09example.b\x82\x7f\xff";
    let bytes = offer.write().unwrap();
    assert_eq!(bytes, [front.as_slice(), &data].concat());
    assert_eq!(Prepare::read(&bytes), Ok(offer));
    let (fulfillment, text) = (*b"0123456789abcdef0123456789abcdef", "x".repeat(8_191));
    let fulfill = Answer::Fulfill {
        fulfillment,
        payload: &data,
    };
    let front = b"\x0d\x82\x80\x220123456789abcdef0123456789abcdef\x82\x7f\xff";
    let bytes = fulfill.write().unwrap();
    assert_eq!(bytes, [front.as_slice(), &data].concat());
    assert_eq!(Answer::read(&bytes), Ok(fulfill));
    let reject = Answer::Reject {
        code: *b"F99",
        by: "",
        message: &text,
        payload: &data,
    };
    assert_eq!(Answer::read(&reject.write().unwrap()), Ok(reject));
}

/// A Fulfill with a byte more, and a Reject whose message is longer than one that is written.
#[test]
fn longer_answers_are_read_by_their_own_rules() {
    let mut long = [0; 32_807];
    long[..4].copy_from_slice(b"\x0d\x82\x80\x23");
    long[36..39].copy_from_slice(b"\x82\x80\0");
    assert_eq!(Answer::read(&long), Err(Error::DataTooLong));
    let mut long = [b'm'; 16_396];
    long[..12].copy_from_slice(b"\x0e\x82\x40\x08F99\0\x82\x40\0m");
    long[16_395] = 0;
    let Ok(Answer::Reject { message, .. }) = Answer::read(&long) else {
        panic!("it is a Reject");
    };
    assert_eq!(message.len(), 16_384);
}

/// Each request for memory of a write is refused in turn, and the same write then succeeds.
fn refuse_each(write: impl Fn() -> Result<Vec<u8>, Error>, bytes: &[u8]) {
    for n in 1.. {
        refuse_only(n);
        let written = write();
        let met = has_refused();
        refuse_none();
        if !met {
            assert_eq!(written.unwrap(), bytes);
            assert!(1 < n);
            return;
        }
        assert_eq!(written, Err(Error::PacketOutOfMemory), "at {n}");
        assert_eq!(write().unwrap(), bytes, "at {n}");
    }
}

#[test]
fn a_packet_is_written_or_not() {
    refuse_each(|| OFFER.write(), PREPARE);
    for (answer, bytes) in ANSWERS {
        refuse_each(|| answer.write(), bytes);
    }
}
