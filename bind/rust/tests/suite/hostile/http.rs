//! Hostile bytes at the readings of HTTP messages, in random parts.

use super::plain::http::{Message, request, response};
use super::plain::{EDGES, Met, Samples, changed_at};
use super::{inputs, run_all, sure_at};
use crate::seeds::Numbers;
use ilpstream::{Error, Progress, Request, Response};

const TOKENS: [&str; 2] = ["t0", "t1"];

/// A request with a Prepare of 70 bytes: 219 bytes.
const WORKED: &[u8] = b"POST /ilp HTTP/1.1\r\nHost: 127.0.0.1:7770\r\nAuthorization: Bearer t1\r\n\
Content-Type: application/octet-stream\r\nContent-Length: 70\r\nConnection: close\r\n\r\n\
\x0c\x44\0\0\0\0\0\0\0\x0520240102030405006\
\0\0\0\0\0\0\0\0\0\0\0\0\0\0\0\0\0\0\0\0\0\0\0\0\0\0\0\0\0\0\0\0\x09example.b\0";

const REQUESTS: Samples<'static> = Samples {
    lawful: &[
        WORKED,
        b"POST /ilp HTTP/1.1\r\nAuthorization: Bearer t1\r\nContent-Length: 5\r\n\r\nhello",
        b"\r\n\nPOST /ilp HTTP/1.0\nauthorization: bEARER   t0\ncontent-length:05\ncontent-length: 5 \n\nhello",
        b"POST /ilp HTTP/1.1\r\nHost: h\r\nAuthorization: Basic t0\r\nAuthorization: Bearer t0\r\nContent-Length: 00\r\nX-Empty:\r\n\r\n",
        b"POST /ilp HTTP/1.1\r\nAuthorization: Bearer t1\r\nContent-Length: 65535\r\n\r\nand more",
        b"POST /ilp HTTP/1.1\r\nAuthorization: Bearer t1\r\nContent-Length: 65536\r\n\r\n",
        b"POST /ilp HTTP/1.1\r\nAuthorization: Bearer t1\r\nTransfer-Encoding: chunked\r\n\r\n0\r\n\r\n",
        b"GET /ilp HTTP/1.1\r\nAuthorization: Bearer t1\r\n\r\n",
        b"POST /ilp?a HTTP/1.1\r\n\r\n",
        b"POST /ilp HTTP/1.1\r\nAuthorization: Bearer t1\r\nContent-Length: 3\r\nContent-Length: 4\r\n\r\nabc",
    ],
    fronts: &[
        b"",
        b"\r\n",
        b"POST ",
        b"POST /ilp HTTP/1.",
        b"POST /ilp HTTP/1.1\r\n",
        b"POST /ilp HTTP/1.1\r\nContent-Length: ",
        b"POST /ilp HTTP/1.1\r\nAuthorization: Bearer ",
        b"POST /ilp HTTP/1.1\nAuthorization: Bearer t0\nContent-Length:1",
        b"POST /ilp HTTP/1.1\r\nAuthorization: Bearer t0\r\nContent-Length: 2\r\n",
    ],
    common: b"\r\n\r\n\n\n :\t0159tT-/aZ\0\x7f\xc3",
    behind: 40,
};

const RESPONSES: Samples<'static> = Samples {
    lawful: &[
        b"HTTP/1.1 200 OK\r\nContent-Length: 5\r\n\r\nhello",
        b"HTTP/1.0 200\ncontent-length:0003\n\nabcmore",
        b"\n\r\nHTTP/1.1 200 \r\nX: y\r\nContent-Length: 65535\r\n\r\nand more",
        b"HTTP/1.1 200 OK\r\nContent-Length: 65536\r\n\r\n",
        b"HTTP/1.1 401 Unauthorized\r\nContent-Length: 0\r\nConnection: close\r\n\r\n",
        b"HTTP/1.1 200 OK\r\nTransfer-Encoding: chunked\r\nContent-Length: 1\r\n\r\n0",
        b"HTTP/1.1 200 OK\r\nContent-Length: 3\r\nContent-Length: 003\r\n\r\nabc",
        b"HTTP/1.1 200 OK\r\n\r\n",
    ],
    fronts: &[
        b"",
        b"\r\n",
        b"HTTP/1.",
        b"HTTP/1.1 ",
        b"HTTP/1.1 200",
        b"HTTP/1.1 200 OK\r\n",
        b"HTTP/1.1 200 OK\r\nContent-Length: ",
        b"HTTP/1.1 200 OK\nContent-Length:1",
    ],
    common: b"\r\n\r\n\n\n :\t0159tT-/aZ\0\x7f\xc3",
    behind: 40,
};

/// Whose message is read.
#[derive(Clone, Copy)]
enum Side {
    Request,
    Response,
}

/// A message as it is read.
enum Reading {
    Request(Request),
    Response(Response),
}

impl Reading {
    fn feed(&mut self, bytes: &[u8]) -> Result<Progress, Error> {
        match self {
            Reading::Request(request) => request.feed(bytes),
            Reading::Response(response) => response.feed(bytes),
        }
    }
}

impl Side {
    fn reading(self) -> Reading {
        match self {
            Side::Request => Reading::Request(Request::new(&TOKENS).unwrap()),
            Side::Response => Reading::Response(Response::new().unwrap()),
        }
    }

    fn plain(self, text: &[u8]) -> Message<'_> {
        match self {
            Side::Request => request(&TOKENS, text),
            Side::Response => response(text),
        }
    }
}

/// Whether a reading reads a part as it should, and then is at the place of the text that it read: `want`.
fn agrees(reading: &mut Reading, part: &[u8], want: Message<'_>) -> bool {
    match (reading.feed(part), want) {
        (Ok(Progress::Wants(more)), Message::Unfinished(least)) => more == least,
        (
            Ok(whole),
            Message::Whole {
                account,
                body,
                size,
            },
        ) => {
            let wanted = Progress::Whole {
                account: account.unwrap_or(0),
                body: body.to_vec(),
                taken: size,
            };
            whole == wanted && reading.feed(b"more") == Ok(wanted)
        }
        (Ok(Progress::Status(status)), Message::Refused(refusal)) => {
            refusal.inner == Some(status.into())
                && refusal.number == 83
                && reading.feed(part) == Ok(Progress::Status(status))
        }
        (Err(error), Message::Refused(refusal)) => {
            error.number() == u32::from(refusal.number) && reading.feed(part) == Err(error)
        }
        _ => false,
    }
}

/// A number for what is said of a message: 0 for one that is not whole, 200 for a whole one, the status of a request that
/// is refused, or else the refusal's number.
fn number_of(side: Side, want: Message<'_>) -> u64 {
    match (side, want) {
        (_, Message::Unfinished(_)) => 0,
        (_, Message::Whole { .. }) => 200,
        (Side::Request, Message::Refused(refusal)) => refusal.inner.unwrap_or(0),
        (Side::Response, Message::Refused(refusal)) => u64::from(refusal.number),
    }
}

/// What is said of a text at last, if it is read in random parts as the plain reading reads each of its fronts.
fn told(side: Side, numbers: &mut Numbers, text: &[u8]) -> Option<u64> {
    let mut reading = side.reading();
    let mut before = 0;
    loop {
        let after = text
            .len()
            .min(before + numbers.place(text.len() - before) + 1);
        let want = side.plain(&text[..after]);
        if !agrees(&mut reading, &text[before..after], want) {
            return None;
        }
        if after == text.len() || !matches!(want, Message::Unfinished(_)) {
            return Some(number_of(side, want));
        }
        before = after;
    }
}

/// What is said of a text at last, which ends the test if it is not what the rules say.
fn read(side: Side, numbers: &mut Numbers, text: &[u8], seed: u64) -> u64 {
    let told = told(side, numbers, text);
    sure_at(told.is_some(), seed, 0, String::from_utf8_lossy(text));
    told.unwrap_or(0)
}

fn try_inputs(side: Side, samples: &Samples<'_>, inputs: u64, wanted: &[u64]) {
    run_all(inputs, wanted, |seed, met: &mut Met| {
        let mut numbers = Numbers::of(seed);
        let text = samples.hostile(&mut numbers);
        met.note(read(side, &mut numbers, &text, seed));
    });
}

/// Each front of the lawful messages, and each with one byte replaced.
fn try_changes(side: Side, samples: &Samples<'_>) {
    for text in samples.lawful {
        for at in 0..=text.len() {
            for edge in EDGES {
                let seed = at as u64;
                read(
                    side,
                    &mut Numbers::of(seed),
                    &changed_at(text, at, edge),
                    seed,
                );
            }
        }
    }
}

#[test]
fn requests_are_read_as_the_rules_say() {
    try_inputs(
        Side::Request,
        &REQUESTS,
        inputs(),
        &[0, 200, 400, 401, 404, 405, 411, 413],
    );
}

#[test]
fn responses_are_read_as_the_rules_say() {
    try_inputs(Side::Response, &RESPONSES, inputs(), &[0, 82, 83, 84, 200]);
}

/// A field line of 161 bytes.
const LONG_FIELD: &[u8] =
    b"X: aaaaaaaaaaaaaaaaaaaaaaaaaaaaaaaaaaaaaaaaaaaaaaaaaaaaaaaaaaaaaaaaaaaaaaaaaaaaaaaaaaaaaaaaaaaaaaaaaaaaaaaaaaaaaaaaaaaaaaaaaaaaaaaaaaaaaaaaaaaaaaaaaaaaaaaaaaaa\r\n";

/// Heads about 64 fields and about 8,192 bytes long after these lines: fewer inputs, since each is long.
fn try_long_heads(side: Side, first: &[u8]) {
    let many = [first, &b"A: b\r\n".repeat(61)].concat();
    let long = [first, &LONG_FIELD.repeat(50)].concat();
    let samples = Samples {
        lawful: &[&many, &long],
        fronts: &[&many, &long],
        common: b"a:\r\n\r\n\n",
        behind: 160,
    };
    try_inputs(side, &samples, inputs() / 50, &[0, 200]);
}

#[test]
fn long_heads_are_read_as_the_rules_say() {
    let request = b"POST /ilp HTTP/1.1\r\nAuthorization: Bearer t1\r\nContent-Length: 1\r\n";
    try_long_heads(Side::Request, request);
    let response = b"HTTP/1.1 200 OK\r\nA: b\r\nContent-Length: 1\r\n";
    try_long_heads(Side::Response, response);
}

#[test]
fn every_prefix_and_change_of_a_message() {
    try_changes(Side::Request, &REQUESTS);
    try_changes(Side::Response, &RESPONSES);
}
