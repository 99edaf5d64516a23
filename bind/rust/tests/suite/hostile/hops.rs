//! Hostile bytes at a hop, which is started again with its books now and then.

use super::plain_hop::{
    PlainAccount, PlainOutcome, PlainRoute, PlainTicket, PlainVerdict, ZERO_DIGEST, hold, onward,
    outcome, release, verdict,
};
use super::{STEPS, inputs, run_all, sure_at};
use crate::hostile::plain::answers::{ANSWERS, FULFILL, reject_bytes};
use crate::hostile::plain::prepares::{EXPIRIES, EXPIRY, Offer, PREPARE, PREPARES, prepare_bytes};
use crate::hostile::plain::{EDGES, Met, changed_at, ilp};
use crate::seeds::Numbers;
use ilpstream::{Account, Balances, Booking, Error, Hop, Route, Ticket, Verdict};

/// The hop's address.
const OWN: &[u8] = b"example.c";

/// The neighbours, with which nothing is owed yet.
fn new_accounts() -> [PlainAccount; 3] {
    [
        PlainAccount::new(300, 500),
        PlainAccount::new(0x7fff_ffff_ffff_ffff, u64::MAX),
        PlainAccount::new(400, 1_000),
    ]
}

const ROUTES: [PlainRoute; 5] = [
    PlainRoute {
        prefix: "example",
        account: 0,
        num: 1,
        den: 1,
    },
    PlainRoute {
        prefix: "example.b",
        account: 1,
        num: 3,
        den: 2,
    },
    PlainRoute {
        prefix: "example.b.deep",
        account: 2,
        num: 1,
        den: 3,
    },
    PlainRoute {
        prefix: "test",
        account: 2,
        num: 1,
        den: 1,
    },
    PlainRoute {
        prefix: "test.big",
        account: 0,
        num: 4_294_967_295,
        den: 1,
    },
];

/// What a hop did with bytes.
enum Did {
    Went(Ticket, usize, Vec<u8>),
    Answered(Vec<u8>),
}

fn arrived(hop: &mut Hop, from: usize, bytes: &[u8], now: i64) -> Did {
    match hop.arrive(from, bytes, now).expect("it arrives") {
        Verdict::Forward {
            ticket,
            account,
            bytes,
        } => Did::Went(ticket, account, bytes),
        Verdict::Answer(bytes) => Did::Answered(bytes),
    }
}

fn terms(plain: &PlainAccount) -> Account {
    Account {
        limit: plain.limit,
        max_packet: plain.max_packet,
    }
}

fn route(plain: &PlainRoute) -> Route<'static> {
    Route {
        prefix: plain.prefix,
        account: plain.account,
        num: plain.num,
        den: plain.den,
    }
}

/// The hop `example.c` with those accounts and routes.
fn new_hop() -> Hop {
    let accounts = new_accounts().map(|account| terms(&account));
    let routes = ROUTES.map(|plain| route(&plain));
    Hop::new("example.c", &accounts, &routes).unwrap()
}

/// The same hop with the books of an earlier one, at this number of starts before.
fn restored(accounts: &[PlainAccount; 3], start: u64) -> Hop {
    let terms = accounts.map(|account| terms(&account));
    let routes = ROUTES.map(|plain| route(&plain));
    let claims = accounts.map(|account| account.claims);
    let dues = accounts.map(|account| account.dues);
    Hop::restored("example.c", &terms, &routes, &claims, &dues, start << 44).unwrap()
}

/// Whether the hop has these counts.
fn has_counts(hop: &mut Hop, accounts: &[PlainAccount; 3]) -> bool {
    accounts.iter().enumerate().all(|(place, account)| {
        let balances = Balances {
            claims: account.claims,
            dues: account.dues,
            held: account.held,
        };
        hop.balances(place) == Ok(balances)
    })
}

/// A lawful Prepare: amounts, expiries and addresses at the edges of the hop's rules.
fn lawful(numbers: &mut Numbers) -> Vec<u8> {
    let amount = numbers.choice(&[
        0,
        1,
        5,
        100,
        333,
        500,
        501,
        1_000,
        1_001,
        6_148_914_691_236_517_204,
        0x7fff_ffff_ffff_ffff,
        u64::MAX,
    ]);
    let condition = numbers.pick(&[ZERO_DIGEST, ZERO_DIGEST, &[7; 32]]);
    let destination = numbers.pick(&[
        b"example",
        b"example.b",
        b"example.b.deep",
        b"example.b.deep.x",
        b"example.bc.x",
        b"test.c",
        b"test.big.x",
        b"nowhere",
    ]);
    prepare_bytes(Offer {
        amount,
        expiry: numbers.pick(&EXPIRIES),
        condition,
        destination,
        payload: numbers.pick(&[b"", b"data"]),
    })
}

/// What arrives: a lawful Prepare as it is or changed, or a hostile one.
fn arrival(numbers: &mut Numbers) -> Vec<u8> {
    match numbers.below(4) {
        0 => lawful(numbers),
        1 => {
            let bytes = lawful(numbers);
            PREPARES.changed(numbers, &bytes)
        }
        _ => PREPARES.hostile(numbers),
    }
}

/// What is answered: nothing, the Fulfill of 32 zero bytes, or hostile bytes.
fn answer(numbers: &mut Numbers) -> Option<Vec<u8>> {
    match numbers.below(4) {
        0 => None,
        1 => Some(ANSWERS.hostile(numbers)),
        _ => Some(FULFILL.to_vec()),
    }
}

/// A moment before, at or after the edges of the rules on time.
fn moment(numbers: &mut Numbers) -> i64 {
    match numbers.below(6) {
        0 => 0,
        1 => EXPIRY - 1_001,
        2 => EXPIRY - 1_000,
        3 => EXPIRY - 999,
        4 => EXPIRY,
        _ => 253_402_300_000_000,
    }
}

/// Whether the forwarded bytes are those that arrived, at the rate and a second earlier.
fn goes_on(came: &[u8], went: &[u8], ticket: PlainTicket<'_>) -> bool {
    let contents = ilp::prepare_contents(went).unwrap_or(&[]);
    let expiry = contents.get(8..25).unwrap_or(&[]);
    let want = onward(came, ticket, expiry);
    let earlier = ticket.prepare.expiry.saturating_sub(1_000);
    went == want.as_slice() && ilp::expiry(expiry) == Some(earlier)
}

/// What a ticket is to book by the rules.
fn booking(ticket: PlainTicket<'_>, want: PlainOutcome) -> Option<Booking> {
    matches!(want, PlainOutcome::Books).then_some(Booking {
        payer: ticket.from,
        claim: ticket.received,
        payee: ticket.to,
        due: ticket.sent,
    })
}

/// The answer to a ticket.
fn settled(hop: &mut Hop, ticket: Ticket, came: Option<&[u8]>, now: i64) -> Vec<u8> {
    let answer = match came {
        Some(bytes) => hop.settle(ticket, bytes, now),
        None => hop.fault(ticket),
    };
    assert_eq!(hop.settle(ticket, b"", now), Err(Error::Unknown));
    answer.expect("the ticket is open")
}

/// A number for a code of RFC 0027: its two digits, and 100 or 200 more if its letter is R or T.
fn number_of(code: [u8; 3]) -> u64 {
    let [letter, tens, ones] = code;
    let more = match letter {
        b'R' => 100,
        b'T' => 200,
        _ => 0,
    };
    let tens = u64::from(tens.wrapping_sub(b'0'));
    let ones = u64::from(ones.wrapping_sub(b'0'));
    ones.wrapping_add(tens.wrapping_mul(10)).wrapping_add(more)
}

/// Takes note of what a hop answers to a Prepare that was forwarded: 300 for a Reject that passes, 301 for what is booked.
fn note_outcome(met: &mut Met, want: PlainOutcome) {
    met.note(match want {
        PlainOutcome::Rejects(code) => number_of(code),
        PlainOutcome::Passes => 300,
        PlainOutcome::Books => 301,
    });
}

/// Takes note of what becomes of a Prepare: 302 if it is forwarded.
fn note_verdict(met: &mut Met, want: PlainVerdict<'_>) {
    met.note(match want {
        PlainVerdict::Rejects(code) => number_of(code),
        PlainVerdict::TooLarge(_, _) => 8,
        PlainVerdict::Forwards(_) => 302,
    });
}

/// All that a hop answers while memory suffices: F01, F02, F05, F08, R00, R02, T01, T04, and what passes and is forwarded; and
/// 303, that it starts again.
const ANSWERS_OF_A_HOP: [u64; 12] = [1, 2, 5, 8, 100, 102, 201, 204, 300, 301, 302, 303];

/// The bytes of the answer if a ticket is settled with what arrived.
fn text_due(came: Option<&[u8]>, want: PlainOutcome) -> Vec<u8> {
    match want {
        PlainOutcome::Rejects(code) => reject_bytes(&code, OWN, &[]),
        PlainOutcome::Passes | PlainOutcome::Books => came.expect("bytes came").to_vec(),
    }
}

/// Whether settling a ticket does what the rules say. One in eight is left open.
fn settles(
    hop: &mut Hop,
    accounts: &mut [PlainAccount; 3],
    numbers: &mut Numbers,
    waiting: Ticket,
    ticket: PlainTicket<'_>,
    met: &mut Met,
) -> bool {
    if numbers.below(8) == 0 {
        return true;
    }
    let now = moment(numbers);
    let came = answer(numbers);
    let want = outcome(ticket, came.as_deref(), now);
    note_outcome(met, want);
    let told = match &came {
        Some(bytes) => hop.books(waiting, bytes, now),
        None => Ok(None),
    };
    release(accounts, ticket, matches!(want, PlainOutcome::Books));
    let text = text_due(came.as_deref(), want);
    told == Ok(booking(ticket, want)) && settled(hop, waiting, came.as_deref(), now) == text
}

/// Now and then the hop starts again: it forgets what is open, or another one continues with its books. Its tickets' numbers
/// continue, or begin at the start's.
fn may_start_again(
    hop: &mut Hop,
    accounts: &mut [PlainAccount; 3],
    numbers: &mut Numbers,
    met: &mut Met,
    start: u64,
) {
    match numbers.below(200) {
        0 => hop.restart().unwrap(),
        1 => *hop = restored(accounts, start),
        _ => return,
    }
    met.note(303);
    for account in accounts {
        (account.held, account.pending) = (0, 0);
    }
}

/// Whether an answer is the hop's Reject of this code.
fn is_reject(answer: &[u8], code: &[u8; 3], data: &[u8]) -> bool {
    let want = reject_bytes(code, OWN, data);
    answer == want.as_slice()
}

/// Whether it is the one of an amount that is too large.
fn is_too_large(answer: &[u8], amount: u64, most: u64) -> bool {
    let mut data = Vec::from(&amount.to_be_bytes());
    data.extend_from_slice(&most.to_be_bytes());
    is_reject(answer, b"F08", &data)
}

/// Whether what the hop did with bytes from this account is what the rules say.
fn does(
    hop: &mut Hop,
    accounts: &mut [PlainAccount; 3],
    numbers: &mut Numbers,
    met: &mut Met,
    bytes: &[u8],
) -> bool {
    let from = numbers.place(3);
    let now = moment(numbers);
    let want = verdict(accounts, &ROUTES, from, bytes, now);
    note_verdict(met, want);
    match (arrived(hop, from, bytes, now), want) {
        (Did::Answered(answer), PlainVerdict::Rejects(code)) => is_reject(&answer, &code, &[]),
        (Did::Answered(answer), PlainVerdict::TooLarge(amount, most)) => {
            is_too_large(&answer, amount, most)
        }
        (Did::Went(waiting, to, went), PlainVerdict::Forwards(ticket)) => {
            hold(accounts, ticket);
            let agrees =
                to == ticket.to && goes_on(bytes, &went, ticket) && has_counts(hop, accounts);
            agrees && settles(hop, accounts, numbers, waiting, ticket, met)
        }
        _ => false,
    }
}

/// All steps of a seed, at one hop.
fn runs(seed: u64, met: &mut Met) {
    let mut numbers = Numbers::of(seed);
    let mut hop = new_hop();
    let mut accounts = new_accounts();
    for step in 0..STEPS {
        may_start_again(&mut hop, &mut accounts, &mut numbers, met, step + 1);
        let bytes = arrival(&mut numbers);
        let agrees = does(&mut hop, &mut accounts, &mut numbers, met, &bytes);
        sure_at(agrees, seed, step, &bytes);
        sure_at(has_counts(&mut hop, &accounts), seed, step, &bytes);
    }
}

#[test]
fn a_hop_does_what_the_rules_say() {
    run_all(inputs() / STEPS, &ANSWERS_OF_A_HOP, runs);
}

/// Whether a new hop does with bytes what the rules say, and has the counts that they say.
fn a_new_hop_does(bytes: &[u8], seed: u64) -> bool {
    let mut hop = new_hop();
    let mut accounts = new_accounts();
    let mut numbers = Numbers::of(seed);
    let mut met = Met::new();
    does(&mut hop, &mut accounts, &mut numbers, &mut met, bytes) && has_counts(&mut hop, &accounts)
}

/// Every front of a worked Prepare, and each with one byte replaced.
#[test]
fn every_prefix_and_change_of_a_prepare() {
    for at in 0..=PREPARE.len() {
        for byte in EDGES {
            let bytes = changed_at(PREPARE, at, byte);
            let agrees = a_new_hop_does(&bytes, at as u64);
            sure_at(agrees, 0, at as u64, &bytes);
        }
    }
}
