//! A hop while each request for memory is refused in turn: after a refusal it is as before, and the same call then succeeds.

use super::{
    EXPIRY_MS, FULFILL, REJECT, WRONG_FULFILL, counts, five, five_onward, forwarded, new_hop,
    reject, route, too_large,
};
use ilpstream::refusing::{asked, has_refused, refuse_from, refuse_none, refuse_only};
use ilpstream::{Account, Error, Hop, Ticket, Verdict};

/// A hop to which the Prepare of 5 arrived this number of times, if the last of them was fulfilled.
fn used_hop(arrivals: u64) -> Hop {
    let mut hop = new_hop(100, 1000).unwrap();
    for number in 0..arrivals {
        let (ticket, _, _) = forwarded(&mut hop, 0, &five(), 0);
        if number + 1 == arrivals {
            hop.settle(ticket, FULFILL, 0).unwrap();
        }
    }
    hop
}

#[test]
fn a_hop_is_made_or_not() {
    for n in 1.. {
        refuse_only(n);
        let made = new_hop(100, 1000);
        let met = has_refused();
        refuse_none();
        if !met {
            assert_eq!(made.unwrap().t00().unwrap(), reject("T00"));
            assert!(4 < n);
            break;
        }
        assert_eq!(made.err(), Some(Error::HopOutOfMemory), "at {n}");
        assert_eq!(counts(&mut new_hop(100, 1000).unwrap()), [0; 6]);
    }
}

/// What becomes of bytes, while each request is refused in turn: once none is, this verdict.
fn arrives_or_not(arrivals: u64, bytes: &[u8], now: i64) -> Verdict {
    let wanted = used_hop(arrivals).arrive(0, bytes, now).unwrap();
    for n in 1.. {
        let mut hop = used_hop(arrivals);
        let before = counts(&mut hop);
        refuse_only(n);
        let verdict = hop.arrive(0, bytes, now);
        let met = has_refused();
        refuse_none();
        if !met {
            assert_eq!(verdict, Ok(wanted.clone()));
            assert!(1 < n);
            break;
        }
        assert_eq!(verdict, Err(Error::HopOutOfMemory), "at {n}");
        assert_eq!(counts(&mut hop), before, "at {n}");
        assert_eq!(hop.arrive(0, bytes, now), Ok(wanted.clone()), "at {n}");
    }
    wanted
}

#[test]
fn a_prepare_is_sent_on_or_not() {
    for arrivals in [0, 1, 2, 5, 9] {
        let Verdict::Forward { account, bytes, .. } = arrives_or_not(arrivals, &five(), 0) else {
            panic!("it is answered");
        };
        assert_eq!((account, bytes), (1, five_onward()));
    }
}

/// Each of the hop's Rejects.
#[test]
fn a_prepare_is_answered_or_not() {
    let changed = |at: usize, bytes: &[u8]| {
        let mut prepare = five();
        prepare[at..at + bytes.len()].copy_from_slice(bytes);
        prepare
    };
    let rows = [
        (REJECT.to_vec(), 0, reject("F01")),
        (changed(8, b"\x03\xe9"), 0, too_large(1001, 1000)),
        (five(), EXPIRY_MS - 1000, reject("R02")),
        (changed(60, b"x"), 0, reject("F02")),
        (changed(68, b"a"), 0, reject("F02")),
        (changed(9, &[101]), 0, reject("T04")),
    ];
    for (prepare, now, want) in rows {
        assert_eq!(arrives_or_not(2, &prepare, now), Verdict::Answer(want));
    }
}

/// A refusal other than out of memory asks for none.
#[test]
fn other_refusals_ask_for_no_memory() {
    let mut hop = new_hop(100, 1000).unwrap();
    refuse_from(1);
    assert_eq!(hop.arrive(2, &five(), 0), Err(Error::NoAccount));
    assert_eq!(
        Hop::new("example..c", &[], &[]).err(),
        Some(Error::Argument)
    );
    assert_eq!(hop.balances(7), Err(Error::NoAccount));
    assert_eq!(hop.t00().unwrap(), reject("T00"));
    assert_eq!(asked(), 0);
    refuse_none();
}

/// Settles a ticket while each request is refused in turn: while one is, it stays open, and once none is, this is the answer.
fn settled_or_not(hop: &mut Hop, ticket: Ticket, came: Option<&[u8]>, now: i64) -> Vec<u8> {
    for n in 1.. {
        let before = counts(hop);
        refuse_only(n);
        let answer = match came {
            Some(bytes) => hop.settle(ticket, bytes, now),
            None => hop.fault(ticket),
        };
        let met = has_refused();
        refuse_none();
        match answer {
            Ok(answer) => {
                assert!(!met);
                return answer;
            }
            Err(error) => {
                assert!(met && error == Error::HopOutOfMemory, "at {n}");
                assert_eq!(counts(hop), before, "at {n}");
            }
        }
    }
    unreachable!("some run meets no refusal")
}

/// Each row: what arrived and when, the answer, and what is booked.
#[test]
fn a_ticket_is_settled_or_not() {
    let prepare = five();
    let rows: [(Option<&[u8]>, i64, Vec<u8>, u64); 6] = [
        (Some(FULFILL), EXPIRY_MS - 1001, FULFILL.to_vec(), 5),
        (Some(FULFILL), EXPIRY_MS - 1000, reject("R00"), 0),
        (Some(REJECT), 0, REJECT.to_vec(), 0),
        (None, 0, reject("T01"), 0),
        (Some(&prepare), 0, reject("T01"), 0),
        (Some(WRONG_FULFILL), 0, reject("F05"), 0),
    ];
    for (came, now, want, booked) in rows {
        let mut hop = new_hop(100, 1000).unwrap();
        let (ticket, _, _) = forwarded(&mut hop, 0, &five(), 0);
        assert_eq!(
            settled_or_not(&mut hop, ticket, came, now),
            want,
            "at {now}"
        );
        assert_eq!(counts(&mut hop), [booked, 0, 0, 0, booked, 0], "at {now}");
    }
}

/// How many wait at once. Each holds 5.
const WAITING: u64 = 1000;

/// A thousand Prepares wait at once: each is sent on, one more is past the limit, and each is settled, the last that came first,
/// if no answer arrived with no request for memory. Then one more is sent on.
#[test]
fn a_thousand_wait() {
    let mut hop = new_hop(5 * WAITING, 1000).unwrap();
    let tickets: Vec<Ticket> = (0..WAITING)
        .map(|_| forwarded(&mut hop, 0, &five(), 0).0)
        .collect();
    assert_eq!(hop.balances(0).unwrap().held, 5 * WAITING);
    assert_eq!(
        hop.arrive(0, &five(), 0),
        Ok(Verdict::Answer(reject("T04")))
    );
    refuse_from(1);
    for ticket in tickets.into_iter().rev() {
        assert_eq!(hop.fault(ticket), Ok(reject("T01")));
    }
    assert_eq!(asked(), 0);
    refuse_none();
    assert_eq!(hop.balances(0).unwrap().held, 0);
    forwarded(&mut hop, 0, &five(), 0);
}

/// A table with a prefix that is there twice is never made, whichever request for memory is refused, and is refused as such once
/// there is memory for the table.
#[test]
fn a_bad_table_is_refused_without_memory() {
    let account = Account {
        limit: 1,
        max_packet: 1,
    };
    let routes = [
        route("example", 0),
        route("example.b", 0),
        route("example", 0),
    ];
    for n in 1.. {
        refuse_from(n);
        let refused = Hop::new("example.c", &[account], &routes).err();
        let met = has_refused();
        refuse_none();
        if !met {
            assert_eq!(refused, Some(Error::BadTable));
            break;
        }
        assert!(
            matches!(refused, Some(Error::BadTable | Error::HopOutOfMemory)),
            "at {n}"
        );
    }
}
