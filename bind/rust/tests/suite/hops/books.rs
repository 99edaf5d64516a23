//! A hop that continues with books: restored ones, restarts, and what a ticket is to book.

use super::{
    EXPIRY, EXPIRY_MS, FULFILL, REJECT, WRONG_FULFILL, ZERO_DIGEST, answer_to, counts, forwarded,
    goes_on, new_hop, prepare, reject, route,
};
use ilpstream::refusing::{asked, has_refused, refuse_from, refuse_none, refuse_only};
use ilpstream::{Account, Booking, Error, Hop, Route};

const GREATEST: u64 = (1 << 63) - 1;

/// The hop of these tests with books, whose tickets begin at 1,000.
fn restored(limit: u64, claims: &[u64], dues: &[u64]) -> Result<Hop, Error> {
    let account = Account {
        limit,
        max_packet: u64::MAX,
    };
    let routes = [route("example", 0), route("example.b", 1)];
    Hop::restored(
        "example.c",
        &[account, account],
        &routes,
        claims,
        dues,
        1_000,
    )
}

/// Account 0 owes 40 and is owed 3, at a limit of 100: 63 more may come, and no more. What is booked then counts from there.
#[test]
fn a_restored_hop_goes_on_with_its_books() {
    let mut hop = restored(100, &[40, 5], &[3, 7]).unwrap();
    assert_eq!(counts(&mut hop), [40, 3, 0, 5, 7, 0]);
    assert_eq!(answer_to(&mut hop, 0, 64, "example.b"), reject("T04"));
    let (ticket, account) = goes_on(&mut hop, 0, 63, "example.b");
    assert_eq!((ticket.number(), account), (1_000, 1));
    assert_eq!(counts(&mut hop), [40, 3, 63, 5, 7, 0]);
    assert_eq!(hop.settle(ticket, FULFILL, 0).unwrap(), FULFILL);
    assert_eq!(counts(&mut hop), [103, 3, 0, 5, 70, 0]);
    let (next, _) = goes_on(&mut hop, 1, 1, "example.a");
    assert_eq!(next.number(), 1_001);
}

/// Each row: the limit, claims, dues, and whether they are books of a hop.
#[test]
fn bad_books_are_refused() {
    let half = 1 << 62;
    let rows: [(u64, &[u64], &[u64], bool); 13] = [
        (100, &[0, 0], &[0, 0], true),
        (100, &[103, 100], &[3, 0], true),
        (100, &[104, 100], &[3, 0], false),
        (100, &[103, 101], &[3, 0], false),
        (100, &[0], &[0, 0], false),
        (100, &[0, 0], &[0], false),
        (100, &[0, 0, 0], &[0, 0], false),
        (100, &[0, 0], &[0, 0, 0], false),
        (100, &[], &[], false),
        (GREATEST, &[half, half - 1], &[half - 1, half], true),
        (GREATEST, &[half, half], &[0, 0], false),
        (GREATEST, &[0, 0], &[half, half], false),
        (GREATEST, &[u64::MAX, 0], &[u64::MAX, 0], false),
    ];
    for (limit, claims, dues, are_books) in rows {
        let refused = restored(limit, claims, dues).err();
        let want = (!are_books).then_some(Error::BadBooks);
        assert_eq!(refused, want, "{limit}: {claims:?}, {dues:?}");
    }
}

/// A table that is bad is refused as such, whatever the books are, and an argument before that.
#[test]
fn bad_tables_with_books_are_refused() {
    let refusal = |own, limit, routes: &[Route<'_>], claims: &[u64]| {
        let max_packet = 1;
        let account = Account { limit, max_packet };
        Hop::restored(own, &[account], routes, claims, &[0], 0).err()
    };
    let root = route("example", 0);
    assert_eq!(refusal("example.c", 1, &[root], &[1]), None);
    for claims in [0, 2] {
        let cases = [
            refusal("example.c", 1 << 63, &[root], &[claims]),
            refusal("example.c", 1, &[root, root], &[claims]),
            refusal("example.c", 1, &[route("example", 1)], &[claims]),
        ];
        assert_eq!(cases, [Some(Error::BadTable); 3]);
        let none = refusal("example..c", 1, &[root, root], &[claims]);
        assert_eq!(none, Some(Error::Argument));
    }
}

/// The last number of a ticket is 2^64 - 2. A Prepare after that is answered with T00.
#[test]
fn numbers_of_tickets_end() {
    let account = Account {
        limit: 100,
        max_packet: 100,
    };
    let routes = [route("example.b", 1)];
    let last = u64::MAX - 1;
    let mut hop =
        Hop::restored("example.c", &[account; 2], &routes, &[0; 2], &[0; 2], last).unwrap();
    let (ticket, _) = goes_on(&mut hop, 0, 5, "example.b");
    assert_eq!(ticket.number(), last);
    assert_eq!(answer_to(&mut hop, 0, 5, "example.b"), reject("T00"));
    hop.restart().unwrap();
    assert_eq!(answer_to(&mut hop, 0, 5, "example.b"), reject("T00"));
}

/// What was booked stays, what was reserved is free again, and a Fulfill that comes for a Prepare of before books nothing:
/// neither while no ticket is open, nor while a newer one is.
#[test]
fn a_fulfill_after_a_restart_books_nothing() {
    let mut hop = new_hop(100, 1000).unwrap();
    let (booked, _) = goes_on(&mut hop, 0, 10, "example.b");
    hop.settle(booked, FULFILL, 0).unwrap();
    let (before, _) = goes_on(&mut hop, 0, 90, "example.b");
    let (other, _) = goes_on(&mut hop, 1, 20, "example.a");
    assert_eq!(counts(&mut hop), [10, 0, 90, 0, 10, 20]);
    assert_eq!(hop.restart(), Ok(()));
    assert_eq!(counts(&mut hop), [10, 0, 0, 0, 10, 0]);
    for ticket in [booked, before, other] {
        assert_eq!(hop.books(ticket, FULFILL, 0), Err(Error::Unknown));
        assert_eq!(hop.settle(ticket, FULFILL, 0), Err(Error::Unknown));
        assert_eq!(hop.fault(ticket), Err(Error::Unknown));
        assert_eq!(hop.abandon(ticket), Err(Error::Unknown));
    }
    let (after, _) = goes_on(&mut hop, 0, 90, "example.b");
    assert_eq!(after.number(), other.number() + 1);
    assert_eq!(hop.settle(before, FULFILL, 0), Err(Error::Unknown));
    assert_eq!(counts(&mut hop), [10, 0, 90, 0, 10, 0]);
    assert_eq!(hop.settle(after, FULFILL, 0).unwrap(), FULFILL);
    assert_eq!(counts(&mut hop), [100, 0, 0, 0, 100, 0]);
}

/// A ticket that was abandoned holds its amount until a restart.
#[test]
fn a_restart_frees_what_abandoned_tickets_hold() {
    let mut hop = new_hop(100, 1000).unwrap();
    let (ticket, _) = goes_on(&mut hop, 0, 100, "example.b");
    hop.abandon(ticket).unwrap();
    assert_eq!(answer_to(&mut hop, 0, 1, "example.b"), reject("T04"));
    hop.restart().unwrap();
    assert_eq!(counts(&mut hop), [0; 6]);
    goes_on(&mut hop, 0, 100, "example.b");
}

/// However many tickets are open, a restart does not allocate.
#[test]
fn a_restart_needs_no_memory() {
    let mut hop = new_hop(1000, 1000).unwrap();
    for _ in 0..100 {
        goes_on(&mut hop, 0, 5, "example.b");
    }
    refuse_from(1);
    assert_eq!(hop.restart(), Ok(()));
    assert_eq!(hop.restart(), Ok(()));
    assert_eq!(asked(), 0);
    refuse_none();
    assert_eq!(counts(&mut hop), [0; 6]);
}

/// Three for two: what arrives as 5 is sent on as 7.
fn exchanging() -> Hop {
    let account = Account {
        limit: 100,
        max_packet: 1000,
    };
    let rate = Route {
        num: 3,
        den: 2,
        ..route("example.b", 1)
    };
    Hop::new("example.c", &[account; 2], &[route("example", 0), rate]).unwrap()
}

/// Each row: what arrived, when, and whether it books. A hop's balances then change by what was reported, and by nothing while it
/// is reported.
#[test]
fn what_is_told_is_booked() {
    let prepare = prepare(5, EXPIRY, &ZERO_DIGEST, "example.b");
    let rows: [(&[u8], i64, bool); 7] = [
        (FULFILL, 0, true),
        (FULFILL, EXPIRY_MS - 1001, true),
        (FULFILL, EXPIRY_MS - 1000, false),
        (WRONG_FULFILL, 0, false),
        (REJECT, 0, false),
        (&prepare, 0, false),
        (b"", 0, false),
    ];
    let booking = Booking {
        payer: 0,
        claim: 5,
        payee: 1,
        due: 7,
    };
    for (came, now, books) in rows {
        let mut hop = exchanging();
        let (ticket, _, _) = forwarded(&mut hop, 0, &prepare, 0);
        for _ in 0..2 {
            let told = hop.books(ticket, came, now);
            assert_eq!(told, Ok(books.then_some(booking)), "{came:?} at {now}");
            assert_eq!(counts(&mut hop), [0, 0, 5, 0, 0, 0]);
        }
        hop.settle(ticket, came, now).unwrap();
        let after = if books { [5, 0, 0, 0, 7, 0] } else { [0; 6] };
        assert_eq!(counts(&mut hop), after, "{came:?} at {now}");
        assert_eq!(hop.books(ticket, came, now), Err(Error::Unknown));
    }
}

/// The ticket that is named is the one that is reported of, among several, and in the other direction too.
#[test]
fn each_ticket_books_its_own() {
    let mut hop = exchanging();
    let there = |amount, due| Booking {
        payer: 0,
        claim: amount,
        payee: 1,
        due,
    };
    let back = Booking {
        payer: 1,
        claim: 9,
        payee: 0,
        due: 9,
    };
    let (first, _) = goes_on(&mut hop, 0, 1, "example.b");
    let (second, _) = goes_on(&mut hop, 1, 9, "example.a");
    let (third, _) = goes_on(&mut hop, 0, 20, "example.b");
    let (none, _) = goes_on(&mut hop, 0, 0, "example.b");
    for _ in 0..2 {
        assert_eq!(hop.books(first, FULFILL, 0), Ok(Some(there(1, 1))));
        assert_eq!(hop.books(second, FULFILL, 0), Ok(Some(back)));
        assert_eq!(hop.books(third, FULFILL, 0), Ok(Some(there(20, 30))));
        assert_eq!(hop.books(none, FULFILL, 0), Ok(Some(there(0, 0))));
    }
    assert_eq!(hop.books(first, FULFILL, -1 << 62), Err(Error::Argument));
}

/// Books are restored, or memory is refused; bad ones are refused as such where the table was made.
#[test]
fn a_hop_is_restored_or_not() {
    for n in 1.. {
        refuse_only(n);
        let made = restored(100, &[40, 5], &[3, 7]);
        let met = has_refused();
        refuse_none();
        if !met {
            assert_eq!(counts(&mut made.unwrap()), [40, 3, 0, 5, 7, 0]);
            assert!(6 < n);
            break;
        }
        assert_eq!(made.err(), Some(Error::HopOutOfMemory), "at {n}");
    }
    for n in 1.. {
        refuse_from(n);
        let refused = restored(100, &[104, 5], &[3, 7]).err();
        let met = has_refused();
        refuse_none();
        if !met {
            assert_eq!(refused, Some(Error::BadBooks));
            break;
        }
        let known = [Some(Error::BadBooks), Some(Error::HopOutOfMemory)];
        assert!(known.contains(&refused), "at {n}: {refused:?}");
    }
}

/// What a ticket books is reported, or memory is refused; the ticket stays open.
#[test]
fn a_booking_is_told_or_not() {
    let mut hop = exchanging();
    let (ticket, _) = goes_on(&mut hop, 0, 5, "example.b");
    refuse_only(1);
    let refused = hop.books(ticket, FULFILL, 0);
    assert!(has_refused());
    refuse_none();
    assert_eq!(refused, Err(Error::HopOutOfMemory));
    assert_eq!(counts(&mut hop), [0, 0, 5, 0, 0, 0]);
    let told = hop.books(ticket, FULFILL, 0).unwrap();
    assert_eq!(told.map(|it| (it.claim, it.due)), Some((5, 7)));
    assert_eq!(hop.settle(ticket, FULFILL, 0).unwrap(), FULFILL);
    refuse_from(1);
    assert_eq!(hop.books(ticket, FULFILL, 0), Err(Error::Unknown));
    assert_eq!(asked(), 0);
    refuse_none();
}
