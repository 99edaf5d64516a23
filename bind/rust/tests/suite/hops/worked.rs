//! Worked Prepares and answers, from bytes to bytes.

use super::{
    EARLIER, EXPIRY, EXPIRY_MS, FULFILL, REJECT, answer_to, answered, counts, five, forwarded,
    goes_on, new_hop, prepare, reject, route, too_large,
};
use ilpstream::{Account, Error, Hop, Route};

const GREATEST: u64 = (1 << 63) - 1;

#[test]
fn limits_and_what_is_held() {
    let mut hop = new_hop(100, 1000).unwrap();
    let (first, to) = goes_on(&mut hop, 0, 60, "example.b.x");
    assert_eq!((to, counts(&mut hop)), (1, [0, 0, 60, 0, 0, 0]));
    assert_eq!(answer_to(&mut hop, 0, 50, "example.b.x"), reject("T04"));
    assert_eq!(hop.settle(first, REJECT, 0).unwrap(), REJECT);
    assert_eq!(counts(&mut hop), [0; 6]);
    goes_on(&mut hop, 0, 50, "example.b.x");
    assert_eq!(counts(&mut hop), [0, 0, 50, 0, 0, 0]);
}

#[test]
fn the_whole_limit() {
    let mut hop = new_hop(100, 1000).unwrap();
    goes_on(&mut hop, 0, 100, "example.b.x");
    assert_eq!(answer_to(&mut hop, 0, 1, "example.b.x"), reject("T04"));
}

#[test]
fn the_greatest_sum() {
    let mut hop = new_hop(GREATEST, u64::MAX).unwrap();
    assert_eq!(goes_on(&mut hop, 0, GREATEST, "example.b.x").1, 1);
    assert_eq!(answer_to(&mut hop, 1, 1, "example.a"), reject("T04"));
    assert_eq!(hop.balances(1).unwrap().held, 0);
}

#[test]
fn an_amount_is_too_large() {
    let mut hop = new_hop(1000, 100).unwrap();
    assert_eq!(
        answer_to(&mut hop, 0, 150, "example.b.x"),
        too_large(150, 100)
    );
}

#[test]
fn time_that_is_left() {
    let mut hop = new_hop(100, 1000).unwrap();
    let bytes = prepare(5, EXPIRY, &[0; 32], "example.b");
    assert_eq!(
        answered(&mut hop, 0, &bytes, EXPIRY_MS - 1000),
        reject("R02")
    );
    let (ticket, to, onward) = forwarded(&mut hop, 0, &bytes, EXPIRY_MS - 1001);
    assert_eq!(
        (to, onward),
        (1, prepare(5, EARLIER, &[0; 32], "example.b"))
    );
    assert_eq!(hop.settle(ticket, FULFILL, 0).unwrap(), reject("F05"));
    assert_eq!(counts(&mut hop), [0; 6]);
}

#[test]
fn the_longest_prefix_counts() {
    let mut hop = new_hop(100, 1000).unwrap();
    assert_eq!(goes_on(&mut hop, 0, 1, "example.b.x").1, 1);
    assert_eq!(goes_on(&mut hop, 0, 1, "example.b.x.y-z.w").1, 1);
    assert_eq!(goes_on(&mut hop, 1, 1, "example.bc.x").1, 0);
    assert_eq!(answer_to(&mut hop, 0, 1, "test.b"), reject("F02"));
    assert_eq!(answer_to(&mut hop, 1, 1, "example.b"), reject("F02"));
}

#[test]
fn what_is_owed_may_come_back() {
    let mut hop = new_hop(100, 1000).unwrap();
    let (ticket, _) = goes_on(&mut hop, 0, 100, "example.b.x");
    assert_eq!(hop.settle(ticket, FULFILL, 0).unwrap(), FULFILL);
    assert_eq!(counts(&mut hop), [100, 0, 0, 0, 100, 0]);
    assert_eq!(answer_to(&mut hop, 1, 201, "example.a"), reject("T04"));
    let (ticket, _) = goes_on(&mut hop, 1, 200, "example.a");
    assert_eq!(hop.settle(ticket, FULFILL, 0).unwrap(), FULFILL);
    assert_eq!(counts(&mut hop), [100, 200, 0, 200, 100, 0]);
}

#[test]
fn a_fulfill_comes_in_time() {
    let mut hop = new_hop(100, 1000).unwrap();
    let (late, _) = goes_on(&mut hop, 0, 5, "example.b");
    assert_eq!(
        hop.settle(late, FULFILL, EXPIRY_MS - 1000).unwrap(),
        reject("R00")
    );
    assert_eq!(counts(&mut hop), [0; 6]);
    let (early, _) = goes_on(&mut hop, 0, 5, "example.b");
    assert_eq!(
        hop.settle(early, FULFILL, EXPIRY_MS - 1001).unwrap(),
        FULFILL
    );
    assert_eq!(counts(&mut hop), [5, 0, 0, 0, 5, 0]);
}

#[test]
fn no_answer_and_strange_bytes() {
    let mut hop = new_hop(100, 1000).unwrap();
    assert_eq!(hop.t00().unwrap(), reject("T00"));
    let endless = b"\x0c\x88\xff\xff\xff\xff\xff\xff\xff\xff";
    assert_eq!(answered(&mut hop, 0, endless, 0), reject("F01"));
    let (ticket, _) = goes_on(&mut hop, 0, 5, "example.b");
    assert_eq!(hop.fault(ticket).unwrap(), reject("T01"));
    let (ticket, _) = goes_on(&mut hop, 0, 5, "example.b");
    assert_eq!(hop.settle(ticket, &five(), 0).unwrap(), reject("T01"));
    assert_eq!(counts(&mut hop), [0; 6]);
}

/// A ticket is settled once, by whichever call; one that is abandoned keeps its amount reserved.
#[test]
fn a_ticket_is_settled_once() {
    let mut hop = new_hop(100, 1000).unwrap();
    let (first, _) = goes_on(&mut hop, 0, 5, "example.b");
    let (second, _) = goes_on(&mut hop, 0, 7, "example.b");
    assert_ne!(first, second);
    hop.settle(first, FULFILL, 0).unwrap();
    assert_eq!(hop.abandon(second), Ok(()));
    for ticket in [first, second] {
        assert_eq!(hop.settle(ticket, FULFILL, 0), Err(Error::Unknown));
        assert_eq!(hop.fault(ticket), Err(Error::Unknown));
        assert_eq!(hop.abandon(ticket), Err(Error::Unknown));
    }
    assert_eq!(counts(&mut hop), [5, 0, 7, 0, 5, 0]);
}

/// Why a hop with one account and these routes is not made.
fn refusal(own: &str, limit: u64, routes: &[Route<'_>]) -> Option<Error> {
    let max_packet = 1;
    Hop::new(own, &[Account { limit, max_packet }], routes).err()
}

#[test]
fn bad_tables() {
    let (root, behind) = (route("example", 0), route("example.b", 0));
    assert_eq!(refusal("example.c", 1, &[root]), None);
    assert_eq!(refusal("example.c", 1, &[root, behind]), None);
    assert_eq!(
        refusal("example.c", 1, &[route("", 0)]),
        Some(Error::Argument)
    );
    assert_eq!(refusal("example..c", 1, &[root]), Some(Error::Argument));
    assert_eq!(
        refusal("example.c", 1, &[route("example", 1)]),
        Some(Error::BadTable)
    );
    assert_eq!(
        refusal("example.c", 1, &[root, root]),
        Some(Error::BadTable)
    );
    assert_eq!(
        refusal("example.c", 1, &[root, behind, root]),
        Some(Error::BadTable)
    );
    assert_eq!(
        refusal("example.c", 1 << 63, &[root]),
        Some(Error::BadTable)
    );
}

#[test]
fn accounts_that_are_not_there() {
    let mut hop = new_hop(100, 1000).unwrap();
    assert_eq!(hop.balances(2), Err(Error::NoAccount));
    assert_eq!(hop.arrive(2, b"", 0), Err(Error::NoAccount));
}
