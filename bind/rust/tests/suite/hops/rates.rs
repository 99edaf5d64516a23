//! Prepares that are sent on at another rate than 1 to 1: the amount for account 1 is exchanged, that for account 0 is not.

use super::{
    EARLIER, EXPIRY, FULFILL, ZERO_DIGEST, answer_to, counts, forwarded, goes_on, prepare, reject,
    route, too_large,
};
use ilpstream::{Account, Hop, Route};

/// The greatest limit and the greatest sum: 2^63 - 1.
const GREATEST: u64 = 9_223_372_036_854_775_807;

/// A hop with nothing owed, and this rate towards account 1.
fn rated_hop(limit: u64, max_packet: u64, num: u32, den: u32) -> Hop {
    let account = Account { limit, max_packet };
    let exchanged = Route {
        num,
        den,
        ..route("example.b", 1)
    };
    Hop::new(
        "example.c",
        &[account, account],
        &[route("example", 0), exchanged],
    )
    .unwrap()
}

/// The amount with which a Prepare of another is sent on.
fn sent_for(hop: &mut Hop, amount: u64) -> u64 {
    let came = prepare(amount, EXPIRY, &ZERO_DIGEST, "example.b");
    let (_, to, onward) = forwarded(hop, 0, &came, 0);
    let sent = u64::from_be_bytes(onward[2..10].try_into().unwrap());
    assert_eq!(
        (to, onward),
        (1, prepare(sent, EARLIER, &ZERO_DIGEST, "example.b"))
    );
    sent
}

/// Each row: num and den, the amount that comes, and the amount that is sent on.
#[test]
fn amounts_are_exchanged() {
    let rows = [
        (3, 2, 100, 150),
        (3, 2, 101, 151),
        (1, 2, 151, 75),
        (1, 2, 150, 75),
        (1, 3, 2, 0),
        (1, 3, 3, 1),
        (1, 1, 7, 7),
        (u32::MAX, 1, 2, 8_589_934_590),
        (1, u32::MAX, 4_294_967_294, 0),
        (1, u32::MAX, 4_294_967_295, 1),
        (1, 1, GREATEST, GREATEST),
        (2, 3, GREATEST, 6_148_914_691_236_517_204),
    ];
    for (num, den, came, sent) in rows {
        let mut hop = rated_hop(GREATEST, u64::MAX, num, den);
        assert_eq!(sent_for(&mut hop, came), sent, "{came} at {num} to {den}");
        assert_eq!(
            hop.balances(0).unwrap().held,
            came,
            "{came} at {num} to {den}"
        );
    }
}

/// Claims are in the amount that came, dues in the one that was sent on. Each row: num and den, and these two.
#[test]
fn claims_and_dues_are_in_their_own_amounts() {
    for (num, den, claim, due) in [(3, 2, 100, 150), (1, 2, 150, 75), (1, 3, 2, 0)] {
        let mut hop = rated_hop(1000, 1000, num, den);
        let (ticket, _) = goes_on(&mut hop, 0, claim, "example.b");
        assert_eq!(hop.settle(ticket, FULFILL, 0).unwrap(), FULFILL);
        assert_eq!(counts(&mut hop), [claim, 0, 0, 0, due, 0]);
    }
}

/// An account's limit and its packet limit bound what arrives, whatever is sent on for it.
#[test]
fn limits_bound_what_comes() {
    for (num, den) in [(3, 2), (1, 2)] {
        let mut hop = rated_hop(100, 1000, num, den);
        assert_eq!(answer_to(&mut hop, 0, 101, "example.b"), reject("T04"));
        goes_on(&mut hop, 0, 100, "example.b");
    }
    let mut halved = rated_hop(1000, 60, 1, 2);
    assert_eq!(
        answer_to(&mut halved, 0, 150, "example.b"),
        too_large(150, 60)
    );
    assert_eq!(sent_for(&mut halved, 60), 30);
    assert_eq!(sent_for(&mut rated_hop(1000, 60, 3, 2), 60), 90);
}

/// What an account is owed, in the amount that was sent to it, may return from it in addition to its limit.
#[test]
fn what_is_owed_may_come_back() {
    let mut hop = rated_hop(100, 1000, 3, 2);
    let (ticket, _) = goes_on(&mut hop, 0, 100, "example.b");
    assert_eq!(hop.settle(ticket, FULFILL, 0).unwrap(), FULFILL);
    assert_eq!(answer_to(&mut hop, 1, 251, "example.a"), reject("T04"));
    assert_eq!(goes_on(&mut hop, 1, 250, "example.a").1, 0);
    assert_eq!(hop.balances(1).unwrap().held, 250);
}

/// An amount that would be sent on past 2^63 - 1, alone or with what is pending, is answered T04. Each row: num and den, the
/// greatest amount that is sent on, and one that is not.
#[test]
fn the_greatest_amounts_are_sent_on() {
    let rows = [
        (1, 1, GREATEST, 9_223_372_036_854_775_808),
        (2, 1, 4_611_686_018_427_387_903, 4_611_686_018_427_387_904),
        (4, 1, 2_305_843_009_213_693_951, 4_611_686_018_427_387_904),
        (u32::MAX, 1, 2_147_483_648, 2_147_483_649),
        (u32::MAX, 1, 2_147_483_648, GREATEST),
    ];
    for (num, den, most, more) in rows {
        let mut hop = rated_hop(GREATEST, u64::MAX, num, den);
        assert_eq!(answer_to(&mut hop, 0, more, "example.b"), reject("T04"));
        assert_eq!(hop.balances(0).unwrap().held, 0);
        goes_on(&mut hop, 0, most, "example.b");
        assert_eq!(answer_to(&mut hop, 0, most, "example.b"), reject("T04"));
        assert_eq!(hop.balances(0).unwrap().held, most);
    }
}
