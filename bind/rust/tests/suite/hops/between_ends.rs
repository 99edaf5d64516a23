//! A hop between two ends.

use ilpstream::{Account, Balances, End, EndConfig, Error, Hop, Role, Route, Verdict};

const ACCOUNT: Account = Account {
    limit: 1_000,
    max_packet: 500,
};

fn route(prefix: &str, account: usize, num: u32, den: u32) -> Route<'_> {
    Route {
        prefix,
        account,
        num,
        den,
    }
}

fn hop() -> Hop {
    let routes = [route("test.a", 0, 1, 1), route("test.b", 1, 1, 2)];
    Hop::new("test.hop", &[ACCOUNT, ACCOUNT], &routes).unwrap()
}

fn end(role: Role, own: &str, peer: &str) -> End {
    let config = EndConfig {
        least_den: 2,
        ..EndConfig::default()
    };
    End::new(role, &[3; 32], own, peer, config).unwrap()
}

/// 100 units cross a hop that gives one for two, and count once the Fulfill is accepted.
#[test]
fn money_is_exchanged_and_booked_once() {
    let (mut client, mut server) = (
        end(Role::Client, "test.a", "test.b"),
        end(Role::Server, "test.b", "test.a"),
    );
    let mut hop = hop();
    client.open_stream().unwrap();
    client.write(1, b"hi").unwrap();
    server.set_receive_max(1, 50).unwrap();
    let prepare = client.send(&[1; 12], 0).unwrap().unwrap();
    let Verdict::Forward {
        ticket,
        account: 1,
        bytes,
    } = hop.arrive(0, &prepare.bytes, 0).unwrap()
    else {
        panic!("it is forwarded to the second account");
    };
    let back = server.receive(&bytes, 0).unwrap();
    assert_eq!(back.reason, 0);
    let mut answer = hop.settle(ticket, &back.bytes, 0).unwrap();
    assert_eq!(client.answer(prepare.flight, &mut answer), Ok(true));
    assert_eq!(hop.balances(0), Ok(Balances::default()));
    assert_eq!(hop.balances(2), Err(Error::NoAccount));
    assert!(matches!(
        hop.arrive(0, b"no Prepare", 0),
        Ok(Verdict::Answer(_))
    ));
    assert_eq!(hop.arrive(7, &prepare.bytes, 0), Err(Error::NoAccount));
}

#[test]
fn a_table_that_is_none_is_refused() {
    let made = |own, routes: &[Route<'_>]| Hop::new(own, &[ACCOUNT], routes).err();
    assert_eq!(made("test..hop", &[]), Some(Error::Argument));
    assert_eq!(
        made("test.hop", &[route("test.a", 1, 1, 1)]),
        Some(Error::BadTable)
    );
    assert_eq!(
        made("test.hop", &[route("test.a", 0, 0, 1)]),
        Some(Error::Argument)
    );
    assert_eq!(
        made("test.hop", &[route("a", 0, 1, 1), route("a", 0, 1, 1)]),
        Some(Error::BadTable)
    );
}
