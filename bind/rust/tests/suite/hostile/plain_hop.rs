//! The rules of a hop once more, over the plain reading of a Prepare.

use super::plain::ilp;
use super::plain::ilp::{PlainAnswer, PlainPrepare};

/// The greatest sum of what is owed.
const MAX_SUM: u128 = 0x7fff_ffff_ffff_ffff;

/// SHA-256 of 32 zero bytes.
pub(crate) const ZERO_DIGEST: &[u8; 32] =
    b"\x66\x68\x7a\xad\xf8\x62\xbd\x77\x6c\x8f\xc1\x8b\x8e\x9f\x8e\x20\
\x08\x97\x14\x85\x6e\xe2\x33\xb3\x90\x2a\x59\x1d\x0d\x5f\x29\x25";

/// A neighbour's terms, and what is owed and reserved.
#[derive(Clone, Copy)]
pub(crate) struct PlainAccount {
    pub(crate) limit: u64,
    pub(crate) max_packet: u64,
    pub(crate) claims: u64,
    pub(crate) dues: u64,
    pub(crate) held: u64,
    /// The amounts of the Prepares that went there and wait for their answer.
    pub(crate) pending: u64,
}

/// The account for the addresses within a prefix, with the two numbers of the rate.
#[derive(Clone, Copy)]
pub(crate) struct PlainRoute {
    pub(crate) prefix: &'static str,
    pub(crate) account: usize,
    pub(crate) num: u32,
    pub(crate) den: u32,
}

/// What becomes of bytes that arrive.
#[derive(Clone, Copy)]
pub(crate) enum PlainVerdict<'a> {
    Rejects([u8; 3]),
    /// F08, whose data are two amounts: what arrived, and the most that may come.
    TooLarge(u64, u64),
    Forwards(PlainTicket<'a>),
}

/// What is forwarded, and what is reserved and pending for it.
#[derive(Clone, Copy)]
pub(crate) struct PlainTicket<'a> {
    pub(crate) prepare: PlainPrepare<'a>,
    pub(crate) from: usize,
    pub(crate) to: usize,
    pub(crate) received: u64,
    pub(crate) sent: u64,
}

/// The longest prefix of whole segments decides.
fn route_to(routes: &[PlainRoute], address: &[u8]) -> Option<PlainRoute> {
    let mut best: Option<PlainRoute> = None;
    for route in routes {
        let longest = match best {
            Some(other) => other.prefix.len(),
            None => 0,
        };
        if ilp::is_within(route.prefix.as_bytes(), address) && route.prefix.len() > longest {
            best = Some(*route);
        }
    }
    best
}

/// floor(amount x num / den).
fn exchanged(amount: u64, num: u32, den: u32) -> u128 {
    u128::from(amount)
        .wrapping_mul(u128::from(num))
        .checked_div(u128::from(den))
        .unwrap_or(0)
}

/// Whether a sum over all accounts with one amount more is past the greatest.
fn is_past_sum(sums: &[u64], amount: u128) -> bool {
    let mut all = amount;
    for sum in sums {
        all = all.saturating_add(u128::from(*sum));
    }
    all > MAX_SUM
}

/// Whether an amount that comes from this account is above what its limit leaves.
fn is_beyond(account: &PlainAccount, received: u64) -> bool {
    let owed = u128::from(account.claims)
        .saturating_add(u128::from(account.held))
        .saturating_add(u128::from(received));
    owed > u128::from(account.limit).saturating_add(u128::from(account.dues))
}

fn is_over_limit(accounts: &[PlainAccount; 3], from: usize, received: u64, sent: u128) -> bool {
    let [a, b, c] = accounts;
    let Some(account) = accounts.get(from) else {
        return true;
    };
    is_beyond(account, received)
        || is_past_sum(
            &[a.claims, a.held, b.claims, b.held, c.claims, c.held],
            u128::from(received),
        )
        || is_past_sum(
            &[a.dues, a.pending, b.dues, b.pending, c.dues, c.pending],
            sent,
        )
}

/// What becomes of bytes that arrive from an account at this moment.
pub(crate) fn verdict<'a>(
    accounts: &[PlainAccount; 3],
    routes: &[PlainRoute],
    from: usize,
    bytes: &'a [u8],
    now: i64,
) -> PlainVerdict<'a> {
    let Ok(prepare) = ilp::prepare(bytes) else {
        return PlainVerdict::Rejects(*b"F01");
    };
    let most = accounts.get(from).map_or(0, |account| account.max_packet);
    if prepare.amount > most {
        return PlainVerdict::TooLarge(prepare.amount, most);
    }
    if prepare.expiry <= now.saturating_add(1_000) {
        return PlainVerdict::Rejects(*b"R02");
    }
    let Some(route) = route_to(routes, prepare.destination) else {
        return PlainVerdict::Rejects(*b"F02");
    };
    if route.account == from {
        return PlainVerdict::Rejects(*b"F02");
    }
    let sent = exchanged(prepare.amount, route.num, route.den);
    if is_over_limit(accounts, from, prepare.amount, sent) {
        return PlainVerdict::Rejects(*b"T04");
    }
    PlainVerdict::Forwards(PlainTicket {
        prepare,
        from,
        to: route.account,
        received: prepare.amount,
        sent: u64::try_from(sent).unwrap_or(0),
    })
}

/// What the hop answers to a Prepare that was forwarded.
#[derive(Clone, Copy)]
pub(crate) enum PlainOutcome {
    Rejects([u8; 3]),
    /// A Reject as it came.
    Passes,
    /// A Fulfill as it came, which is booked.
    Books,
}

/// What the hop answers to this answer, or to none, at this moment.
pub(crate) fn outcome(ticket: PlainTicket<'_>, came: Option<&[u8]>, now: i64) -> PlainOutcome {
    let Some(bytes) = came else {
        return PlainOutcome::Rejects(*b"T01");
    };
    match ilp::answer(bytes) {
        Err(_) => PlainOutcome::Rejects(*b"T01"),
        Ok(PlainAnswer::Reject { .. }) => PlainOutcome::Passes,
        Ok(PlainAnswer::Fulfill { fulfillment, .. }) => {
            let fits = fulfillment == [0; 32].as_slice()
                && ticket.prepare.condition == ZERO_DIGEST.as_slice();
            if !fits {
                return PlainOutcome::Rejects(*b"F05");
            }
            if now >= ticket.prepare.expiry.saturating_sub(1_000) {
                return PlainOutcome::Rejects(*b"R00");
            }
            PlainOutcome::Books
        }
    }
}

impl PlainAccount {
    /// A neighbour with which nothing is owed yet.
    pub(crate) fn new(limit: u64, max_packet: u64) -> PlainAccount {
        PlainAccount {
            limit,
            max_packet,
            claims: 0,
            dues: 0,
            held: 0,
            pending: 0,
        }
    }
}

/// Takes a ticket's amounts into what is reserved and pending.
pub(crate) fn hold(accounts: &mut [PlainAccount; 3], ticket: PlainTicket<'_>) {
    if let Some(account) = accounts.get_mut(ticket.from) {
        account.held = account.held.saturating_add(ticket.received);
    }
    if let Some(account) = accounts.get_mut(ticket.to) {
        account.pending = account.pending.saturating_add(ticket.sent);
    }
}

/// Takes them out again, and books them if the Prepare was fulfilled.
pub(crate) fn release(accounts: &mut [PlainAccount; 3], ticket: PlainTicket<'_>, books: bool) {
    if let Some(account) = accounts.get_mut(ticket.from) {
        account.held = account.held.saturating_sub(ticket.received);
        if books {
            account.claims = account.claims.saturating_add(ticket.received);
        }
    }
    if let Some(account) = accounts.get_mut(ticket.to) {
        account.pending = account.pending.saturating_sub(ticket.sent);
        if books {
            account.dues = account.dues.saturating_add(ticket.sent);
        }
    }
}

/// The bytes of a Prepare as they are forwarded: the amount at the rate, and the expiry one second earlier.
pub(crate) fn onward(bytes: &[u8], ticket: PlainTicket<'_>, expiry: &[u8]) -> Vec<u8> {
    let contents = ilp::prepare_contents(bytes).unwrap_or(&[]);
    let (front, _) = bytes.split_at(bytes.len().saturating_sub(contents.len()));
    let mut out = front.to_vec();
    out.extend_from_slice(&ticket.sent.to_be_bytes());
    out.extend_from_slice(expiry);
    out.extend_from_slice(contents.split_at_checked(25).map_or(&[], |parts| parts.1));
    out
}
