"""A hop: the connector between a sender and a receiver."""

from __future__ import annotations

from collections.abc import Sequence
from ctypes import byref, c_size_t, c_uint64
from dataclasses import dataclass

from . import _declared
from ._object import Buffer, Code, IlpError, Object, alone, done, lib, moment, number, taken


@dataclass(frozen=True)
class Account:
    """A neighbour's terms: how much it may owe the hop beyond what the hop owes it, at most 2^63 - 1 units, and the greatest
    amount of one Prepare from it."""

    limit: int
    max_packet: int


@dataclass(frozen=True)
class Route:
    """The account to which Prepares are sent whose destination has a prefix. If several routes fit, that of the longest
    prefix counts. The amount that is sent on is that which arrived times `num` / `den`, rounded down."""

    prefix: str
    account: int
    num: int = 1
    den: int = 1


@dataclass(frozen=True)
class Answer:
    """This Reject is to be sent back."""

    bytes: bytes


@dataclass(frozen=True)
class Forward:
    """This Prepare is to be sent on to an account. Its answer is reported once, by the number of the ticket."""

    ticket: int
    account: int
    bytes: bytes


@dataclass(frozen=True)
class Balances:
    """What an account owes the hop, what the hop owes it, and what is reserved of it, in units of its link."""

    claims: int
    dues: int
    held: int


@dataclass(frozen=True)
class Booking:
    """What a ticket books: the account `payer`, from which the Prepare arrived, owes `claim` more, and `payee`, to which it was
    sent on, is owed `due` more, each in units of its link."""

    payer: int
    claim: int
    payee: int
    due: int


def _table(own: str, accounts: Sequence[Account], routes: Sequence[Route]) -> tuple[object, ...]:
    """A table as arguments of a call."""
    prefixes = [route.prefix.encode() for route in routes]
    text = b"".join(prefixes)
    terms = (_declared.Account * len(accounts))(
        *((number(it.limit, 64, "a limit"), number(it.max_packet, 64, "a greatest amount")) for it in accounts)
    )
    table = (_declared.Route * len(routes))(
        *(
            (
                len(prefix),
                number(route.account, 64, "an account"),
                number(route.num, 32, "a rate"),
                number(route.den, 32, "a rate"),
            )
            for prefix, route in zip(prefixes, routes)
        )
    )
    name = own.encode()
    return name, len(name), terms, len(terms), text, len(text), table, len(table)


def _sums(sums: Sequence[int], name: str) -> tuple[object, int]:
    """A sum for each account, as arguments of a call."""
    return (c_uint64 * len(sums))(*(number(it, 64, name) for it in sums)), len(sums)


class Hop(Object):
    """A hop (RFC 0027): it sends Prepares on by its routes, holds their amounts against the accounts that they came from, and
    books those that are fulfilled in time. It does no I/O and knows no clock.

    >>> terms = Account(limit=1000, max_packet=500)
    >>> with Hop("example.hub", [terms, terms], [Route("example.bob", 1)]) as hop:
    ...     reject = hop.arrive(0, b"no Prepare", 0)
    ...     hop.balances(0)
    Balances(claims=0, dues=0, held=0)
    >>> reject.bytes[0]  # the type of a Reject
    14
    """

    def __init__(self, own: str, accounts: Sequence[Account], routes: Sequence[Route]) -> None:
        """A hop with its own ILP address, its accounts, numbered from 0, and its routes. Nothing is owed yet."""
        super().__init__()
        done(lib.ilp_hop_new(self._at(), *_table(own, accounts, routes)))

    @classmethod
    def restored(
        cls,
        own: str,
        accounts: Sequence[Account],
        routes: Sequence[Route],
        claims: Sequence[int],
        dues: Sequence[int],
        next: int,
    ) -> Hop:
        """A hop with the books of an earlier one: what each account owes it, and what it owes each. No ticket is open. Tickets are
        numbered from `next` on, which has to be above each number that an earlier hop with these books gave out. Raises
        `Code.BAD_BOOKS` if not each account has a claim and a due, one owes more than its limit beyond its due, or a sum is
        above 2^63 - 1.

        >>> terms = Account(limit=1000, max_packet=500)
        >>> routes = [Route("example.bob", 1)]
        >>> with Hop.restored("example.hub", [terms, terms], routes, [40, 0], [0, 40], next=1 << 44) as hop:
        ...     hop.balances(1)
        Balances(claims=0, dues=40, held=0)
        """
        hop = cls.__new__(cls)
        Object.__init__(hop)
        books = (*_sums(claims, "a claim"), *_sums(dues, "a due"))
        table = _table(own, accounts, routes)
        done(lib.ilp_hop_restored(hop._at(), *table, *books, number(next, 64, "the first number")))
        return hop

    @alone
    def restart(self) -> None:
        """Forgets every open ticket, as a crash and a start with the same books do. Claims and dues stay, nothing is reserved any
        more, and the numbers of tickets continue."""
        done(lib.ilp_hop_restart(self._at()))

    @alone
    def arrive(self, account: int, data: Buffer, now: int) -> Answer | Forward:
        """What becomes of a Prepare that came from an account at the time `now`. If it is sent on, its amount is reserved until
        the ticket is settled. If it raises `Code.HOP_NO_MEMORY`, answer with `t00()`, and the sender sends again."""
        arrived = _declared.Arrived()
        data, account = taken(data), number(account, 64, "the account")
        answer = lib.ilp_hop_arrive(self._at(), account, data, len(data), moment(now), byref(arrived))
        if answer == Code.DONE:
            return Answer(self._output(arrived.len))
        if answer == Code.ONWARD:
            return Forward(arrived.ticket, arrived.account, self._output(arrived.len))
        raise IlpError(answer)

    @alone
    def books(self, ticket: int, data: Buffer, now: int) -> Booking | None:
        """What `settle` with the same arguments would book, or None. It changes nothing. A host that keeps books of its own asks
        this, stores the booking, settles the ticket with the same bytes and the same `now`, and then sends the answer back.
        Raises `Code.UNKNOWN` if the ticket is not open.

        >>> from ilpstream import Fulfill, Prepare, condition
        >>> terms = Account(limit=1000, max_packet=500)
        >>> prepare = Prepare(5, 60_000, condition(bytes(32)), "example.bob")
        >>> answer = Fulfill(bytes(32)).write()
        >>> with Hop("example.hub", [terms, terms], [Route("example.bob", 1, num=3, den=2)]) as hop:
        ...     ticket = hop.arrive(0, prepare.write(), 0).ticket
        ...     hop.books(ticket, answer, 0)
        ...     hop.settle(ticket, answer, 0) == answer, hop.balances(1).dues
        Booking(payer=0, claim=5, payee=1, due=7)
        (True, 7)
        """
        it = _declared.Booking()
        data, ticket = taken(data), number(ticket, 64, "the ticket")
        done(lib.ilp_hop_books(self._at(), ticket, data, len(data), moment(now), byref(it)))
        return Booking(it.payer, it.claim, it.payee, it.due) if it.books else None

    @alone
    def settle(self, ticket: int, data: Buffer, now: int) -> bytes:
        """Settles a ticket by the bytes of its answer, and gives those that are to be sent back. A Fulfill that fits and came
        in time is booked; all else becomes a Reject. Raises `Code.UNKNOWN` if the ticket is not open."""
        length = c_size_t()
        data, ticket = taken(data), number(ticket, 64, "the ticket")
        done(lib.ilp_hop_settle(self._at(), ticket, data, len(data), moment(now), byref(length)))
        return self._output(length.value)

    @alone
    def fault(self, ticket: int) -> bytes:
        """The same if no answer arrived, and none is waited for: a Reject T01."""
        length = c_size_t()
        done(lib.ilp_hop_fault(self._at(), number(ticket, 64, "the ticket"), byref(length)))
        return self._output(length.value)

    @alone
    def abandon(self, ticket: int) -> None:
        """Gives up a ticket without an answer. The amount stays reserved."""
        done(lib.ilp_hop_abandon(self._at(), number(ticket, 64, "the ticket")))

    @alone
    def t00(self) -> bytes:
        """A Reject T00 that is kept ready, for use if memory is refused."""
        return self._text("ilp_hop_t00")

    @alone
    def balances(self, account: int) -> Balances:
        """What the hop and an account owe each other."""
        balances = _declared.Balances()
        done(lib.ilp_hop_balances(self._at(), number(account, 64, "the account"), byref(balances)))
        return Balances(balances.claims, balances.dues, balances.held)
