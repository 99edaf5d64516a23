"""The calls of libilpstream.so, as its header declares them. tests/bindings.py compares them with the archive's sources."""

from ctypes import POINTER, Structure, c_char_p, c_int, c_int64, c_size_t, c_uint8, c_uint32, c_uint64


class Handle(Structure):
    """Nothing, or the number of an object."""

    _fields_ = [("inner", c_uint64)]


class Config(Structure):
    _fields_ = [
        ("size", c_size_t),
        ("in_flight", c_size_t),
        ("packets", c_uint64),
        ("packet_limit", c_uint64),
        ("least_num", c_uint32),
        ("least_den", c_uint32),
    ]


class Received(Structure):
    _fields_ = [
        ("len", c_size_t),
        ("amount", c_uint64),
        ("sequence", c_uint64),
        ("reason", c_uint32),
        ("opened", c_uint32),
    ]


class Totals(Structure):
    _fields_ = [("accepted", c_uint64), ("delivered", c_uint64), ("credited", c_uint64), ("paid", c_uint64)]


class Failure(Structure):
    _fields_ = [
        ("size", c_size_t),
        ("kind", c_uint32),
        ("code", c_uint8 * 3),
        ("by_len", c_size_t),
        ("message_len", c_size_t),
        ("by", c_uint8 * 1023),
        ("message", c_uint8 * 255),
    ]


class Account(Structure):
    _fields_ = [("limit", c_uint64), ("max_packet", c_uint64)]


class Route(Structure):
    _fields_ = [("prefix_len", c_size_t), ("account", c_size_t), ("num", c_uint32), ("den", c_uint32)]


class Arrived(Structure):
    _fields_ = [("len", c_size_t), ("account", c_size_t), ("ticket", c_uint64)]


class Balances(Structure):
    _fields_ = [("claims", c_uint64), ("dues", c_uint64), ("held", c_uint64)]


class Booking(Structure):
    _fields_ = [
        ("payer", c_size_t),
        ("claim", c_uint64),
        ("payee", c_size_t),
        ("due", c_uint64),
        ("books", c_uint32),
    ]


class Prepare(Structure):
    _fields_ = [
        ("amount", c_uint64),
        ("expiry", c_int64),
        ("condition", c_uint8 * 32),
        ("destination_at", c_size_t),
        ("destination_len", c_size_t),
        ("payload_at", c_size_t),
        ("payload_len", c_size_t),
    ]


class Answer(Structure):
    _fields_ = [
        ("kind", c_uint32),
        ("fulfillment", c_uint8 * 32),
        ("code", c_uint8 * 3),
        ("by_at", c_size_t),
        ("by_len", c_size_t),
        ("message_at", c_size_t),
        ("message_len", c_size_t),
        ("payload_at", c_size_t),
        ("payload_len", c_size_t),
    ]


class Frame(Structure):
    _fields_ = [
        ("stream", c_uint64),
        ("first", c_uint64),
        ("second", c_uint64),
        ("kind", c_uint32),
        ("code", c_uint32),
    ]


class Header(Structure):
    _fields_ = [("sequence", c_uint64), ("amount", c_uint64), ("frames", c_size_t), ("kind", c_uint32)]


class Reading(Structure):
    _fields_ = [
        ("wants", c_size_t),
        ("taken", c_size_t),
        ("account", c_size_t),
        ("body_len", c_size_t),
        ("status", c_uint32),
    ]


_handle = POINTER(Handle)
_array = c_char_p  # of as many bytes as the call takes
_bytes = (c_char_p, c_size_t)
_room = (POINTER(c_uint8), c_size_t)
_out = POINTER(c_uint8)  # an array of as many bytes as the call gives
_u32, _u64, _size = POINTER(c_uint32), POINTER(c_uint64), POINTER(c_size_t)

# What the calls return that need no handle and are not part of the proved archive, and their parameters.
ABOUT = {
    "ilp_version": (c_char_p, ()),
    "ilp_error_text": (c_char_p, (c_uint32,)),
    "ilp_is_no_memory": (c_int, (c_uint32,)),
}

# What each call of the proved archive returns, and its parameters.
CALLS = {
    "ilp_free": (c_uint32, (_handle,)),
    "ilp_output": (c_uint32, (_handle, *_room, _size)),
    "ilp_end_new": (c_uint32, (_handle, c_uint32, _array, *_bytes, *_bytes, POINTER(Config))),
    "ilp_end_open_stream": (c_uint32, (_handle, _u32)),
    "ilp_end_write": (c_uint32, (_handle, c_uint32, *_bytes)),
    "ilp_end_room": (c_uint32, (_handle, c_uint32, _size)),
    "ilp_end_ready": (c_uint32, (_handle, *_room, _size)),
    "ilp_end_streams": (c_uint32, (_handle, *_room, _size)),
    "ilp_end_close": (c_uint32, (_handle, c_uint32)),
    "ilp_end_abort": (c_uint32, (_handle, c_uint32, c_uint32)),
    "ilp_end_offer": (c_uint32, (_handle, c_uint32, c_uint64)),
    "ilp_end_set_receive_max": (c_uint32, (_handle, c_uint32, c_uint64)),
    "ilp_end_read": (c_uint32, (_handle, c_uint32, c_size_t, _size, _u64)),
    "ilp_end_send": (c_uint32, (_handle, _array, c_int64, _u64, _size)),
    "ilp_end_answer": (c_uint32, (_handle, c_uint64, *_room, _u32)),
    "ilp_end_fault": (c_uint32, (_handle, c_uint64)),
    "ilp_end_receive": (c_uint32, (_handle, *_bytes, c_int64, POINTER(Received))),
    "ilp_end_t00": (c_uint32, (_handle, *_room, _size)),
    "ilp_end_totals": (c_uint32, (_handle, POINTER(Totals))),
    "ilp_end_has_stream": (c_uint32, (_handle, c_uint32, _u32)),
    "ilp_end_settled": (c_uint32, (_handle, c_uint32, _u32)),
    "ilp_end_is_failed": (c_uint32, (_handle, _u32)),
    "ilp_end_last_failure": (c_uint32, (_handle, POINTER(Failure))),
    "ilp_hop_new": (
        c_uint32,
        (_handle, *_bytes, POINTER(Account), c_size_t, *_bytes, POINTER(Route), c_size_t),
    ),
    "ilp_hop_restored": (
        c_uint32,
        (
            _handle,
            *_bytes,
            POINTER(Account),
            c_size_t,
            *_bytes,
            POINTER(Route),
            c_size_t,
            _u64,
            c_size_t,
            _u64,
            c_size_t,
            c_uint64,
        ),
    ),
    "ilp_hop_restart": (c_uint32, (_handle,)),
    "ilp_hop_arrive": (c_uint32, (_handle, c_size_t, *_bytes, c_int64, POINTER(Arrived))),
    "ilp_hop_books": (c_uint32, (_handle, c_uint64, *_bytes, c_int64, POINTER(Booking))),
    "ilp_hop_settle": (c_uint32, (_handle, c_uint64, *_bytes, c_int64, _size)),
    "ilp_hop_fault": (c_uint32, (_handle, c_uint64, _size)),
    "ilp_hop_abandon": (c_uint32, (_handle, c_uint64)),
    "ilp_hop_t00": (c_uint32, (_handle, *_room, _size)),
    "ilp_hop_balances": (c_uint32, (_handle, c_size_t, POINTER(Balances))),
    "ilp_keys_new": (c_uint32, (_handle, _array)),
    "ilp_keys_seal": (c_uint32, (_handle, _array, *_bytes, _size)),
    "ilp_keys_open": (c_uint32, (_handle, *_bytes, _size)),
    "ilp_keys_fulfillment": (c_uint32, (_handle, *_bytes, _out)),
    "ilp_packet_new": (c_uint32, (_handle, c_uint32, c_uint64, c_uint64)),
    "ilp_packet_read": (c_uint32, (_handle, c_uint32, *_bytes)),
    "ilp_packet_header": (c_uint32, (_handle, POINTER(Header))),
    "ilp_packet_push": (c_uint32, (_handle, POINTER(Frame), *_bytes)),
    "ilp_packet_frame": (c_uint32, (_handle, c_size_t, POINTER(Frame), _u64, _size)),
    "ilp_packet_write": (c_uint32, (_handle, _size)),
    "ilp_condition": (c_uint32, (_array, _out)),
    "ilp_prepare_read": (c_uint32, (*_bytes, POINTER(Prepare))),
    "ilp_answer_read": (c_uint32, (*_bytes, POINTER(Answer))),
    "ilp_prepare_write": (c_uint32, (c_uint64, c_int64, _array, *_bytes, *_bytes, *_room, _size)),
    "ilp_fulfill_write": (c_uint32, (_array, *_bytes, *_room, _size)),
    "ilp_reject_write": (c_uint32, (_array, *_bytes, *_bytes, *_bytes, *_room, _size)),
    "ilp_request_new": (c_uint32, (_handle, *_bytes, _size, c_size_t)),
    "ilp_response_new": (c_uint32, (_handle,)),
    "ilp_message_feed": (c_uint32, (_handle, *_bytes, POINTER(Reading))),
    "ilp_request_text": (c_uint32, (*_bytes, *_bytes, *_bytes, *_room, _size)),
    "ilp_answer_text": (c_uint32, (*_bytes, *_room, _size)),
    "ilp_refusal_text": (c_uint32, (c_uint32, *_room, _size)),
}
