//! Plain STREAM packets, frame by frame.

use crate::error::{Error, done};
use crate::output::output;
use crate::raw::{self, Handle};

/// The ILP packet that carries a STREAM packet.
#[derive(Clone, Copy, Debug, PartialEq, Eq, Hash)]
pub enum PacketKind {
    /// A request.
    Prepare = 12,
    /// The reply to a request that was accepted.
    Fulfill = 13,
    /// The reply to a request that was not.
    Reject = 14,
}

impl PacketKind {
    fn of(number: u32) -> Result<PacketKind, Error> {
        match number {
            12 => Ok(PacketKind::Prepare),
            13 => Ok(PacketKind::Fulfill),
            14 => Ok(PacketKind::Reject),
            _ => Err(Error::Argument),
        }
    }
}

/// A frame of a STREAM packet (RFC 0029, section 5.3). A `max_offset`, `receive_max`, `total_received`, `send_max` or `total_sent`
/// is `u64::MAX` if the packet that was read has a greater number.
#[derive(Clone, Debug, PartialEq, Eq)]
pub enum Frame {
    /// Type 01: the connection is closed.
    ConnectionClose {
        /// The error code: 1 means no error.
        code: u8,
        /// A message for people. It may be empty.
        message: String,
    },
    /// Type 02: the sender of the frame has another address from now on.
    ConnectionNewAddress {
        /// The ILP address, or nothing.
        address: String,
    },
    /// Type 03: the most bytes that the sender of the frame accepts over the whole connection.
    ConnectionMaxData {
        /// The greatest sum of the highest offsets of all streams.
        max_offset: u64,
    },
    /// Type 04: the sender of the frame has more bytes than the connection's limit allows.
    ConnectionDataBlocked {
        /// The sum of the highest offsets of all streams that it wants to reach.
        max_offset: u64,
    },
    /// Type 10: a stream is closed.
    StreamClose {
        /// The stream number.
        stream: u64,
        /// The error code: 1 means no error.
        code: u8,
        /// A message for people. It may be empty.
        message: String,
    },
    /// Type 11: a share of the packet's amount belongs to a stream.
    StreamMoney {
        /// The stream number.
        stream: u64,
        /// The stream gets the packet's amount times its shares, divided by the shares of all streams in the packet.
        shares: u64,
    },
    /// Type 12: the most money that the sender of the frame accepts on a stream.
    StreamMaxMoney {
        /// The stream number.
        stream: u64,
        /// The greatest total that it accepts on the stream.
        receive_max: u64,
        /// The total that it has received on the stream so far.
        total_received: u64,
    },
    /// Type 13: the sender of the frame has more money for a stream than the stream's limit allows.
    StreamMoneyBlocked {
        /// The stream number.
        stream: u64,
        /// The greatest total that it wants to send on the stream.
        send_max: u64,
        /// The total that it has sent on the stream so far.
        total_sent: u64,
    },
    /// Type 14: bytes of a stream.
    StreamData {
        /// The stream number.
        stream: u64,
        /// The offset of the first of the bytes in the stream, counted from 0.
        offset: u64,
        /// The bytes. There may be none.
        bytes: Vec<u8>,
    },
    /// Type 15: the most bytes of a stream that the sender of the frame accepts.
    StreamMaxData {
        /// The stream number.
        stream: u64,
        /// The offset below which it accepts bytes.
        max_offset: u64,
    },
    /// Type 16: the sender of the frame has more bytes of a stream than the stream's limit allows.
    StreamDataBlocked {
        /// The stream number.
        stream: u64,
        /// The offset up to which it wants to send.
        max_offset: u64,
    },
}

/// The fields of a type: its stream and two numbers.
fn fields(kind: u32, stream: u64, first: u64, second: u64) -> raw::Frame {
    raw::Frame {
        stream,
        first,
        second,
        kind,
        code: 0,
    }
}

impl Frame {
    /// The frame in the fields of the library.
    fn fields(&self) -> raw::Frame {
        match *self {
            Frame::ConnectionClose { code, .. } => raw::Frame {
                code: code.into(),
                ..fields(0x01, 0, 0, 0)
            },
            Frame::ConnectionNewAddress { .. } => fields(0x02, 0, 0, 0),
            Frame::ConnectionMaxData { max_offset } => fields(0x03, 0, max_offset, 0),
            Frame::ConnectionDataBlocked { max_offset } => fields(0x04, 0, max_offset, 0),
            Frame::StreamClose { stream, code, .. } => raw::Frame {
                code: code.into(),
                ..fields(0x10, stream, 0, 0)
            },
            Frame::StreamMoney { stream, shares } => fields(0x11, stream, shares, 0),
            Frame::StreamMaxMoney {
                stream,
                receive_max,
                total_received,
            } => fields(0x12, stream, receive_max, total_received),
            Frame::StreamMoneyBlocked {
                stream,
                send_max,
                total_sent,
            } => fields(0x13, stream, send_max, total_sent),
            Frame::StreamData { stream, offset, .. } => fields(0x14, stream, offset, 0),
            Frame::StreamMaxData { stream, max_offset } => fields(0x15, stream, max_offset, 0),
            Frame::StreamDataBlocked { stream, max_offset } => fields(0x16, stream, max_offset, 0),
        }
    }

    /// Its text, address or data.
    fn data(&self) -> &[u8] {
        match self {
            Frame::ConnectionClose { message, .. } | Frame::StreamClose { message, .. } => {
                message.as_bytes()
            }
            Frame::ConnectionNewAddress { address } => address.as_bytes(),
            Frame::StreamData { bytes, .. } => bytes,
            _ => &[],
        }
    }

    /// The frame of these fields and this text, address or data.
    fn of(fields: raw::Frame, data: Vec<u8>) -> Result<Frame, Error> {
        let raw::Frame {
            stream,
            first,
            second,
            kind,
            code,
        } = fields;
        let code = u8::try_from(code).map_err(|_| Error::Argument)?;
        let text = |data| String::from_utf8(data).map_err(|_| Error::NotUtf8);
        Ok(match kind {
            0x01 => Frame::ConnectionClose {
                code,
                message: text(data)?,
            },
            0x02 => Frame::ConnectionNewAddress {
                address: text(data)?,
            },
            0x03 => Frame::ConnectionMaxData { max_offset: first },
            0x04 => Frame::ConnectionDataBlocked { max_offset: first },
            0x10 => Frame::StreamClose {
                stream,
                code,
                message: text(data)?,
            },
            0x11 => Frame::StreamMoney {
                stream,
                shares: first,
            },
            0x12 => Frame::StreamMaxMoney {
                stream,
                receive_max: first,
                total_received: second,
            },
            0x13 => Frame::StreamMoneyBlocked {
                stream,
                send_max: first,
                total_sent: second,
            },
            0x14 => Frame::StreamData {
                stream,
                offset: first,
                bytes: data,
            },
            0x15 => Frame::StreamMaxData {
                stream,
                max_offset: first,
            },
            0x16 => Frame::StreamDataBlocked {
                stream,
                max_offset: first,
            },
            _ => return Err(Error::Argument),
        })
    }
}

/// The numbers of a packet.
#[derive(Clone, Copy, Debug, PartialEq, Eq)]
pub struct Header {
    /// The ILP packet that carries it.
    pub kind: PacketKind,
    /// The sequence number. A reply has that of its request.
    pub sequence: u64,
    /// In a Prepare the least amount that the receiver should accept, in a reply the amount that arrived. In units of the
    /// receiver's asset.
    pub amount: u64,
    /// How many frames of known types it has.
    pub frames: usize,
}

/// A plain STREAM packet (RFC 0029, section 5.2): what [`Keys::seal`](crate::Keys::seal) encrypts and
/// [`Keys::open`](crate::Keys::open) decrypts.
///
/// ```
/// use ilpstream::{Frame, Ivs, Keys, Packet, PacketKind};
///
/// # fn main() -> Result<(), Box<dyn std::error::Error>> {
/// let mut ivs = Ivs::new()?;
/// let mut keys = Keys::new(&ivs.secret()?)?;
/// let mut packet = Packet::new(PacketKind::Prepare, 1, 0)?;
/// packet.push(&Frame::StreamMoney { stream: 1, shares: 1 })?;
/// packet.push(&Frame::StreamData { stream: 1, offset: 0, bytes: b"hi".to_vec() })?;
/// let payload = keys.seal(&ivs.next()?, &packet.write()?)?;
///
/// let mut read = Packet::read(PacketKind::Prepare, &keys.open(&payload)?)?;
/// assert_eq!(read.header()?.sequence, 1);
/// for frame in read.frames()? {
///     let (index, frame) = frame?;
///     println!("{index}: {frame:?}");
/// }
/// # Ok(())
/// # }
/// ```
#[derive(Debug)]
pub struct Packet {
    handle: Handle,
}

impl Packet {
    /// A packet without frames. [`Error::StreamOutOfMemory`].
    pub fn new(kind: PacketKind, sequence: u64, amount: u64) -> Result<Packet, Error> {
        let mut handle = Handle::empty();
        done(raw::ilp_packet_new(
            &mut handle,
            kind as u32,
            sequence,
            amount,
        ))?;
        Ok(Packet { handle })
    }

    /// Reads all of the bytes as a packet that an ILP packet of this kind carried. Frames of unknown types, and bytes after the
    /// last frame, are skipped. The first fault: [`Error::StreamTooLong`], [`Error::StreamVersion`], [`Error::StreamKind`],
    /// [`Error::StreamOer`], [`Error::FrameFormat`]. [`Error::StreamOutOfMemory`].
    pub fn read(kind: PacketKind, bytes: &[u8]) -> Result<Packet, Error> {
        let mut handle = Handle::empty();
        done(raw::packet_read(&mut handle, kind as u32, bytes))?;
        Ok(Packet { handle })
    }

    /// Its numbers. They are not refused.
    pub fn header(&self) -> Result<Header, Error> {
        let mut header = raw::Header::default();
        done(raw::ilp_packet_header(&self.handle, &mut header))?;
        Ok(Header {
            kind: PacketKind::of(header.kind)?,
            sequence: header.sequence,
            amount: header.amount,
            frames: header.frames,
        })
    }

    /// Adds a frame after the others. [`Error::FrameFormat`] if its address is neither empty nor an ILP address;
    /// [`Error::StreamOutOfMemory`].
    pub fn push(&mut self, frame: &Frame) -> Result<(), Error> {
        done(raw::packet_push(
            &mut self.handle,
            &frame.fields(),
            frame.data(),
        ))
    }

    /// The known frame at a place, counted from 0, and its index over all frames, also those that were skipped, of the packet
    /// that was read; that of a frame that was added is how many known frames there were. [`Error::Argument`] if there are
    /// fewer known frames; [`Error::StreamOutOfMemory`].
    pub fn frame(&mut self, place: usize) -> Result<(u64, Frame), Error> {
        let (mut fields, mut index, mut len) = (raw::Frame::default(), 0, 0);
        let handle = &mut self.handle;
        done(raw::ilp_packet_frame(
            handle,
            place,
            &mut fields,
            &mut index,
            &mut len,
        ))?;
        Ok((index, Frame::of(fields, output(handle, len)?)?))
    }

    /// Its known frames, each with its index. They are not refused as a whole.
    pub fn frames(&mut self) -> Result<Frames<'_>, Error> {
        let end = self.header()?.frames;
        Ok(Frames {
            packet: self,
            place: 0,
            end,
        })
    }

    /// Its bytes, in the shortest encoding. [`Error::StreamTooLong`] above 32,739 bytes; [`Error::StreamOutOfMemory`].
    pub fn write(&mut self) -> Result<Vec<u8>, Error> {
        let mut len = 0;
        done(raw::ilp_packet_write(&mut self.handle, &mut len))?;
        output(&self.handle, len)
    }
}

/// The known frames of a packet, each with its index. If memory is refused for one, [`Error::StreamOutOfMemory`] is in its
/// place.
#[derive(Debug)]
pub struct Frames<'p> {
    packet: &'p mut Packet,
    place: usize,
    end: usize,
}

impl Iterator for Frames<'_> {
    type Item = Result<(u64, Frame), Error>;

    fn next(&mut self) -> Option<Self::Item> {
        if self.end <= self.place {
            return None;
        }
        self.place += 1;
        Some(self.packet.frame(self.place - 1))
    }

    fn size_hint(&self) -> (usize, Option<usize>) {
        let left = self.end - self.place;
        (left, Some(left))
    }
}

impl ExactSizeIterator for Frames<'_> {}
