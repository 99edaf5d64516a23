//! The rules of an end that receives once more, over the plain reading of a packet. This end is a server from which nothing
//! is read, so no window moves but by an abort.

use super::plain::stream::{PlainFrame, PlainPacket};

/// What a stream takes past what was read.
const STREAM_WINDOW: u64 = 65_536;

/// What the connection takes past what was read.
const CONNECTION_WINDOW: u64 = 1_048_576;

/// One stream's incoming direction.
#[derive(Clone, Copy)]
pub(crate) struct PlainStream {
    pub(crate) is_open: bool,
    pub(crate) receive_max: u64,
    pub(crate) credited: u64,
    /// The highest end of bytes received.
    highest: u64,
    /// After a clean close or an abort.
    is_over: bool,
    is_aborted: bool,
}

/// The streams of an end by their numbers (the first is not used), and its credit.
#[derive(Clone, Copy)]
pub(crate) struct PlainEnd {
    pub(crate) streams: [PlainStream; 65],
    pub(crate) credit: u64,
    is_closed: bool,
}

/// The shares of each stream, and their sum.
#[derive(Clone, Copy)]
struct Shares {
    of: [u64; 65],
    all: u128,
}

impl PlainEnd {
    /// An end with no stream, if this stream may receive so much.
    pub(crate) fn new() -> PlainEnd {
        let closed = PlainStream {
            is_open: false,
            receive_max: 0,
            credited: 0,
            highest: 0,
            is_over: false,
            is_aborted: false,
        };
        PlainEnd {
            streams: [closed; 65],
            credit: 0,
            is_closed: false,
        }
    }

    pub(crate) fn set_receive_max(&mut self, number: usize, amount: u64) {
        if let Some(stream) = self.streams.get_mut(number) {
            stream.receive_max = amount;
        }
    }

    /// The stream of this number, if it is open or the client may open it.
    pub(crate) fn stream(&self, number: u64) -> Option<PlainStream> {
        if number == 0 || number > 64 {
            return None;
        }
        let stream = self.streams.get(number as usize).copied()?;
        if stream.is_open || number % 2 == 1 {
            Some(stream)
        } else {
            None
        }
    }

    fn put_stream(&mut self, number: u64, stream: PlainStream) {
        if number > 64 {
            return;
        }
        if let Some(place) = self.streams.get_mut(number as usize) {
            *place = stream;
        }
    }

    /// The sum of the highest ends of all streams, and that of what counts as read.
    pub(crate) fn offsets(&self) -> (u64, u64) {
        let (mut received, mut read) = (0u64, 0u64);
        for stream in &self.streams {
            received = received.saturating_add(stream.highest);
            if stream.is_aborted {
                read = read.saturating_add(stream.highest);
            }
        }
        (received, read)
    }

    /// The bytes that the connection takes in all.
    pub(crate) fn connection_limit(&self) -> u64 {
        self.offsets().1.saturating_add(CONNECTION_WINDOW)
    }

    /// Takes the data of a frame, or reports the rule that they break.
    fn take_data(&mut self, number: u64, offset: u64, size: u64) -> Result<(), u8> {
        let Some(mut stream) = self.stream(number) else {
            return Err(63);
        };
        let Some(end) = offset.checked_add(size) else {
            return Err(62);
        };
        if stream.is_over {
            return Ok(());
        }
        if end > STREAM_WINDOW {
            return Err(62);
        }
        if size > 0 {
            stream.highest = stream.highest.max(end);
        }
        let limit = self.connection_limit();
        self.put_stream(number, stream);
        if size > 0 && self.offsets().0 > limit {
            return Err(62);
        }
        Ok(())
    }

    /// Opens the stream that a frame names and takes its data, or reports the rule that it breaks.
    fn take_frame(&mut self, frame: &PlainFrame<'_>) -> Result<(), u8> {
        let [number, offset, _] = frame.numbers;
        if !matches!(frame.kind, 0x10 | 0x11 | 0x14) {
            return Ok(());
        }
        let Some(mut stream) = self.stream(number) else {
            return Err(63);
        };
        stream.is_open = true;
        self.put_stream(number, stream);
        if frame.kind == 0x14 {
            self.take_data(number, offset, frame.bytes.len() as u64)?;
        }
        Ok(())
    }

    /// Credits the streams with their parts of an amount, or reports the rule that it breaks.
    fn take_money(&mut self, amount: u64, shares: &Shares) -> Result<(), u8> {
        if shares.all > u128::from(u64::MAX) || amount > 0 && shares.all == 0 {
            return Err(64);
        }
        if amount == 0 {
            return Ok(());
        }
        let mut rest = remainder(amount, shares);
        let mut is_over = false;
        for (stream, part) in self.streams.iter_mut().zip(shares.of) {
            if part == 0 {
                continue;
            }
            let credit = part_of(amount, part, shares.all).saturating_add(rest);
            rest = 0;
            stream.credited = stream.credited.saturating_add(credit);
            is_over |= stream.credited > stream.receive_max;
        }
        self.credit = self.credit.saturating_add(amount);
        if is_over || self.credit > 0x7fff_ffff_ffff_ffff {
            return Err(65);
        }
        Ok(())
    }

    /// Closes the streams that frames close, and at last the connection.
    fn take_closes(&mut self, frames: &[PlainFrame<'_>]) {
        for frame in frames {
            let [number, code, _] = frame.numbers;
            if frame.kind != 0x10 {
                continue;
            }
            if let Some(mut stream) = self.stream(number) {
                stream.is_aborted |= !stream.is_over && code != 1;
                stream.is_over = true;
                self.put_stream(number, stream);
            }
        }
        if !frames.iter().any(|frame| frame.kind == 0x01) {
            return;
        }
        self.is_closed = true;
        for stream in &mut self.streams {
            stream.is_aborted |= stream.is_open && !stream.is_over;
            stream.is_over |= stream.is_open;
        }
    }

    /// The end after a packet that came with this amount, or the rule that it breaks. Whether its sequence was fulfilled
    /// before the caller knows.
    pub(crate) fn after(
        &self,
        packet: &PlainPacket<'_>,
        is_repeated: bool,
        amount: u64,
    ) -> Result<PlainEnd, u8> {
        if self.is_closed {
            return Err(66);
        }
        if is_repeated {
            return Err(60);
        }
        if amount < packet.amount {
            return Err(61);
        }
        let mut next = *self;
        for frame in &packet.frames {
            next.take_frame(frame)?;
        }
        next.take_money(amount, &shares_of(&packet.frames))?;
        next.take_closes(&packet.frames);
        Ok(next)
    }
}

/// floor(amount x part / all).
fn part_of(amount: u64, part: u64, all: u128) -> u64 {
    let part = u128::from(amount)
        .wrapping_mul(u128::from(part))
        .checked_div(all)
        .unwrap_or(0);
    u64::try_from(part).unwrap_or(0)
}

/// What of an amount no stream's part has.
fn remainder(amount: u64, shares: &Shares) -> u64 {
    let mut rest = amount;
    for part in shares.of {
        rest = rest.saturating_sub(part_of(amount, part, shares.all));
    }
    rest
}

/// The shares of each stream, those of one stream added up.
fn shares_of(frames: &[PlainFrame<'_>]) -> Shares {
    let mut shares = Shares {
        of: [0; 65],
        all: 0,
    };
    for frame in frames {
        let [number, part, _] = frame.numbers;
        if frame.kind != 0x11 || number > 64 {
            continue;
        }
        if let Some(sum) = shares.of.get_mut(number as usize) {
            *sum = sum.saturating_add(part);
        }
        shares.all = shares.all.saturating_add(u128::from(part));
    }
    shares
}
