//! The engine: its state, and the calls on it.

use crate::face::{self, Answer};
use crate::record::{Records, RECORD_MOST};
use crate::refusal::{unless_refused, Refusal};
use crate::time::{Millis, Nanos, Resolution};

/// The most flows that an engine can hold open.
pub const CAPACITY_MOST: u64 = 4096;

/// Output that always suffices for one packet of an engine with this capacity, and so for any sweep or drain.
///
/// ```
/// assert_eq!(braidpuddle::room_for_one(32), 33 * 358);
/// ```
pub const fn room_for_one(capacity: u64) -> usize {
    (capacity as usize + 1) * RECORD_MOST
}

/// Where the state's memory has its capacity.
const CAPACITY_BYTES: std::ops::Range<usize> = 8..16;

/// What the library answers of a damaged state.
const DAMAGED: u64 = u64::MAX;

/// A flow meter with room for so many open flows. It owns its state, which is sound at any time: so of the calls on an engine none is
/// refused with [`Refusal::Damaged`].
///
/// # What becomes of packets
///
/// - A flow's record has the key of the packet that opened it, and that packet's direction is forward. The whole key names the flow: where one
///   direction alone has a VLAN tag, or a MAC address changes on the way, one conversation is two flows.
/// - A packet with RST is counted and ends its flow, as Rst. Any other packet behind FIN both ways is counted and ends its flow, as Fin; but one
///   with SYN ends it uncounted, as Fin, and opens another, and ends nothing more. These flags are obeyed for any protocol.
/// - What comes behind the end is a flow of its own: a second ACK behind both FINs, or data behind RST, opens a record, mostly of one packet.
/// - Each packet first sweeps at its own time. A flow is due once the latest time seen, of packets and sweeps, has reached its latest packet +
///   the timeout + the lesser of one second and half the timeout. The packet, of any flow, or the sweep whose time reaches that hands it out
///   before anything is counted, as Fin if FIN was seen both ways, else as IdleTimeout.
/// - A late packet counts on its open flow; if it opens a flow that is already due, that one leaves with the next packet or sweep.
///
/// # What a call costs
///
/// Each call first checks the whole state, about a tenth of a microsecond for each open flow: feed large batches. A call takes up to about 90
/// kilobytes of stack.
///
/// ```
/// use braidpuddle::{Endpoints, Engine, Facts, Key, Millis, Nanos, Packet, Resolution, TcpFlags};
///
/// let mut engine = Engine::open(32, Millis(1000), Resolution::Finer)?;
/// let mut out = vec![0; engine.room_for_one()];
///
/// let key = Key::new(
///     6,
///     "10.0.0.1".parse().unwrap(),
///     "10.0.0.2".parse().unwrap(),
///     Endpoints::Ports { source: 40000, destination: 443 },
/// );
/// let facts = |time, flags| Facts {
///     time: Nanos(time),
///     frame_octets: 60,
///     captured_octets: 60,
///     flags: Some(flags),
///     ..Facts::default()
/// };
/// let mut batch = Vec::new();
/// Packet { facts: facts(0, TcpFlags::SYN), key }.encode(&mut batch)?;
/// Packet { facts: facts(70, TcpFlags::RST), key: key.reversed() }.encode(&mut batch)?;
///
/// let fed = engine.feed(&batch, &mut out);
/// assert_eq!((fed.refusal, fed.packets, fed.opened, fed.records), (None, 2, 1, 1));
/// let record = fed.finished().next().unwrap()?;
/// assert_eq!(record.to_string(), "Rst 0 70 1 1 60 60");
/// # Ok::<(), braidpuddle::Refusal>(())
/// ```
#[derive(Clone)]
pub struct Engine {
    /// The state, and behind it whatever else the memory has.
    memory: Vec<u8>,
}

/// Two engines are equal if their states are, byte for byte.
impl PartialEq for Engine {
    fn eq(&self, other: &Engine) -> bool {
        self.state() == other.state()
    }
}

impl Eq for Engine {}

impl Engine {
    /// Opens an engine: its clock at 0, no flow open.
    ///
    /// With timeout 0 nothing is ever swept. Refused with [`Refusal::Capacity`] where the capacity is 0 or above 4096.
    ///
    /// ```
    /// use braidpuddle::{Engine, Millis, Refusal, Resolution};
    ///
    /// assert!(Engine::open(4096, Millis(0), Resolution::Microseconds).is_ok());
    /// assert_eq!(Engine::open(4097, Millis(0), Resolution::Microseconds).err(), Some(Refusal::Capacity));
    /// ```
    pub fn open(capacity: u64, timeout: Millis, resolution: Resolution) -> Result<Engine, Refusal> {
        let memory = vec![0; face::state_bytes(capacity) as usize];
        Engine::open_in(memory, capacity, timeout, resolution)
    }

    /// Opens an engine in memory that is already there: what it holds is forgotten, and bytes beyond those of the state are left alone.
    ///
    /// Refused with [`Refusal::Capacity`], then with [`Refusal::Memory`] where there are less than [`Engine::state_bytes`].
    ///
    /// ```
    /// use braidpuddle::{Engine, Millis, Refusal, Resolution};
    ///
    /// let engine = Engine::open_in(vec![0; 895], 1, Millis(0), Resolution::Finer);
    /// assert_eq!(engine.err(), Some(Refusal::Memory));
    /// ```
    pub fn open_in(
        mut memory: Vec<u8>,
        capacity: u64,
        timeout: Millis,
        resolution: Resolution,
    ) -> Result<Engine, Refusal> {
        let refusal = face::open(&mut memory, capacity, timeout.0, resolution.number());
        unless_refused(refusal, Engine { memory })
    }

    /// An engine that goes on from a state which [`Engine::state`] gave.
    ///
    /// Refused with [`Refusal::Damaged`] where the bytes are not a sound state. Sound is not the same as unchanged: another count may be as
    /// sound as the true one, so keep a checksum of your own with a state that you save.
    ///
    /// ```
    /// use braidpuddle::{Engine, Millis, Refusal, Resolution};
    ///
    /// let engine = Engine::open(2, Millis(1000), Resolution::Finer)?;
    /// let saved = engine.state().to_vec();
    /// assert!(Engine::from_state(saved) == Ok(engine));
    /// assert_eq!(Engine::from_state(vec![0; 2000]).err(), Some(Refusal::Damaged));
    /// # Ok::<(), Refusal>(())
    /// ```
    pub fn from_state(memory: Vec<u8>) -> Result<Engine, Refusal> {
        match face::open_flows(&memory) {
            DAMAGED => Err(Refusal::Damaged),
            _ => Ok(Engine { memory }),
        }
    }

    /// How many bytes a state of this capacity takes; `None` where opening refuses the capacity.
    ///
    /// ```
    /// # use braidpuddle::Engine;
    /// assert_eq!(Engine::state_bytes(1), Some(896));
    /// assert_eq!(Engine::state_bytes(0), None);
    /// ```
    pub fn state_bytes(capacity: u64) -> Option<usize> {
        match face::state_bytes(capacity) {
            0 => None,
            bytes => Some(bytes as usize),
        }
    }

    /// The state's bytes, to be saved. Memory beyond them ([`Engine::open_in`]) is not among them.
    pub fn state(&self) -> &[u8] {
        &self.memory[..face::state_bytes(self.capacity()) as usize]
    }

    /// The most flows that are open at once.
    ///
    /// ```
    /// # use braidpuddle::{Engine, Millis, Resolution};
    /// let engine = Engine::open(7, Millis(1), Resolution::Finer).unwrap();
    /// assert_eq!((engine.capacity(), engine.room_for_one()), (7, 8 * 358));
    /// ```
    pub fn capacity(&self) -> u64 {
        let mut bytes = [0; 8];
        bytes.copy_from_slice(&self.memory[CAPACITY_BYTES]);
        u64::from_le_bytes(bytes)
    }

    /// Output that always suffices for one packet, and so for any sweep or drain.
    pub fn room_for_one(&self) -> usize {
        room_for_one(self.capacity())
    }

    /// How many flows are open. It reads the whole state once.
    pub fn open_flows(&self) -> u64 {
        face::open_flows(&self.memory)
    }

    /// Feeds a batch of packet forms: its packets are taken in order, to the batch's end or to the first that is refused. The records of
    /// flows that end are written one behind another from the output's front.
    ///
    /// A refused packet changes nothing and begins at `batch[fed.used..]`. By its refusal:
    /// - [`Refusal::Packet`]: no packet form begins there, and there is no telling where the next one does: drop the batch from there on;
    /// - [`Refusal::Short`]: the batch stops in the middle of a packet, which is to be fed again with the bytes that follow;
    /// - [`Refusal::Full`]: it would open a flow, and the capacity is reached: skip it ([`Packet::decode`](crate::Packet::decode) tells its
    ///   length), or drain;
    /// - [`Refusal::Spent`]: a count of its record would pass 64 bits: drain, and feed it again;
    /// - [`Refusal::Room`]: its records need more than is left of the output: take them away and feed the rest again.
    ///   [`Engine::room_for_one`] bytes always suffice for one packet.
    ///
    /// ```
    /// use braidpuddle::{Engine, Millis, Refusal, Resolution};
    ///
    /// let mut engine = Engine::open(4, Millis(1000), Resolution::Finer)?;
    /// let mut out = vec![0; engine.room_for_one()];
    /// let fed = engine.feed(&[0, 60, 60], &mut out); // the beginning of a packet
    /// assert_eq!((fed.refusal, fed.packets, fed.used), (Some(Refusal::Short), 0, 0));
    /// # Ok::<(), Refusal>(())
    /// ```
    pub fn feed<'out>(&mut self, batch: &[u8], out: &'out mut [u8]) -> Fed<'out> {
        let answer = face::feed(&mut self.memory, batch, out);
        let [refusal, packets, used, opened, records, filled] = answer;
        Fed {
            refusal: Refusal::from_number(refusal),
            packets,
            used: used as usize,
            opened,
            records,
            filled: &out[..filled as usize],
        }
    }

    /// Sweeps: the clock becomes the greater of itself and the time, and each flow that is due by it leaves with a record, in order of
    /// end, then of key bytes.
    ///
    /// Refused with [`Refusal::Room`] where the output is too small; nothing has then left, and the clock stays.
    ///
    /// ```
    /// # use braidpuddle::{Endpoints, Engine, Facts, Key, Millis, Nanos, Packet, Refusal, Resolution};
    /// # let key = Key::new(17, "10.0.0.1".parse().unwrap(), "10.0.0.2".parse().unwrap(), Endpoints::None);
    /// # let mut batch = Vec::new();
    /// # Packet { facts: Facts::default(), key }.encode(&mut batch)?;
    /// let mut engine = Engine::open(4, Millis(1), Resolution::Finer)?;
    /// let mut out = vec![0; engine.room_for_one()];
    /// assert_eq!(engine.feed(&batch, &mut out).packets, 1); // at time 0
    /// assert_eq!(engine.sweep(Nanos(1_499_999), &mut out)?.records, 0);
    /// assert_eq!(engine.sweep(Nanos(1_500_000), &mut out)?.records, 1);
    /// # Ok::<(), Refusal>(())
    /// ```
    pub fn sweep<'out>(
        &mut self,
        time: Nanos,
        out: &'out mut [u8],
    ) -> Result<Written<'out>, Refusal> {
        let answer = face::sweep(&mut self.memory, time.0, out);
        Written::of(answer, out)
    }

    /// Drains: every open flow leaves with a record, in order of key bytes, as Fin if FIN was seen both ways, else as CaptureEnd. The clock
    /// stays, and the engine may be fed again.
    ///
    /// Refused with [`Refusal::Room`] where the output is too small; nothing has then left.
    ///
    /// ```
    /// # use braidpuddle::{Endpoints, Engine, Facts, Key, Millis, Packet, Refusal, Resolution};
    /// # let key = Key::new(17, "10.0.0.1".parse().unwrap(), "10.0.0.2".parse().unwrap(), Endpoints::None);
    /// # let mut batch = Vec::new();
    /// # Packet { facts: Facts::default(), key }.encode(&mut batch)?;
    /// let mut engine = Engine::open(4, Millis(1), Resolution::Finer)?;
    /// let mut out = vec![0; engine.room_for_one()];
    /// assert_eq!(engine.feed(&batch, &mut out).opened, 1);
    /// assert_eq!(engine.open_flows(), 1);
    /// assert_eq!(engine.drain(&mut []), Err(Refusal::Room));
    /// assert_eq!(engine.drain(&mut out)?.records, 1);
    /// assert_eq!(engine.open_flows(), 0);
    /// # Ok::<(), Refusal>(())
    /// ```
    pub fn drain<'out>(&mut self, out: &'out mut [u8]) -> Result<Written<'out>, Refusal> {
        let answer = face::drain(&mut self.memory, out);
        Written::of(answer, out)
    }
}

/// The state's bytes say little to a reader, and are many.
impl std::fmt::Debug for Engine {
    fn fmt(&self, f: &mut std::fmt::Formatter<'_>) -> std::fmt::Result {
        f.debug_struct("Engine")
            .field("capacity", &self.capacity())
            .field("open_flows", &self.open_flows())
            .finish_non_exhaustive()
    }
}

/// What feeding answers.
#[derive(Debug, Clone, Copy, PartialEq, Eq)]
#[must_use = "a refusal may have stopped the batch, and the records are in it"]
pub struct Fed<'out> {
    /// What stopped it; `None` where the whole batch is taken.
    pub refusal: Option<Refusal>,
    /// How many packets are taken.
    pub packets: u64,
    /// How many bytes of the batch they took.
    pub used: usize,
    /// How many flows were opened.
    pub opened: u64,
    /// How many records are written.
    pub records: u64,
    /// The part of the output that they fill.
    pub filled: &'out [u8],
}

impl<'out> Fed<'out> {
    /// The records that are written.
    pub fn finished(&self) -> Records<'out> {
        Records::new(self.filled)
    }
}

/// What a sweep or a drain has written.
#[derive(Debug, Clone, Copy, PartialEq, Eq)]
pub struct Written<'out> {
    /// How many records.
    pub records: u64,
    /// The part of the output that they fill.
    pub filled: &'out [u8],
}

impl<'out> Written<'out> {
    fn of(answer: Answer, out: &'out [u8]) -> Result<Written<'out>, Refusal> {
        let [refusal, _, _, _, records, filled] = answer;
        let filled = &out[..filled as usize];
        unless_refused(refusal, Written { records, filled })
    }

    /// The records that are written.
    pub fn finished(&self) -> Records<'out> {
        Records::new(self.filled)
    }
}
