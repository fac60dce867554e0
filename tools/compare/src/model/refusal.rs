//! The refusals, with the numbers of document 01's table.

#[derive(Debug, Clone, Copy, PartialEq, Eq)]
pub enum Refusal {
    /// "opening with 0 or above 4096"
    Capacity = 1,
    /// "opening with too few bytes"
    Memory = 2,
    /// "the state, or a host's own record, is not sound"
    Damaged = 3,
    /// "what remains is neither begun by a packet form (or the lone number read), nor Short, nor the
    /// empty end of a batch; or a packet or number given for writing or counting has a field out of
    /// range"
    Packet = 4,
    /// "after this packet's sweep and step 1 it would open a flow, and capacity flows are open"
    Full = 5,
    /// "the record that takes the packet would pass 2^64 − 1 in packets or octets of both directions
    /// together, or in captured octets"
    Spent = 6,
    /// "the records this packet, sweep or drain finishes, or the form written alone, need more bytes
    /// than output has left"
    Room = 7,
    /// "reading bytes that neither begin with a record form nor are Short"
    Record = 8,
    /// "what remains is a proper, non-empty beginning of some form of the kind read, each field judged
    /// by its own bound and "sound record" aside"
    Short = 9,
}

impl Refusal {
    pub fn number(self) -> u64 {
        self as u64
    }
}
