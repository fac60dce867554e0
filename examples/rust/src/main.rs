//! A small probe: it feeds the packets of a few conversations to the flow meter in batches, sweeps at the end of each second of the
//! packets' time, and drains at the end. It prints a line for each record (reason, start, end, forward and reverse packets, forward
//! and reverse octets) and a total (packets, records, clean closes).

mod traffic;

use braidpuddle::{EndReason, Engine, Millis, Nanos, Packet, Records, Refusal, Resolution};

const CAPACITY: u64 = 16;
const TIMEOUT: Millis = Millis(2000);
const BATCH_PACKETS: usize = 8;
const SECOND_NS: u64 = 1_000_000_000;

/// What the total says.
#[derive(Default)]
struct Total {
    packets: u64,
    records: u64,
    clean_closes: u64,
}

impl Total {
    /// Prints the records that a call has written.
    fn print(&mut self, records: Records<'_>) -> Result<(), Refusal> {
        for record in records {
            let record = record?;
            println!("{record}");
            self.records += 1;
            self.clean_closes += u64::from(record.reason == EndReason::Fin);
        }
        Ok(())
    }
}

struct Probe {
    engine: Engine,
    out: Vec<u8>,
    total: Total,
}

impl Probe {
    fn open() -> Result<Probe, Refusal> {
        let engine = Engine::open(CAPACITY, TIMEOUT, Resolution::Microseconds)?;
        let out = vec![0; engine.room_for_one()];
        Ok(Probe {
            engine,
            out,
            total: Total::default(),
        })
    }

    /// Feeds a batch. Where the output is full it is printed and the rest is fed again: there is always room for one packet more.
    fn feed(&mut self, packets: &[Packet]) -> Result<(), Refusal> {
        let mut batch = Vec::new();
        for packet in packets {
            packet.encode(&mut batch)?;
        }
        let mut used = 0;
        loop {
            let fed = self.engine.feed(&batch[used..], &mut self.out);
            used += fed.used;
            self.total.packets += fed.packets;
            self.total.print(fed.finished())?;
            match fed.refusal {
                None => return Ok(()),
                Some(Refusal::Room) => continue,
                Some(refusal) => return Err(refusal),
            }
        }
    }

    fn sweep(&mut self, time: Nanos) -> Result<(), Refusal> {
        let swept = self.engine.sweep(time, &mut self.out)?;
        self.total.print(swept.finished())
    }

    fn drain(&mut self) -> Result<(), Refusal> {
        let drained = self.engine.drain(&mut self.out)?;
        self.total.print(drained.finished())
    }
}

fn run() -> Result<Total, Refusal> {
    let packets = traffic::packets();
    let mut rest = packets.as_slice();
    let mut probe = Probe::open()?;
    let mut second = Nanos(0);
    while !rest.is_empty() {
        second = Nanos(second.0 + SECOND_NS);
        let before = rest.partition_point(|packet| packet.facts.time < second);
        let (now, later) = rest.split_at(before);
        for batch in now.chunks(BATCH_PACKETS) {
            probe.feed(batch)?;
        }
        probe.sweep(second)?;
        rest = later;
    }
    probe.drain()?;
    Ok(probe.total)
}

fn main() -> Result<(), Refusal> {
    let total = run()?;
    println!(
        "total {} {} {}",
        total.packets, total.records, total.clean_closes
    );
    Ok(())
}
