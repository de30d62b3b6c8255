// Each call of a journal, torn at each moment.
ghost use Rattle.std.specs.Prelude.{IsFalse};
ghost use Rattle.event_journal_log.specs.Journal.{journal_disk, is_broken, IsSettled};

use crate::readings::{Due, SLOTS, disk_of, torn_everywhere};
use crate::same::same;
use event_journal::{Disk, Journal, JournalFault, Opened, has_slot};
use node_machine::{Key, Outcome, Phase, Record};
use std::alloc::Global;
use std::process::Abort;
use std::test::Fail;

const DIGEST: [u8; 32] = [7; 32];

const JOB: Key = Key {
    node: 0,
    attempt: 0,
    phase: Phase::Job,
};

static RECORDS: [Record; 4] = [
    Record::Life,
    Record::Launch(JOB, 1),
    Record::End(JOB, Outcome::Exit(1)),
    Record::Finish(1),
];

// What a journal calls on a disk that is Fresh, in this order.
#[derive(Clone, Copy)]
enum Call {
    Nothing,
    Gate,
    Header,
    // The body of a record, behind so many whole ones.
    Body(usize),
    // So many records.
    Records(usize),
}

// A call, and the stage to which it comes.
static CALLS: [(Call, usize); 11] = [
    (Call::Nothing, 0),
    (Call::Gate, 0),
    (Call::Header, 1),
    (Call::Body(0), 1),
    (Call::Records(1), 2),
    (Call::Body(1), 2),
    (Call::Records(2), 3),
    (Call::Body(2), 3),
    (Call::Records(3), 4),
    (Call::Body(3), 4),
    (Call::Records(4), 5),
];

// Adds these records.
fn add<D: Disk + Drop>(
    rt: &impl Abort,
    journal: &mut Journal<D>,
    records: &[Record],
) -> Result<(), JournalFault>
    requires settled { D.honest (journal_disk journal.old) → IsFalse (is_broken journal.old)
        → IsSettled D.Disk journal.old }
    ensures settled { D.honest (journal_disk journal.new) → IsFalse (is_broken journal.new)
        → IsSettled D.Disk journal.new }
{
    for record in records {
        assert!(rt; has_slot(record));
        journal.append_body(record)?;
        journal.open_gate()?;
    }
    Ok(())
}

// Calls a journal whose header is written.
fn fill<D: Disk + Drop>(
    rt: &impl Abort,
    journal: &mut Journal<D>,
    call: Call,
) -> Result<(), JournalFault>
    requires settled { D.honest (journal_disk journal.old) → IsFalse (is_broken journal.old)
        → IsSettled D.Disk journal.old }
{
    match call {
        Call::Body(count) => {
            assert!(rt; count < RECORDS.len());
            add(rt, journal, &RECORDS[..count])?;
            let record = RECORDS[count];
            assert!(rt; has_slot(&record));
            journal.append_body(&record)
        }
        Call::Records(count) => {
            assert!(rt; count <= RECORDS.len());
            add(rt, journal, &RECORDS[..count])
        }
        Call::Nothing | Call::Gate | Call::Header => Ok(()),
    }
}

// Makes a journal, as far as this call.
fn make<D: Disk + Drop>(
    rt: &impl Abort,
    alloc: Global,
    disk: D,
    call: Call,
) -> Result<D, JournalFault> {
    match Journal::open(alloc, disk, &DIGEST, false, SLOTS) {
        Ok(Opened::Fresh(journal)) => {
            let mut journal = journal;
            if matches!(call, Call::Nothing) {
                return Ok(journal.into_disk());
            }
            journal.create_gate()?;
            if matches!(call, Call::Gate) {
                return Ok(journal.into_disk());
            }
            journal.create_header(0, 1, &DIGEST, false)?;
            fill(rt, &mut journal, call)?;
            Ok(journal.into_disk())
        }
        Ok(Opened::Found(journal, _)) => Ok(journal.into_disk()),
        Err((_, fault)) => Err(fault),
    }
}

const DUE: Due<'static> = Due {
    digest: &DIGEST,
    records: &RECORDS,
    plan: None,
    together: 1,
};

// Makes a journal on a disk with these bytes, call by call, each torn at each of its moments; so many
// events it is in all.
fn torn_on(rt: &impl Abort, alloc: Global, start: &[u8], events: usize) -> Result<(), Fail> {
    let mut from = 0;
    for (call, stage) in CALLS {
        let disk = make(rt, alloc, disk_of(alloc, start)?, call)?;
        same(
            rt,
            torn_everywhere(rt, alloc, start, &disk, from, DUE)?,
            stage,
        );
        from = disk.events().len();
    }
    same(rt, from, events);
    Ok(())
}

#[test]
fn on_an_empty_disk(rt: HostRuntime) -> Result<(), Fail> {
    torn_on(&rt, rt.alloc(), &[], 23)
}

// A header that was never finished.
#[test]
fn on_old_bytes(rt: HostRuntime) -> Result<(), Fail> {
    torn_on(&rt, rt.alloc(), &[9; 65], 25)
}
