// What the images of a journal's disk read as.
use crate::images::{images_of, replayed, synced};
use crate::managers::goes_on;
use event_journal::{DiskEvent, Journal, MemDisk, Opened};
use node_machine::Record;
use run_plan::Plan;
use std::alloc::Global;
use std::process::Abort;
use std::test::Fail;

/// How many bytes a disk of the tests may have.
pub const ROOM: usize = 100_000;

/// How many records a journal of the tests may have.
pub const SLOTS: u32 = 1000;

/// What a journal is of: the digest of its inputs, all records that it comes to, the plan of a manager's, and how many records at
/// most stand behind one gate.
#[derive(Clone, Copy)]
pub struct Due<'a> {
    pub digest: &'a [u8; 32],
    pub records: &'a [Record],
    pub plan: Option<&'a Plan>,
    pub together: usize,
}

/// A disk with these bytes.
pub fn disk_of(alloc: Global, bytes: &[u8]) -> Result<MemDisk, Fail> {
    if bytes.len() > ROOM {
        return Err(Fail::from("too many bytes"));
    }
    let copy = Vec::from_slice(alloc, bytes)?;
    Ok(MemDisk::of(alloc, copy, ROOM))
}

/// The records of a journal with these bytes, or none where they are no journal yet.
pub fn records_of(
    alloc: Global,
    bytes: &[u8],
    digest: &[u8; 32],
) -> Result<Option<Vec<Record>>, Fail> {
    match Journal::open(alloc, disk_of(alloc, bytes)?, digest, false, SLOTS) {
        Ok(Opened::Found(_, records)) => Ok(Some(records)),
        Ok(Opened::Fresh(_)) => Ok(None),
        Err((_, fault)) => Err(Fail::from(fault)),
    }
}

// How far a journal has come with these bytes: 0 where there is none yet, and else one more than it has
// records, which are the first of those that are due. A manager goes on behind them.
fn stage_of(rt: &impl Abort, alloc: Global, bytes: &[u8], due: Due<'_>) -> Result<usize, Fail> {
    let stage = match records_of(alloc, bytes, due.digest)? {
        Some(records) => {
            assert!(rt; due.records.starts_with(&records));
            records.len() + 1
        }
        None => 0,
    };
    if let Some(plan) = due.plan {
        goes_on(rt, alloc, plan, disk_of(alloc, bytes)?, due.records, stage);
    }
    Ok(stage)
}

// Each of these images reads as one of two stages.
fn read_as(
    rt: &impl Abort,
    alloc: Global,
    images: &[Vec<u8>],
    due: Due<'_>,
    before: usize,
    after: usize,
) -> Result<(), Fail> {
    for image in images {
        let stage = stage_of(rt, alloc, image, due)?;
        assert!(rt; stage == before || stage == after);
    }
    Ok(())
}

// At the moment behind these events each image reads as what is synced or as what a read gives, which
// goes no more records further than stand behind one gate: the stage of what a read gives.
fn stage_at(
    rt: &impl Abort,
    alloc: Global,
    start: &[u8],
    events: &[DiskEvent],
    due: Due<'_>,
) -> Result<usize, Fail> {
    let count = synced(events);
    let (Some(done), Some(pending)) = (events.get(..count), events.get(count..)) else {
        return Err(Fail::from("no such moment"));
    };
    let bytes = replayed(alloc, start, done)?;
    let before = stage_of(rt, alloc, &bytes, due)?;
    let after = stage_of(rt, alloc, &replayed(alloc, start, events)?, due)?;
    assert!(rt; before <= after && after.saturating_sub(before) <= due.together);
    read_as(
        rt,
        alloc,
        &images_of(alloc, &bytes, pending)?,
        due,
        before,
        after,
    )?;
    Ok(after)
}

/// Tears a disk at each moment from that behind so many events on: the stage at the last one, at which
/// all is synced.
pub fn torn_everywhere(
    rt: &impl Abort,
    alloc: Global,
    start: &[u8],
    disk: &MemDisk,
    from: usize,
    due: Due<'_>,
) -> Result<usize, Fail> {
    let events = disk.events();
    let mut stage = 0;
    for count in from..events.len() + 1 {
        let now = stage_at(rt, alloc, start, &events[..count], due)?;
        assert!(rt; stage <= now);
        stage = now;
    }
    assert!(rt; synced(events) == events.len());
    let seen = replayed(alloc, start, events)?;
    assert!(rt; seen.as_slice() == disk.bytes());
    Ok(stage)
}
