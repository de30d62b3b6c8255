// Records that are acknowledged together.
ghost use Rattle.std.specs.Prelude.{◌≤◌};

use crate::journals::bytes::changed;
use crate::journals::runs::{DIGEST, JOB, SIZE, add, add_together, begin, records_on};
use crate::same::same;
use event_journal::{Journal, JournalFault, MemDisk, Opened, slot_of};
use node_machine::{Key, Record};
use std::alloc::{AllocError, Global};
use std::process::Abort;
use std::test::Fail;

/// The job of a second node.
const OTHER: Key = Key { node: 1, ..JOB };

/// A life, and the launches of two jobs together.
const RECORDS: [Record; 3] = [
    Record::Life,
    Record::Launch(JOB, 1),
    Record::Launch(OTHER, 2),
];

/// The journal with these: the batch has slot 1, and its records 2 and 3.
const TOGETHER: [u8; SIZE] = [
    0x4A, 2, 0, 0, 0, 0, 0, 1, 7, 7, 7, 7, 7, 7, 7, 7, 7, 7, 7, 7, 7, 7, 7, 7, 7, 7, 7, 7, 7, 7, 7,
    7, 7, 7, 7, 7, 7, 7, 7, 7, 0, 0, 0, 0, 0, 0, 0, 0, 0, 0, 0, 0, 0, 0, 0, 0, 0, 0, 0, 0, 0, 0, 0,
    0, 0x4F, 1, 0, 0, 0, 0, 0, 0, 0, 0, 0, 0, 0, 0, 0, 0, 0, 0, 0, 0, 0, 0, 0, 0, 0, 0, 0, 0, 0, 0,
    0, 0, 0x4F, 5, 0, 2, 0, 0, 0, 0, 0, 0, 0, 0, 0, 0, 0, 0, 0, 0, 0, 0, 0, 0, 0, 0, 0, 0, 0, 0, 0,
    0, 0, 0, 0x4F, 2, 2, 0, 0, 0, 0, 0, 0, 0, 0, 0, 0, 0, 0, 0, 0, 0, 0, 0, 0, 0, 0, 1, 0, 0, 0, 0,
    0, 0, 0, 0, 0x4F, 2, 2, 0, 0, 0, 0, 1, 0, 0, 0, 0, 0, 0, 0, 0, 0, 0, 0, 0, 0, 0, 0, 2, 0, 0, 0,
    0, 0, 0, 0, 0, 0,
];

#[test]
fn two_behind_one_gate(rt: HostRuntime) -> Result<(), Fail> {
    let alloc = rt.alloc();
    let mut journal = begin(alloc, MemDisk::new(alloc, 1000), 4)?;
    same(&rt, add(&mut journal, &Record::Life), Ok(()));
    let three = [RECORDS[1], RECORDS[2], Record::Life];
    let refused = add_together(&mut journal, &three);
    same(&rt, refused, Err(JournalFault::SlotsFull));
    same(&rt, journal.records(alloc)?.as_slice(), &RECORDS[..1]);
    same(&rt, add_together(&mut journal, &RECORDS[1..]), Ok(()));
    same(&rt, journal.records(alloc)?.as_slice(), RECORDS.as_slice());
    same(
        &rt,
        journal.append_body(&Record::Life),
        Err(JournalFault::SlotsFull),
    );
    let disk = journal.into_disk();
    same(&rt, disk.bytes(), TOGETHER.as_slice());
    for (place, slot) in [(0, 0), (1, 2), (2, 3)] {
        same(&rt, (place, slot_of(disk.bytes(), place)), (place, slot));
    }
    Ok(())
}

// What is read of the first bytes, where the gate of the batch is this.
fn ends_in_the_batch(
    rt: &impl Abort,
    alloc: Global,
    size: usize,
    gate: u8,
) -> Result<(), AllocError>
    requires { size ≤ 193 }
{
    let answer = records_on(alloc, changed(alloc, &TOGETHER, size, 96, gate)?);
    match &answer {
        Ok(records) => {
            let due = if gate == 0x4F { 3 } else { 1 };
            assert!(rt; due == 1 || size == SIZE);
            same(rt, records.as_slice(), &RECORDS[..due]);
        }
        Err(fault) => {
            let slot = if size <= 128 {
                1
            } else if size <= 160 {
                2
            } else {
                3
            };
            assert!(rt; gate == 0x4F && size < SIZE);
            same(rt, *fault, JournalFault::BadSlot(slot));
        }
    }
    drop(answer);
    Ok(())
}

#[test]
fn every_prefix_of_a_batch(rt: HostRuntime) -> Result<(), Fail> {
    for size in 97..194 {
        for gate in 0..=255 {
            ends_in_the_batch(&rt, rt.alloc(), size, gate)?;
        }
    }
    Ok(())
}

#[test]
fn faults_of_a_batch(rt: HostRuntime) -> Result<(), Fail> {
    for (at, byte, slot) in [
        (97, 6, 1),
        (98, 1, 1),
        (99, 0, 1),
        (99, 1, 1),
        (99, 65, 1),
        (99, 3, 4),
        (99, 64, 4),
        (100, 1, 1),
        (112, 1, 1),
        (127, 1, 1),
        (128, 0, 2),
        (129, 5, 2),
        (130, 0, 2),
        (131, 1, 2),
        (152, 1, 2),
        (160, 0, 3),
        (161, 5, 3),
        (191, 1, 3),
    ] {
        let disk = changed(rt.alloc(), &TOGETHER, SIZE, at, byte)?;
        match records_on(rt.alloc(), disk) {
            Ok(_) => panic!(rt; "a record at {at}"),
            Err(found) => same(&rt, (at, found), (at, JournalFault::BadSlot(slot))),
        }
    }
    Ok(())
}

// A journal with a batch is opened again, and goes on where it ends.
#[test]
fn goes_on_behind_a_batch(rt: HostRuntime) -> Result<(), Fail> {
    let alloc = rt.alloc();
    let disk = changed(alloc, &TOGETHER, SIZE, 192, 0)?;
    let Ok(Opened::Found(mut journal, records)) = Journal::open(alloc, disk, &DIGEST, false, 5)
    else {
        panic!(rt; "a journal");
    };
    same(&rt, records.as_slice(), RECORDS.as_slice());
    same(&rt, add(&mut journal, &Record::Life), Ok(()));
    same(&rt, journal.records(alloc)?.len(), 4);
    same(
        &rt,
        journal.append_body(&Record::Life),
        Err(JournalFault::SlotsFull),
    );
    same(&rt, journal.into_disk().bytes().len(), SIZE + 32);
    Ok(())
}
