// Lives of a run, each of which goes on for so many records.
ghost use Rattle.std.specs.Prelude.{◌≡◌, Ok};

use crate::managers::plans::{NO_LIMITS, ROOM, SLOTS};
use crate::same::same;
use event_journal::{Journal, JournalFault, MemDisk, Opened};
use node_machine::{Key, Record, Table};
use recovery::{Manager, ManagerFault, Sealed, begin, recover};
use run_plan::Plan;
use sched_core::{Choice, Core};
use std::alloc::Global;
use std::process::Abort;
use std::test::Fail;

/// What a call gave that must not refuse.
pub fn given<T: Drop, D: Drop>(rt: &impl Abort, answer: Result<T, (D, ManagerFault)>) -> T
    ensures { answer ≡ Ok result }
{
    match answer {
        Ok(value) => value,
        Err((_disk, fault)) => panic!(rt; "refused: {fault}"),
    }
}

/// What a call handed back that must refuse so.
pub fn refused<T: Drop, D: Drop>(
    rt: &impl Abort,
    answer: Result<T, (D, ManagerFault)>,
    due: ManagerFault,
) -> D {
    match answer {
        Ok(_value) => panic!(rt; "not refused: {due}"),
        Err((disk, fault)) => {
            same(rt, fault, due);
            disk
        }
    }
}

/// Begins a run where the disk is Fresh, and recovers it where a journal is.
pub fn life<'a>(
    alloc: Global,
    disk: MemDisk,
    plan: &'a Plan,
    slots: u32,
) -> Result<Manager<'a, MemDisk>, (MemDisk, ManagerFault)> {
    let mut disk = disk;
    match Journal::peek(alloc, &mut disk) {
        Ok(None) => begin(alloc, disk, plan, 0, 1, slots, NO_LIMITS),
        Ok(Some(_)) => recover(alloc, disk, plan, slots, NO_LIMITS),
        Err(JournalFault::BadSlot(_)) => recover(alloc, disk, plan, slots, NO_LIMITS),
        Err(fault) => Err((disk, ManagerFault::Journal(fault))),
    }
}

// Seals and finishes a run that owes a rescue file.
fn end_with_rescue(rt: &impl Abort, alloc: Global, manager: &mut Manager<'_, MemDisk>) {
    let seal = given(rt, manager.write_rescue(alloc, MemDisk::new(alloc, ROOM)));
    let rescue = given(rt, manager.finish(seal));
    assert!(rt; rescue.is_some());
}

// Seals and finishes a run that owes none.
fn end_without(rt: &impl Abort, manager: &mut Manager<'_, MemDisk>) {
    let seal: Result<Sealed<MemDisk>, ManagerFault> = manager.no_rescue();
    let Ok(seal) = seal else {
        panic!(rt; "no seal");
    };
    let rescue = given(rt, manager.finish(seal));
    assert!(rt; rescue.is_none());
}

// Seals and finishes a run that may end.
fn end(rt: &impl Abort, alloc: Global, manager: &mut Manager<'_, MemDisk>) {
    if manager.core().needs_rescue() {
        end_with_rescue(rt, alloc, manager);
    } else {
        end_without(rt, manager);
    }
}

// Of the phases that are outstanding the one that was launched first in this life.
fn oldest(core: &Core<'_>) -> Option<Key> {
    let mut oldest = None;
    for entry in core.records() {
        match entry {
            Record::Life => oldest = None,
            Record::Launch(key, _) => {
                if oldest.is_none() && core.is_outstanding(key) {
                    oldest = Some(*key);
                }
            }
            _ => {}
        }
    }
    oldest
}

// Adds a record by a table of outcomes, the phase that was launched first ending first; whether the
// run goes on.
fn step(
    rt: &impl Abort,
    alloc: Global,
    manager: &mut Manager<'_, MemDisk>,
    plan: &Plan,
    table: &Table,
) -> bool {
    match manager.core().choose() {
        Choice::Start(key) => manager.launch(key).is_ok(),
        Choice::Wait => match oldest(manager.core()) {
            Some(key) => {
                assert!(rt; key.node <= plan.count());
                let name = plan.spec(key.node).name();
                let outcome = table.get(name, key.attempt, key.phase);
                manager.record_end(key, outcome).is_ok()
            }
            None => false,
        },
        Choice::Finish(_) => {
            end(rt, alloc, manager);
            false
        }
    }
}

/// The journal of a run whose lives stop after so many records each.
pub fn run(rt: &impl Abort, alloc: Global, plan: &Plan, table: &Table, lives: &[u32]) -> MemDisk {
    let mut disk = MemDisk::new(alloc, ROOM);
    for most in lives {
        let mut manager = given(rt, life(alloc, disk, plan, SLOTS));
        let mut goes_on = true;
        for _ in 0..*most {
            goes_on = goes_on && step(rt, alloc, &mut manager, plan, table);
        }
        disk = manager.into_disk();
    }
    disk
}

/// The records of a journal.
pub fn records_on(alloc: Global, plan: &Plan, disk: MemDisk) -> Result<Vec<Record>, Fail> {
    match Journal::open(alloc, disk, plan.digest(), false, SLOTS) {
        Ok(Opened::Found(_, records)) => Ok(records),
        Ok(Opened::Fresh(_)) => Ok(Vec::new(alloc)),
        Err((_, fault)) => Err(Fail::from(fault)),
    }
}
