// Each call of a manager, torn at each moment.
ghost use Rattle.std.specs.Prelude.{◌≡◌, Ok};

use crate::plans::{CHAIN, NO_LIMITS, plan_of};
use crate::readings::{Due, SLOTS, disk_of, records_of, torn_everywhere};
use crate::same::same;
use event_journal::{Journal, MemDisk};
use node_machine::{Key, Outcome, Phase, Record};
use recovery::{Manager, ManagerFault, Sealed, begin, recover};
use run_plan::Plan;
use std::alloc::Global;
use std::process::Abort;
use std::test::Fail;

fn job(node: u32) -> Key {
    Key {
        node,
        attempt: 0,
        phase: Phase::Job,
    }
}

/// Begins a run where the disk is Fresh, and recovers it where a journal is.
pub fn life<'a>(
    alloc: Global,
    disk: MemDisk,
    plan: &'a Plan,
) -> Result<Manager<'a, MemDisk>, (MemDisk, ManagerFault)> {
    let mut disk = disk;
    match Journal::peek(alloc, &mut disk) {
        Ok(None) => begin(alloc, disk, plan, 0, 1, SLOTS, NO_LIMITS),
        Ok(Some(_)) => recover(alloc, disk, plan, SLOTS, NO_LIMITS),
        Err(fault) => Err((disk, ManagerFault::Journal(fault))),
    }
}

/// What a call gave that must not refuse.
pub fn given<T: Drop, D: Drop>(rt: &impl Abort, answer: Result<T, (D, ManagerFault)>) -> T
    ensures { answer ≡ Ok result }
{
    match answer {
        Ok(value) => value,
        Err((_disk, fault)) => panic!(rt; "refused: {fault}"),
    }
}

/// A manager goes on behind the records of a disk at this stage: one Life more, where they aren't finished.
pub fn goes_on(
    rt: &impl Abort,
    alloc: Global,
    plan: &Plan,
    disk: MemDisk,
    due: &[Record],
    stage: usize,
) {
    let count = stage.saturating_sub(1);
    assert!(rt; count <= due.len());
    let before = &due[..count];
    let answer = life(alloc, disk, plan);
    match &answer {
        Ok(manager) => {
            let found = manager.core().records();
            assert!(rt; found.len() == count + 1);
            assert!(rt; found.starts_with(before));
            assert!(rt; matches!(found.last(), Some(Record::Life)));
        }
        Err((_, fault)) => {
            same(rt, *fault, ManagerFault::AlreadyFinished);
            assert!(rt; matches!(before.last(), Some(Record::Finish(_))));
        }
    }
    drop(answer);
}

// What a manager calls behind its beginning.
#[derive(Clone, Copy)]
enum Call {
    Launch(u32),
    End(u32, u8),
    Finish,
}

// A run whose second job fails.
static CALLS: [Call; 5] = [
    Call::Launch(0),
    Call::End(0, 0),
    Call::Launch(1),
    Call::End(1, 1),
    Call::Finish,
];

// Records the end of a run that owes a rescue file.
fn finish(rt: &impl Abort, alloc: Global, manager: &mut Manager<'_, MemDisk>) {
    let seal: Sealed<MemDisk> = given(rt, manager.write_rescue(alloc, MemDisk::new(alloc, 1000)));
    let rescue = given(rt, manager.finish(seal));
    assert!(rt; rescue.is_some());
}

fn take_step(rt: &impl Abort, alloc: Global, manager: &mut Manager<'_, MemDisk>, call: Call) {
    match call {
        Call::Launch(node) => assert!(rt; manager.launch(job(node)).is_ok()),
        Call::End(node, value) => {
            same(
                rt,
                manager.record_end(job(node), Outcome::Exit(value)),
                Ok(()),
            );
        }
        Call::Finish => finish(rt, alloc, manager),
    }
}

/// The disk of a manager that began, and was called so often.
pub fn called(rt: &impl Abort, alloc: Global, plan: &Plan, count: usize) -> MemDisk {
    let mut manager = given(rt, life(alloc, MemDisk::new(alloc, 1000), plan));
    for step in CALLS.iter().take(count) {
        take_step(rt, alloc, &mut manager, *step);
    }
    manager.into_disk()
}

// Each call in turn, from the beginning on.
fn calls_torn(rt: &impl Abort, alloc: Global, plan: &Plan, due: Due<'_>) -> Result<(), Fail> {
    let mut from = 0;
    for count in 0..CALLS.len() + 1 {
        let disk = called(rt, alloc, plan, count);
        same(
            rt,
            torn_everywhere(rt, alloc, &[], &disk, from, due)?,
            count + 2,
        );
        from = disk.events().len();
    }
    Ok(())
}

// Recovers what a life left behind so many calls.
fn recovery_torn(rt: &impl Abort, alloc: Global, plan: &Plan, count: usize) -> Result<(), Fail> {
    let left = called(rt, alloc, plan, count);
    let manager = given(rt, life(alloc, disk_of(alloc, left.bytes())?, plan));
    let disk = manager.into_disk();
    let Some(records) = records_of(alloc, disk.bytes(), plan.digest())? else {
        return Err(Fail::from("no journal"));
    };
    let due = Due {
        digest: plan.digest(),
        records: &records,
        plan: Some(plan),
        together: 1,
    };
    same(rt, records.len().checked_sub(2), Some(count));
    let stage = torn_everywhere(rt, alloc, left.bytes(), &disk, 0, due)?;
    same(rt, stage, records.len() + 1);
    Ok(())
}

fn all_torn(rt: &impl Abort, alloc: Global, plan: &Plan) -> Result<(), Fail> {
    let whole = called(rt, alloc, plan, CALLS.len());
    let Some(records) = records_of(alloc, whole.bytes(), plan.digest())? else {
        return Err(Fail::from("no journal"));
    };
    let due = Due {
        digest: plan.digest(),
        records: &records,
        plan: Some(plan),
        together: 1,
    };
    calls_torn(rt, alloc, plan, due)?;
    for count in 0..CALLS.len() {
        recovery_torn(rt, alloc, plan, count)?;
    }
    Ok(())
}

#[test]
fn each_call_of_a_manager(rt: HostRuntime) -> Result<(), Fail> {
    let plan = plan_of(rt.alloc(), CHAIN)?;
    let answer = all_torn(&rt, rt.alloc(), &plan);
    drop(plan);
    answer
}
