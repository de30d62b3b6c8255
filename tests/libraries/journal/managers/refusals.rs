// Refusals of a manager.
ghost use Rattle.std.specs.Prelude.{◌≡◌, length};
ghost use Rattle.recovery_manager.specs.Managed.{past_of};
ghost use Rattle.recovery_manager.specs.Seal.{sealed_count};

use crate::managers::lives::{given, life, records_on, refused};
use crate::managers::plans::{DIAMOND, ROOM, SLOTS, job, plan_of};
use crate::same::same;
use event_journal::{JournalFault, MemDisk};
use node_machine::{Outcome, Record};
use recovery::{Manager, ManagerFault, Sealed, replay};
use run_plan::Plan;
use std::alloc::Global;
use std::process::Abort;
use std::test::Fail;

const DISK_FULL: ManagerFault = ManagerFault::Journal(JournalFault::DiskFull);

const SLOTS_FULL: ManagerFault = ManagerFault::Journal(JournalFault::SlotsFull);

const BROKEN: ManagerFault = ManagerFault::Journal(JournalFault::Broken);

fn no_room_for_life(rt: &impl Abort, alloc: Global, plan: &Plan) -> Result<(), Fail> {
    let small = life(alloc, MemDisk::new(alloc, 65), plan, SLOTS);
    let records = records_on(alloc, plan, refused(rt, small, DISK_FULL))?;
    assert!(rt; records.is_empty());
    Ok(())
}

fn no_room_for_a_launch(rt: &impl Abort, alloc: Global, plan: &Plan) {
    let mut manager = given(rt, life(alloc, MemDisk::new(alloc, 97), plan, SLOTS));
    same(rt, manager.launch(job(0)), Err(DISK_FULL));
    same(rt, manager.launch(job(0)), Err(BROKEN));
    drop(manager);
}

fn no_slot_for_a_launch(rt: &impl Abort, alloc: Global, plan: &Plan) {
    let mut manager = given(rt, life(alloc, MemDisk::new(alloc, ROOM), plan, 1));
    same(rt, manager.launch(job(0)), Err(SLOTS_FULL));
    same(rt, manager.into_disk().bytes().len(), 97);
}

fn small_disks(rt: &impl Abort, alloc: Global, plan: &Plan) -> Result<(), Fail> {
    no_room_for_a_launch(rt, alloc, plan);
    no_slot_for_a_launch(rt, alloc, plan);
    no_room_for_life(rt, alloc, plan)
}

#[test]
fn journal_full(rt: HostRuntime) -> Result<(), Fail> {
    let plan = plan_of(rt.alloc(), DIAMOND)?;
    let answer = small_disks(&rt, rt.alloc(), &plan);
    drop(plan);
    answer
}

static RESCUE: &[u8] =
    b"# Rescue DAG file\n# Total number of Nodes: 2\n# Nodes premarked DONE: 1\n\nDONE B\n";

// How many records a run has.
fn count_of(manager: &Manager<'_, MemDisk>) -> usize
    ensures { result ≡ length (past_of manager.now) }
{
    manager.core().records().len()
}

// A fails, and B is good: the journal, the seal of its records, and how many they are.
fn one_fails(rt: &impl Abort, alloc: Global, plan: &Plan) -> (MemDisk, Sealed<MemDisk>, usize)
    ensures { sealed_count result.1 ≡ result.2 }
{
    let mut manager = given(rt, life(alloc, MemDisk::new(alloc, ROOM), plan, SLOTS));
    for (node, value) in [(0, 1), (1, 0)] {
        assert!(rt; manager.launch(job(node)).is_ok());
        assert!(rt; manager.record_end(job(node), Outcome::Exit(value)).is_ok());
    }
    let small = manager.write_rescue(alloc, MemDisk::new(alloc, 10));
    let _disk = refused(rt, small, DISK_FULL);
    let seal = given(rt, manager.write_rescue(alloc, MemDisk::new(alloc, ROOM)));
    let count = count_of(&manager);
    (manager.into_disk(), seal, count)
}

// The run is sealed and goes on in another life.
fn stale_seal(rt: &impl Abort, alloc: Global, plan: &Plan) {
    let (disk, stale, count) = one_fails(rt, alloc, plan);
    let mut manager = given(rt, life(alloc, disk, plan, SLOTS));
    assert!(rt; count_of(&manager) != count);
    let _stale = refused(rt, manager.finish(stale), ManagerFault::NotLawful);
    let seal = given(rt, manager.write_rescue(alloc, MemDisk::new(alloc, ROOM)));
    match given(rt, manager.finish(seal)) {
        Some(rescue) => same(rt, rescue.bytes(), RESCUE),
        None => panic!(rt; "no rescue disk"),
    }
    let over = life(alloc, manager.into_disk(), plan, SLOTS);
    let _disk = refused(rt, over, ManagerFault::AlreadyFinished);
}

#[test]
fn a_stale_seal_is_refused(rt: HostRuntime) -> Result<(), Fail> {
    let plan = plan_of(rt.alloc(), "JOB A a\nJOB B b\n")?;
    stale_seal(&rt, rt.alloc(), &plan);
    drop(plan);
    Ok(())
}

// A run that goes on is not sealed.
fn not_sealed(rt: &impl Abort, alloc: Global, manager: &mut Manager<'_, MemDisk>) {
    let sealed = manager.write_rescue(alloc, MemDisk::new(alloc, ROOM));
    let rescue = refused(rt, sealed, ManagerFault::NotLawful);
    drop(rescue);
    let sealed: Result<Sealed<MemDisk>, ManagerFault> = manager.no_rescue();
    assert!(rt; sealed.is_err());
    drop(sealed);
}

// A record that may not follow is refused.
fn out_of_place(rt: &impl Abort, alloc: Global, plan: &Plan) {
    let unlawful = ManagerFault::NotLawful;
    let mut manager = given(rt, life(alloc, MemDisk::new(alloc, ROOM), plan, SLOTS));
    same(rt, manager.launch(job(1)), Err(unlawful));
    same(
        rt,
        manager.record_end(job(0), Outcome::Exit(0)),
        Err(unlawful),
    );
    not_sealed(rt, alloc, &mut manager);
    drop(manager);
}

// A record that may not follow those before it is found by a replay.
fn foreign(rt: &impl Abort, alloc: Global, plan: &Plan) {
    let records = [
        Record::Life,
        Record::Launch(job(0), 1),
        Record::End(job(1), Outcome::Exit(0)),
    ];
    let fault = replay(alloc, plan, &records).err();
    same(rt, fault, Some(ManagerFault::Foreign(2)));
}

#[test]
fn out_of_place_is_refused(rt: HostRuntime) -> Result<(), Fail> {
    let plan = plan_of(rt.alloc(), DIAMOND)?;
    out_of_place(&rt, rt.alloc(), &plan);
    foreign(&rt, rt.alloc(), &plan);
    drop(plan);
    Ok(())
}

#[test]
fn faults_are_printed(rt: HostRuntime) -> Result<(), Fail> {
    for (fault, text) in [
        (ManagerFault::Foreign(2), "M2 Foreign 2"),
        (ManagerFault::NotLawful, "M3 NotLawful"),
        (ManagerFault::Memory, "M4 Memory"),
        (ManagerFault::AlreadyFinished, "M5 AlreadyFinished"),
        (DISK_FULL, "J2 DiskFull"),
    ] {
        let told = format!(in rt.alloc(); "{fault}")?;
        same(&rt, told.as_str(), text);
    }
    Ok(())
}
