// Records that a manager adds together.
use crate::journals::runs::{add, add_together};
use crate::managers::lives::{given, life, records_on, refused};
use crate::managers::plans::{DIAMOND, ROOM, SLOTS, job, plan_of};
use crate::same::same;
use event_journal::{Journal, JournalFault, MemDisk, Opened};
use fate_audit::{AuditNo, audit};
use node_machine::{Key, Outcome, Phase, Record};
use recovery::{Manager, ManagerFault};
use run_plan::Plan;
use std::alloc::Global;
use std::process::Abort;
use std::test::Fail;

const GOOD: Outcome = Outcome::Exit(0);

/// Two jobs that are not run and one that is; the first ends the run by its abort.
const ABORTS: &str = "JOB A a.sub NOOP\nJOB B b.sub NOOP\nJOB C c.sub\nABORT-DAG-ON A 0 RETURN 5\n";

static STOPPED: &[u8] =
    b"# Rescue DAG file\n# Total number of Nodes: 3\n# Nodes premarked DONE: 1\n\nDONE A\n";

// The phases that are to be launched now.
fn planned_as(rt: &impl Abort, alloc: Global, manager: &Manager<'_, MemDisk>, due: &[Key]) {
    match manager.plan_round(alloc, 64) {
        Ok(keys) => same(rt, keys.as_slice(), due),
        Err(fault) => panic!(rt; "no round: {fault}"),
    }
}

fn launched_as(
    rt: &impl Abort,
    answer: Result<Vec<u64>, ManagerFault>,
    due: Result<&[u64], ManagerFault>,
) {
    match answer {
        Ok(numbers) => same(rt, Ok(numbers.as_slice()), due),
        Err(fault) => same(rt, Err(fault), due),
    }
}

// All three are launched together. Of their two endings only the first is recorded: it aborts the run.
fn stops(rt: &impl Abort, alloc: Global, plan: &Plan) -> Result<(), Fail> {
    let mut manager = given(rt, life(alloc, MemDisk::new(alloc, ROOM), plan, SLOTS));
    planned_as(rt, alloc, &manager, &[job(0), job(1), job(2)]);
    let keys = [job(0), job(1), job(2)];
    launched_as(rt, manager.launch_batch(alloc, &keys), Ok(&[1, 2, 3]));
    let ends = [(job(0), GOOD), (job(1), GOOD)];
    same(rt, manager.record_batch(alloc, &ends), Ok(1));
    planned_as(rt, alloc, &manager, &[]);
    let seal = given(rt, manager.write_rescue(alloc, MemDisk::new(alloc, ROOM)));
    match given(rt, manager.finish(seal)) {
        Some(rescue) => same(rt, rescue.bytes(), STOPPED),
        None => panic!(rt; "no rescue disk"),
    }
    let disk = manager.into_disk();
    same(rt, disk.bytes().len(), 289);
    let due = [
        Record::Life,
        Record::Launch(job(0), 1),
        Record::Launch(job(1), 2),
        Record::Launch(job(2), 3),
        Record::End(job(0), GOOD),
        Record::Finish(5),
    ];
    let records = records_on(alloc, plan, disk)?;
    same(rt, records.as_slice(), due.as_slice());
    Ok(())
}

#[test]
fn a_batch_stops_at_an_abort(rt: HostRuntime) -> Result<(), Fail> {
    let plan = plan_of(rt.alloc(), ABORTS)?;
    let answer = stops(&rt, rt.alloc(), &plan);
    drop(plan);
    answer
}

// Behind Life three slots are left: too few for three records, and enough for two.
fn too_few_slots(rt: &impl Abort, alloc: Global, plan: &Plan) {
    let full = ManagerFault::Journal(JournalFault::SlotsFull);
    let mut manager = given(rt, life(alloc, MemDisk::new(alloc, ROOM), plan, 4));
    let three = [job(0), job(1), job(2)];
    launched_as(rt, manager.launch_batch(alloc, &three), Err(full));
    launched_as(rt, manager.launch_batch(alloc, &three[..2]), Ok(&[1, 2]));
    same(rt, manager.launch(job(2)), Err(full));
    same(rt, manager.into_disk().bytes().len(), 193);
}

// What may not follow what stands before it in the batch is refused, and nothing is written.
fn unlawful(rt: &impl Abort, alloc: Global, plan: &Plan) {
    let mut manager = given(rt, life(alloc, MemDisk::new(alloc, ROOM), plan, SLOTS));
    let twice = [job(0), job(0)];
    launched_as(
        rt,
        manager.launch_batch(alloc, &twice),
        Err(ManagerFault::NotLawful),
    );
    launched_as(rt, manager.launch_batch(alloc, &twice[..1]), Ok(&[1]));
    let ends = [(job(0), GOOD), (job(0), GOOD)];
    same(
        rt,
        manager.record_batch(alloc, &ends),
        Err(ManagerFault::NotLawful),
    );
    same(rt, manager.record_batch(alloc, &ends[..1]), Ok(1));
    planned_as(rt, alloc, &manager, &[job(1), job(2)]);
    same(rt, manager.into_disk().bytes().len(), 161);
}

#[test]
fn a_batch_is_refused_as_a_whole(rt: HostRuntime) -> Result<(), Fail> {
    let plan = plan_of(rt.alloc(), ABORTS)?;
    too_few_slots(&rt, rt.alloc(), &plan);
    drop(plan);
    let plan = plan_of(rt.alloc(), DIAMOND)?;
    unlawful(&rt, rt.alloc(), &plan);
    drop(plan);
    Ok(())
}

// A life that goes on behind a batch reads all its records.
fn goes_on(rt: &impl Abort, alloc: Global, plan: &Plan) {
    let mut manager = given(rt, life(alloc, MemDisk::new(alloc, ROOM), plan, SLOTS));
    launched_as(
        rt,
        manager.launch_batch(alloc, &[job(0), job(1)]),
        Ok(&[1, 2]),
    );
    let mut manager = given(rt, life(alloc, manager.into_disk(), plan, SLOTS));
    planned_as(rt, alloc, &manager, &[job(0), job(1), job(2)]);
    launched_as(rt, manager.launch_batch(alloc, &[job(0)]), Ok(&[3]));
    same(rt, manager.into_disk().bytes().len(), 65 + 32 * 6);
}

#[test]
fn a_life_behind_a_batch(rt: HostRuntime) -> Result<(), Fail> {
    let plan = plan_of(rt.alloc(), ABORTS)?;
    goes_on(&rt, rt.alloc(), &plan);
    drop(plan);
    Ok(())
}

/// The job of the first node.
const FIRST: Key = Key {
    node: 0,
    attempt: 0,
    phase: Phase::Job,
};

/// The end of a job that was not launched.
const STRANGE: Record = Record::End(
    Key {
        node: 2,
        attempt: 0,
        phase: Phase::Job,
    },
    GOOD,
);

/// Two jobs that are launched, and one that is not.
const THREE: &str = "JOB A a.sub\nJOB B b.sub\nJOB C c.sub\n";

// The journal of a life that launched two jobs, each by itself or both together.
fn two_launched(rt: &impl Abort, alloc: Global, plan: &Plan, together: bool) -> MemDisk {
    let mut manager = given(rt, life(alloc, MemDisk::new(alloc, ROOM), plan, SLOTS));
    if together {
        let numbers = manager.launch_batch(alloc, &[job(0), job(1)]);
        launched_as(rt, numbers, Ok(&[1, 2]));
    } else {
        same(rt, manager.launch(job(0)), Ok(1));
        same(rt, manager.launch(job(1)), Ok(2));
    }
    manager.into_disk()
}

// The same with a record more that may not follow: alone, or behind one that may, in a batch.
fn with_strange(
    rt: &impl Abort,
    alloc: Global,
    plan: &Plan,
    disk: MemDisk,
    alone: bool,
) -> MemDisk {
    let Ok(Opened::Found(mut journal, _)) = Journal::open(alloc, disk, plan.digest(), false, SLOTS)
    else {
        panic!(rt; "no journal");
    };
    let answer = if alone {
        add(&mut journal, &STRANGE)
    } else {
        add_together(&mut journal, &[Record::End(FIRST, GOOD), STRANGE])
    };
    same(rt, answer, Ok(()));
    journal.into_disk()
}

// Who goes on with the journal, and who audits it, learns the slot of that record.
fn is_told(rt: &impl Abort, alloc: Global, plan: &Plan, disk: MemDisk, slot: u64) {
    let told = audit(alloc, plan, disk.bytes()).err();
    same(rt, told, Some(AuditNo::NotARun(slot)));
    let answer = life(alloc, disk, plan, SLOTS);
    let disk = refused(rt, answer, ManagerFault::Foreign(slot));
    drop(disk);
}

/// Whether the launches are a batch, whether the record that may not follow stands alone, and its slot:
/// Life has slot 0, and a batch has one before those of its records.
static STRANGERS: [(bool, bool, u64); 4] = [
    (false, true, 3),
    (true, true, 4),
    (false, false, 5),
    (true, false, 6),
];

#[test]
fn slots_behind_batches_are_told(rt: HostRuntime) -> Result<(), Fail> {
    let plan = plan_of(rt.alloc(), THREE)?;
    for (together, alone, slot) in STRANGERS {
        let disk = two_launched(&rt, rt.alloc(), &plan, together);
        let disk = with_strange(&rt, rt.alloc(), &plan, disk, alone);
        is_told(&rt, rt.alloc(), &plan, disk, slot);
    }
    drop(plan);
    Ok(())
}
