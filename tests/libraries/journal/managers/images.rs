// Recoveries of each image that a crash may leave of a last slot.
use crate::managers::lives::{given, life};
use crate::managers::plans::{ROOM, SLOTS, job, plan_of};
use crate::same::same;
use event_journal::{JournalFault, MemDisk};
use node_machine::{Key, Outcome, Phase, Record};
use recovery::ManagerFault;
use run_plan::Plan;
use std::alloc::Global;
use std::process::Abort;
use std::test::Fail;

const JOB: Key = Key {
    node: 0,
    attempt: 0,
    phase: Phase::Job,
};

// The records of a journal, and the Life of who recovers it.
static WITH_LAST: [Record; 4] = [
    Record::Life,
    Record::Launch(JOB, 1),
    Record::End(JOB, Outcome::Exit(1)),
    Record::Life,
];

static WITHOUT: [Record; 3] = [Record::Life, Record::Launch(JOB, 1), Record::Life];

const OPEN: u8 = 0x4F;

// The size of a journal of three records, and the place of the last one's gate.
const SIZE: usize = 161;

const GATE: usize = 128;

// The bytes of a journal of three records.
fn written(rt: &impl Abort, alloc: Global, plan: &Plan) -> Result<Vec<u8>, Fail> {
    let mut manager = given(rt, life(alloc, MemDisk::new(alloc, ROOM), plan, SLOTS));
    same(rt, manager.launch(job(0)), Ok(1));
    same(rt, manager.record_end(job(0), Outcome::Exit(1)), Ok(()));
    let disk = manager.into_disk();
    Ok(Vec::from_slice(alloc, disk.bytes())?)
}

// The front of the journal with this value of the last gate: its records with the last one or
// without, and Life behind them; or the slot is bad, where its gate is open and it is not whole.
fn recovered(rt: &impl Abort, alloc: Global, plan: &Plan, disk: MemDisk, gate: u8) {
    let size = disk.bytes().len();
    let answer = life(alloc, disk, plan, SLOTS);
    match &answer {
        Ok(manager) => {
            assert!(rt; gate != OPEN || size == SIZE);
            let due = if gate == OPEN {
                WITH_LAST.as_slice()
            } else {
                WITHOUT.as_slice()
            };
            same(rt, manager.core().records(), due);
        }
        Err((_, fault)) => {
            assert!(rt; gate == OPEN && size < SIZE);
            same(rt, *fault, ManagerFault::Journal(JournalFault::BadSlot(2)));
        }
    }
    drop(answer);
}

// A disk that holds so many bytes of a journal, and of these the last gate with this value.
fn front_of(alloc: Global, bytes: &[u8], size: usize, gate: u8) -> Result<MemDisk, Fail> {
    let mut front = Vec::new(alloc);
    if GATE < size && size <= bytes.len() && size <= ROOM {
        front.extend_from_slice(&bytes[..size])?;
        front[GATE] = gate;
        return Ok(MemDisk::of(alloc, front, ROOM));
    }
    Err(Fail::from("no such front"))
}

fn every_prefix(rt: &impl Abort, alloc: Global, plan: &Plan) -> Result<(), Fail> {
    let bytes = written(rt, alloc, plan)?;
    assert!(rt; bytes.len() == SIZE);
    for size in GATE + 1..SIZE + 1 {
        for gate in 0..256u32 {
            let disk = front_of(alloc, &bytes, size, gate as u8)?;
            recovered(rt, alloc, plan, disk, gate as u8);
        }
    }
    Ok(())
}

#[test]
fn every_prefix_of_a_journal(rt: HostRuntime) -> Result<(), Fail> {
    let plan = plan_of(rt.alloc(), "JOB A a.sub\nRETRY A 0\n")?;
    let answer = every_prefix(&rt, rt.alloc(), &plan);
    drop(plan);
    answer
}
