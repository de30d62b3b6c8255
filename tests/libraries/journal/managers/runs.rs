// Runs over crashes.
use crate::managers::lives::{records_on, run};
use crate::managers::plans::{DIAMOND, PLAN_P, PLAN_Q, job, plan_of};
use crate::same::same;
use node_machine::{Key, Outcome, Phase, Record, State, Table, read_table};
use recovery::replay;
use run_plan::Plan;
use sched_core::Core;
use std::alloc::Global;
use std::process::Abort;
use std::test::Fail;

const A: Key = Key {
    node: 0,
    attempt: 0,
    phase: Phase::Job,
};

const B: Key = Key {
    node: 1,
    attempt: 0,
    phase: Phase::Job,
};

const C: Key = Key {
    node: 2,
    attempt: 0,
    phase: Phase::Job,
};

const D: Key = Key {
    node: 3,
    attempt: 0,
    phase: Phase::Job,
};

const GOOD: Outcome = Outcome::Exit(0);

// A crash once the Launch of B is recorded, and one once the End of B is.
static TWO_CRASHES: [Record; 14] = [
    Record::Life,
    Record::Launch(A, 1),
    Record::End(A, GOOD),
    Record::Launch(B, 2),
    Record::Life,
    Record::Launch(B, 3),
    Record::Launch(C, 4),
    Record::End(B, GOOD),
    Record::Life,
    Record::Launch(C, 5),
    Record::End(C, GOOD),
    Record::Launch(D, 6),
    Record::End(D, GOOD),
    Record::Finish(0),
];

pub fn table_of(rt: &impl Abort, alloc: Global, text: &[u8]) -> Table {
    let Ok(table) = read_table(alloc, text) else {
        panic!(rt; "no table");
    };
    table
}

// The records of a run by a table whose lives stop after so many records each.
fn records_by(
    rt: &impl Abort,
    alloc: Global,
    plan: &Plan,
    outcomes: &[u8],
    lives: &[u32],
) -> Result<Vec<Record>, Fail> {
    let table = table_of(rt, alloc, outcomes);
    records_on(alloc, plan, run(rt, alloc, plan, &table, lives))
}

// What the first two lives recorded.
fn two_lives_of(rt: &impl Abort, alloc: Global, plan: &Plan) -> Result<(), Fail> {
    let core = replay(alloc, plan, &TWO_CRASHES[..8])?;
    let states = [State::Done, State::Done, State::NotRun, State::NotRun];
    assert!(rt; plan.count() == 4);
    for node in 0..plan.count() {
        same(rt, Some(&core.node_state(node)), states.get(node as usize));
    }
    assert!(rt; core.is_outstanding(&job(2)));
    Ok(())
}

fn two_crashes_of(rt: &impl Abort, alloc: Global, plan: &Plan) -> Result<(), Fail> {
    let records = records_by(rt, alloc, plan, b"", &[3, 3, 100])?;
    same(rt, records.as_slice(), TWO_CRASHES.as_slice());
    two_lives_of(rt, alloc, plan)
}

#[test]
fn two_crashes(rt: HostRuntime) -> Result<(), Fail> {
    let plan = plan_of(rt.alloc(), DIAMOND)?;
    let answer = two_crashes_of(&rt, rt.alloc(), &plan);
    drop(plan);
    answer
}

pub static OUTCOMES: &[u8] =
    b"B 0 JOB 1\nX 0 JOB 1\nX 1 JOB 1\nX 2 JOB 1\nY 0 JOB 2\nZ 0 JOB signal 6\n";

// What each node shows.
fn nodes_of(alloc: Global, core: &Core<'_>) -> Result<String, Fail> {
    let plan = core.plan();
    let mut text = String::new(alloc);
    for node in 0..plan.count() {
        let name = plan.spec(node).name();
        let state = core.node_state(node);
        let attempts = core.attempts_ended(node);
        let value = core.last_value(node);
        write!(text, "{name} {state:?} {attempts} {value:?}\n")?;
    }
    Ok(text)
}

// What each node shows at the end of a run whose lives stop after so many records each.
fn shown(rt: &impl Abort, alloc: Global, plan: &Plan, lives: &[u32]) -> Result<String, Fail> {
    let records = records_by(rt, alloc, plan, OUTCOMES, lives)?;
    let core = replay(alloc, plan, &records)?;
    assert!(rt; core.is_over());
    nodes_of(alloc, &core)
}

// How many records each life adds: without a crash, and with one to three.
pub static LIVES: [&[u32]; 4] = [&[100], &[4, 100], &[3, 4, 100], &[1, 3, 4, 100]];

fn agree(rt: &impl Abort, alloc: Global, plan: &Plan, due: &str) -> Result<(), Fail> {
    for lives in LIVES {
        let text = shown(rt, alloc, plan, lives)?;
        same(rt, text.as_str(), due);
    }
    Ok(())
}

#[test]
fn two_runs_agree(rt: HostRuntime) -> Result<(), Fail> {
    let alloc = rt.alloc();
    for (text, due) in [
        (
            PLAN_P,
            "A Done 1 Some(0)\nB Done 2 Some(0)\nY Error 1 Some(2)\n",
        ),
        (
            PLAN_Q,
            "X Error 3 Some(1)\nA Done 1 Some(0)\nB Done 2 Some(0)\nZ Error 1 Some(-6)\n",
        ),
    ] {
        let plan = plan_of(alloc, text)?;
        let answer = agree(&rt, alloc, &plan, due);
        drop(plan);
        answer?;
    }
    Ok(())
}
