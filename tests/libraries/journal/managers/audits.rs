// Audits of the journals of runs over crashes, and the fates that tables alone say.
use crate::managers::lives::run;
use crate::managers::plans::{PLAN_P, PLAN_Q, plan_of};
use crate::managers::runs::{LIVES, OUTCOMES, table_of};
use crate::same::same;
use fate_audit::{Fate, audit, predict};
use node_machine::Table;
use run_plan::Plan;
use std::alloc::Global;
use std::process::Abort;
use std::test::Fail;

// Adds what a node comes to, with its phases that ended.
fn add_line(text: &mut String, name: &str, fate: &Fate) -> Result<(), Fail> {
    let state = fate.state();
    let attempts = fate.attempts();
    let value = fate.value();
    write!(text, "{name} {state:?} {attempts} {value:?}")?;
    for ended in fate.history() {
        let (attempt, phase, outcome) = (ended.attempt, ended.phase, ended.outcome);
        write!(text, " {attempt} {phase:?} {outcome:?}")?;
    }
    text.push_str("\n")?;
    Ok(())
}

fn lines_of(alloc: Global, plan: &Plan, fates: &[Fate]) -> Result<String, Fail> {
    let mut text = String::new(alloc);
    for (spec, fate) in plan.nodes().iter().zip(fates.iter()) {
        add_line(&mut text, spec.name(), fate)?;
    }
    Ok(text)
}

fn audited(rt: &impl Abort, alloc: Global, plan: &Plan, bytes: &[u8]) -> Result<String, Fail> {
    match audit(alloc, plan, bytes) {
        Ok(fates) => {
            assert!(rt; fates.len() == plan.count() as usize);
            lines_of(alloc, plan, &fates)
        }
        Err(no) => panic!(rt; "audit no {no}"),
    }
}

// The journal's audit tells this.
fn is_told(
    rt: &impl Abort,
    alloc: Global,
    plan: &Plan,
    bytes: &[u8],
    due: &str,
) -> Result<(), Fail> {
    let text = audited(rt, alloc, plan, bytes)?;
    same(rt, text.as_str(), due);
    Ok(())
}

fn is_predicted(
    rt: &impl Abort,
    alloc: Global,
    plan: &Plan,
    table: &Table,
    due: &str,
) -> Result<(), Fail> {
    let fates = predict(alloc, plan, table)?;
    let text = lines_of(alloc, plan, &fates)?;
    same(rt, text.as_str(), due);
    Ok(())
}

// The table says what each node comes to, and so does the journal of each run by it.
fn agree(rt: &impl Abort, alloc: Global, plan: &Plan, due: &str) -> Result<(), Fail> {
    let table = table_of(rt, alloc, OUTCOMES);
    is_predicted(rt, alloc, plan, &table, due)?;
    for lives in LIVES {
        let disk = run(rt, alloc, plan, &table, lives);
        is_told(rt, alloc, plan, disk.bytes(), due)?;
    }
    Ok(())
}

// A and B come to the same in both.
static TWO_PLANS: [(&str, &str); 2] = [
    (
        PLAN_P,
        "A Done 1 Some(0) 0 Job Exit(0)\nB Done 2 Some(0) 0 Job Exit(1) 1 Job Exit(0)\n\
        Y Error 1 Some(2) 0 Job Exit(2)\n",
    ),
    (
        PLAN_Q,
        "X Error 3 Some(1) 0 Job Exit(1) 1 Job Exit(1) 2 Job Exit(1)\n\
        A Done 1 Some(0) 0 Job Exit(0)\nB Done 2 Some(0) 0 Job Exit(1) 1 Job Exit(0)\n\
        Z Error 1 Some(-6) 0 Job Signal(6)\n",
    ),
];

#[test]
fn two_runs_agree_by_their_tables(rt: HostRuntime) -> Result<(), Fail> {
    let alloc = rt.alloc();
    for (text, due) in TWO_PLANS {
        let plan = plan_of(alloc, text)?;
        let answer = agree(&rt, alloc, &plan, due);
        drop(plan);
        answer?;
    }
    Ok(())
}
