// What a core tells of a run that ended.
use crate::plans::{File, NO_LIMITS, by_table, plan_of};
use crate::same::same;
use node_machine::{Outcome, Phase, Record, State, read_table};
use run_plan::Plan;
use sched_core::{Choice, Core};
use std::alloc::Global;
use std::process::Abort;
use std::test::Fail;

static SUBMITS: [File; 1] = [("a.sub", "executable = /bin/a\nqueue\n")];

/// The history of B, whose job exits with 1 and then with 2.
fn told_history(rt: &impl Abort, alloc: Global, core: &Core<'_>) {
    let Ok(history) = core.history(alloc, 1) else {
        panic!(rt; "no history");
    };
    assert!(rt; history.len() == 2);
    assert!(rt; history[1].attempt == 1 && history[1].phase == Phase::Job);
    same(rt, history[1].outcome, Outcome::Exit(2));
}

fn told_marks(rt: &impl Abort, alloc: Global, core: &Core<'_>) {
    let Ok(marks) = core.marks(alloc) else {
        panic!(rt; "no marks");
    };
    same(rt, marks.as_slice(), [true, false, false].as_slice());
}

fn told(rt: &impl Abort, alloc: Global, plan: &Plan) -> Result<(), Fail> {
    let Ok(table) = read_table(alloc, b"B 0 JOB 1\nB 1 JOB 2\n") else {
        panic!(rt; "no table");
    };
    let manager = by_table(rt, alloc, plan, &table, NO_LIMITS)?;
    told_history(rt, alloc, manager.core());
    told_marks(rt, alloc, manager.core());
    Ok(())
}

#[test]
fn history_and_marks(rt: HostRuntime) -> Result<(), Fail> {
    let text =
        "JOB A a.sub\nJOB B a.sub\nJOB C a.sub\nRETRY B 1\nPARENT A CHILD B\nPARENT B CHILD C\n";
    let plan = plan_of(rt.alloc(), text, &SUBMITS)?;
    let answer = told(&rt, rt.alloc(), &plan);
    drop(plan);
    answer
}

/// As many nodes as there may be, of which the last is a child of all others.
fn funnel(alloc: Global) -> Result<String, Fail> {
    let mut text = String::new(alloc);
    for node in 0..3_999 {
        write!(text, "JOB J{node} a.sub\n")?;
    }
    write!(text, "JOB Z a.sub\n")?;
    for node in 0..3_999 {
        write!(text, "PARENT J{node} CHILD Z\n")?;
    }
    Ok(text)
}

fn add(core: &mut Core<'_>, entry: Record) -> Result<(), Fail> {
    core.reserve(1)?;
    core.apply(entry)?;
    Ok(())
}

/// A run in which each job ends with 0 once it is launched.
fn all_good(alloc: Global, plan: &Plan) -> Result<Core<'_>, Fail> {
    let mut core = Core::new(alloc, plan, NO_LIMITS)?;
    add(&mut core, Record::Life)?;
    for _ in 0..4_001 {
        match core.choose() {
            Choice::Start(key) => {
                let number = core.launch_number(&key);
                add(&mut core, Record::Launch(key, number))?;
                add(&mut core, Record::End(key, Outcome::Exit(0)))?;
            }
            Choice::Finish(status) => add(&mut core, Record::Finish(status))?,
            Choice::Wait => {}
        }
    }
    Ok(core)
}

fn is_good(core: &Core<'_>, node: u32) -> bool {
    node <= core.plan().count()
        && matches!(core.node_state(node), State::Done)
        && core.attempts_ended(node) == 1
        && core.last_value(node) == Some(0)
}

/// What a record looks at are its node and that node's children: 4,000 nodes take far fewer looks than pairs of them.
fn looks_are_few(rt: &impl Abort, alloc: Global, plan: &Plan) -> Result<(), Fail> {
    let core = all_good(alloc, plan)?;
    assert!(rt; core.is_over());
    same(rt, core.verdict(), 0);
    same(rt, plan.count(), 4_000);
    for node in 0..4_000 {
        assert!(rt; is_good(&core, node));
    }
    assert!(rt; core.looks() <= 20_000);
    Ok(())
}

#[test]
fn children_count_their_parents(rt: HostRuntime) -> Result<(), Fail> {
    let text = funnel(rt.alloc())?;
    let plan = plan_of(rt.alloc(), text.as_str(), &SUBMITS)?;
    let answer = looks_are_few(&rt, rt.alloc(), &plan);
    drop(plan);
    answer
}
