// The order of launches.
use crate::plans::{File, NO_LIMITS, by_table, plan_of};
use crate::same::same;
use node_machine::{Phase, Record, Table};
use ready_queue::{Member, QueueFault, ReadyQueue};
use run_plan::Plan;
use std::alloc::Global;
use std::process::Abort;
use std::test::Fail;
use throttles::{Limits, ThrottleFault, Throttles};

const ONE_JOB: Limits = Limits {
    jobs: 1,
    ..NO_LIMITS
};

static SUBMITS: [File; 1] = [("x.sub", "executable = x\nqueue\n")];

/// Adds the node of a job's launch, and in brackets that of its ending.
fn add_job(text: &mut String, entry: &Record) -> Result<(), Fail> {
    match entry {
        Record::Launch(key, _) if key.phase == Phase::Job => write!(text, "{} ", key.node)?,
        Record::End(key, _) if key.phase == Phase::Job => write!(text, "({}) ", key.node)?,
        _ => {}
    }
    Ok(())
}

fn jobs_in(alloc: Global, records: &[Record]) -> Result<String, Fail> {
    let mut text = String::new(alloc);
    for entry in records {
        add_job(&mut text, entry)?;
    }
    Ok(text)
}

/// The nodes of the launches in their order, as a text of their numbers.
fn launches(rt: &impl Abort, alloc: Global, plan: &Plan, limits: Limits) -> Result<String, Fail> {
    let manager = by_table(rt, alloc, plan, &Table::empty(alloc), limits)?;
    jobs_in(alloc, manager.core().records())
}

/// A DAG, the limits, and the launches with the endings in brackets.
type Row = (&'static str, Limits, &'static str);

/// Priorities -1, 5 and 0.
const BY_PRIORITY: &str = "JOB A x.sub\nJOB B x.sub\nJOB C x.sub\nPRIORITY B 5\nPRIORITY A -1\n";

/// The job of a NOOP ends once all that was launched with it is started; the limit on jobs holds it too.
const WITH_NOOP: &str = "JOB A x.sub\nJOB B x.sub NOOP\nJOB C x.sub\n";

/// A category of one job at a time holds B and C apart, and A runs beside them.
const IN_A_CATEGORY: &str =
    "JOB A x.sub\nJOB B x.sub\nJOB C x.sub\nCATEGORY B k\nCATEGORY C k\nMAXJOBS k 1\n";

static ORDERS: [Row; 5] = [
    (BY_PRIORITY, ONE_JOB, "1 (1) 2 (2) 0 (0) "),
    (BY_PRIORITY, NO_LIMITS, "1 2 0 (1) (2) (0) "),
    (IN_A_CATEGORY, NO_LIMITS, "0 1 (0) (1) 2 (2) "),
    (WITH_NOOP, NO_LIMITS, "0 1 2 (1) (0) (2) "),
    (WITH_NOOP, ONE_JOB, "0 (0) 1 (1) 2 (2) "),
];

fn compare(rt: &impl Abort, alloc: Global, row: &Row) -> Result<(), Fail> {
    let plan = plan_of(alloc, row.0, &SUBMITS)?;
    let told = launches(rt, alloc, &plan, row.1);
    drop(plan);
    same(rt, told?.as_str(), row.2);
    Ok(())
}

/// By priority, in categories, and with a NOOP.
#[test]
fn orders_of_launches(rt: HostRuntime) -> Result<(), Fail> {
    for row in &ORDERS {
        compare(&rt, rt.alloc(), row)?;
    }
    Ok(())
}

fn member(node: u32, priority: i32) -> Member {
    Member { node, priority }
}

/// Best first: by priority, then in plan order.
fn best_first(rt: &impl Abort, queue: &mut ReadyQueue) -> Result<(), Fail> {
    queue.reserve(5)?;
    queue.add(member(2, 0))?;
    queue.add(member(0, 0))?;
    queue.add(member(1, 5))?;
    same(&rt, queue.members().first(), Some(&member(1, 5)));
    same(&rt, queue.best_where(|_| true), Some(member(1, 5)));
    same(&rt, queue.best_where(|node| node != 1), Some(member(0, 0)));
    assert!(rt; queue.best_where(|_| false).is_none());
    same(rt, queue.add(member(0, 0)), Err(QueueFault::Present));
    same(rt, queue.add(member(0, 7)), Err(QueueFault::Present));
    same(rt, queue.remove(member(9, 0)), Err(QueueFault::Absent));
    queue.remove(member(0, 0))?;
    same(rt, queue.members().len(), 2);
    Ok(())
}

#[test]
fn queue(rt: HostRuntime) -> Result<(), Fail> {
    let mut queue = ReadyQueue::new(rt.alloc());
    best_first(&rt, &mut queue)
}

#[test]
fn throttles(rt: HostRuntime) -> Result<(), Fail> {
    let mut throttles = Throttles::new(rt.alloc(), ONE_JOB, &[])?;
    throttles.start(Phase::Job, None)?;
    same(
        &rt,
        throttles.start(Phase::Job, None),
        Err(ThrottleFault::Full),
    );
    same(
        &rt,
        throttles.end(Phase::Pre, None),
        Err(ThrottleFault::NoneRunning),
    );
    assert!(rt; throttles.may_start(Phase::Pre, None));
    throttles.note(Phase::Job, None);
    throttles.end(Phase::Job, None)?;
    assert!(rt; !throttles.may_start(Phase::Job, None));
    Ok(())
}
