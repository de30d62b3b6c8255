// Plans of the tests, and what a run of one comes to.
ghost use Rattle.std.specs.Prelude.{◌≡◌, []};
ghost use Rattle.node_machine.specs.OutcomeTable.{HasPossibleOutcomes};
ghost use Rattle.job_starter_drive.specs.Calls.{running};

use dag_graph::Graph;
use event_journal::MemDisk;
use job_starter_drive::{DriveFault, RunEnd, Script, ScriptedStarter, Starter, drive};
use node_machine::Table;
use recovery::{Manager, begin};
use run_plan::{Plan, PlanFault};
use sched_core::Core;
use splices::{FileSet, open_dag};
use std::alloc::Global;
use std::process::Abort;
use std::test::Fail;
use throttles::Limits;

pub const NO_LIMITS: Limits = Limits {
    jobs: 0,
    pre: 0,
    post: 0,
    children: 0,
};

/// A file of a test: its name and its text.
pub type File = (&'static str, &'static str);

/// The fault of a plan that is refused. The graph that comes back is dropped by a call: a proof spells each of its parts where a
/// block's end drops it.
fn fault_of(refused: (Graph, PlanFault)) -> Fail {
    let (graph, fault) = refused;
    drop(graph);
    Fail::from(fault)
}

/// The plan of a DAG and the submit files of its nodes.
pub fn plan_of(alloc: Global, dag: &str, submits: &[File]) -> Result<Plan, Fail> {
    plan_behind(alloc, dag, submits, None, false)
}

/// The same, with the rescue file of an earlier round where there is one, and with the flag.
pub fn plan_behind(
    alloc: Global,
    dag: &str,
    submits: &[File],
    rescue: Option<&[u8]>,
    always_post: bool,
) -> Result<Plan, Fail> {
    let mut files = FileSet::new(alloc);
    files.add(alloc, "x.dag", dag.as_bytes())?;
    for (name, text) in submits {
        files.add(alloc, name, text.as_bytes())?;
    }
    let dag = open_dag(alloc, &files, "x.dag")?;
    let graph = Graph::build(alloc, dag)?;
    match Plan::build(alloc, graph, &files, rescue, always_post) {
        Ok(plan) => Ok(plan),
        Err(refused) => Err(fault_of(refused)),
    }
}

/// Drives a run of a plan from its beginning, with a starter of no child: its manager, and how it ended.
pub fn driven<'a, S: Starter>(
    alloc: Global,
    plan: &'a Plan,
    limits: Limits,
    starter: &mut S,
) -> Result<(Manager<'a, MemDisk>, Result<RunEnd, DriveFault>), Fail>
    requires { running (S.call_log starter.old) ≡ [] }
{
    let disk = MemDisk::new(alloc, 100_000);
    let mut manager = match begin(alloc, disk, plan, 0, 1, 1000, limits) {
        Ok(manager) => manager,
        Err((_disk, fault)) => return Err(Fail::from(fault)),
    };
    let end = drive(alloc, &mut manager, plan, starter);
    Ok((manager, end))
}

/// How a driven run ended, and what each node came to.
pub fn run<S: Starter>(
    alloc: Global,
    plan: &Plan,
    limits: Limits,
    starter: &mut S,
) -> Result<(Result<RunEnd, DriveFault>, String), Fail>
    requires { running (S.call_log starter.old) ≡ [] }
{
    let (manager, end) = driven(alloc, plan, limits, starter)?;
    let text = shown(alloc, manager.core())?;
    Ok((end, text))
}

/// The script by which children end in the order of their starts, and no call is refused.
pub fn in_order(alloc: Global) -> Script
    ensures { result.places.items ≡ [] }
{
    Script {
        places: Vec::new(alloc),
        failing_start: None,
        failing_wait: None,
        lets_go: false,
    }
}

/// The manager of a run whose children ended as a table says, in the order of their starts.
pub fn by_table<'a>(
    rt: &impl Abort,
    alloc: Global,
    plan: &'a Plan,
    table: &Table,
    limits: Limits,
) -> Result<Manager<'a, MemDisk>, Fail>
    requires { HasPossibleOutcomes table.now }
{
    let mut starter = ScriptedStarter::new(alloc, plan, table, in_order(alloc));
    let (manager, end) = driven(alloc, plan, limits, &mut starter)?;
    assert!(rt; end.is_ok());
    Ok(manager)
}

/// A line for each node: its name, state, attempts and value.
fn shown(alloc: Global, core: &Core<'_>) -> Result<String, Fail> {
    let plan = core.plan();
    let mut text = String::new(alloc);
    let last = if plan.has_final() { 1 } else { 0 };
    for node in 0..plan.count() + last {
        let name = plan.spec(node).name();
        let state = core.node_state(node);
        let attempts = core.attempts_ended(node);
        match core.last_value(node) {
            Some(value) => write!(text, "{name} {state:?} {attempts} {value}\n")?,
            None => write!(text, "{name} {state:?} {attempts} -\n")?,
        }
    }
    Ok(text)
}
