//! The commands of plans, as texts.

ghost use Rattle.std.specs.Prelude.{◌≡◌, ◌≤◌, IfOk};
ghost use Rattle.run_plan_node.specs.Commands.{starts_child};
ghost use Rattle.run_plan.specs.Plan.{count_of};

use crate::jobs::words::barred;
use dag_reader::Text;
use node_machine::{Key, Phase};
use run_plan::Plan;
use run_plan_node::{ChildCommand, NodeSpec, PhaseFacts};
use std::alloc::{AllocError, Global};
use std::test::Fail;

/// The number of the node of this name.
pub fn number_of(plan: &Plan, name: &str) -> Result<u32, Fail>
    ensures { IfOk result (λ node. node ≤ count_of plan.now) }
{
    match plan.graph().node_named(name) {
        Some(node) if node <= plan.count() => Ok(node),
        _ => Err(Fail::from("there is no such node")),
    }
}

/// Whether this phase of a node starts a child.
fn starts(spec: &NodeSpec, phase: Phase) -> bool
    ensures { result ≡ starts_child spec.now phase }
{
    match phase {
        Phase::Pre => spec.course().pre,
        Phase::Job => !spec.course().noop,
        Phase::Post => spec.course().post,
    }
}

/// The text, or a dash where there is none.
pub fn text_or_dash(text: Option<&Text>) -> &str {
    match text {
        Some(text) => text.as_str(),
        None => "-",
    }
}

/// The program and its words, a bar behind each, the folder, the files of the streams, and what is
/// added to the environment.
fn shown(alloc: Global, command: &ChildCommand) -> Result<String, AllocError> {
    let mut text = String::new(alloc);
    add_program(alloc, &mut text, command)?;
    add_places(alloc, &mut text, command)?;
    Ok(text)
}

fn add_program(alloc: Global, text: &mut String, command: &ChildCommand) -> Result<(), AllocError> {
    let words = barred(alloc, &command.words)?;
    write!(text, "{}|{words} in '{}'", command.program, command.folder)?;
    Ok(())
}

fn add_places(alloc: Global, text: &mut String, command: &ChildCommand) -> Result<(), AllocError> {
    let environment = barred(alloc, &command.environment)?;
    let input = text_or_dash(command.input.as_ref());
    let output = text_or_dash(command.output.as_ref());
    let error = text_or_dash(command.error.as_ref());
    write!(text, " <{input} >{output} 2>{error} {environment}")?;
    Ok(())
}

/// What is known when a phase is launched: the seventh launch, behind a PRE script with value 4 and a
/// job with the fifth launch and value -9, where two nodes are in error.
const FACTS: PhaseFacts = PhaseFacts {
    launch: 7,
    job_launch: 5,
    job_value: -9,
    pre_value: 4,
    dag_status: 0,
    failed: 2,
};

/// The command of a phase of the node of this name.
fn command_at(
    alloc: Global,
    plan: &Plan,
    name: &str,
    attempt: u32,
    phase: Phase,
) -> Result<ChildCommand, Fail> {
    let node = number_of(plan, name)?;
    let spec = plan.spec(node);
    if !starts(spec, phase) || attempt > spec.course().retries {
        return Err(Fail::from("no such phase"));
    }
    let key = Key {
        node,
        attempt,
        phase,
    };
    Ok(plan.command(alloc, &key, &FACTS)?)
}

/// The command of a phase of the node of this name, as a text.
pub fn command_text(
    alloc: Global,
    plan: &Plan,
    name: &str,
    attempt: u32,
    phase: Phase,
) -> Result<String, Fail> {
    let command = command_at(alloc, plan, name, attempt, phase)?;
    let text = shown(alloc, &command);
    drop(command);
    Ok(text?)
}
