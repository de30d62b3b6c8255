//! Looks at the plans of files, whose answers are texts.

use crate::built::{Built, built_of, graph_of};
use crate::jobs::commands::{command_text, number_of};
use crate::jobs::shown::{decimal, joined, plan_fault, yes_or_no};
use dag_graph::Graph;
use node_machine::Phase;
use run_plan::Plan;
use run_plan_node::NodeSpec;
use splices::FileSet;
use std::alloc::{AllocError, Global};
use std::test::Fail;

/// Whether the submit files are read.
#[derive(Clone, Copy)]
pub enum Kind {
    Full,
    Bare,
}

/// What is looked at, where there is a plan.
pub enum Look {
    /// Nothing: a fault is wanted, or none.
    Fault,
    /// The number of ordinary nodes.
    Count,
    /// The names of the nodes that are done from the start, a blank behind each.
    Done,
    /// The digest in hexadecimal digits.
    Digest,
    /// Whether a word of a node's commands is known in a whole run alone.
    Whole,
    /// The command of a node in this attempt and phase.
    Command(u32, Phase),
}

fn bytes_of(text: Option<&str>) -> Option<&[u8]> {
    match text {
        Some(text) => Some(text.as_bytes()),
        None => None,
    }
}

/// The plan of a graph and of a rescue file, or its fault with the graph.
fn planned(
    alloc: Global,
    graph: Graph,
    files: &FileSet,
    rescue: Option<&str>,
    kind: Kind,
) -> Built {
    let rescue = bytes_of(rescue);
    built_of(match kind {
        Kind::Full => Plan::build(alloc, graph, files, rescue, false),
        Kind::Bare => Plan::build_bare(alloc, graph, rescue, false),
    })
}

/// What a plan is made from.
#[derive(Drop)]
pub struct Source<'a> {
    pub kind: Kind,
    pub top: &'a str,
    pub files: &'a FileSet,
    pub rescue: Option<&'a str>,
}

/// What a look at a plan, or at its node of this name, tells, or the fault.
pub fn told(alloc: Global, source: &Source<'_>, name: &str, look: &Look) -> Result<String, Fail> {
    let graph = graph_of(alloc, source.files, source.top)?;
    let answer = planned(alloc, graph, source.files, source.rescue, source.kind);
    told_of(alloc, answer, name, look)
}

/// What a look at a plan tells, or the fault.
///
/// A value of many parts is let go by a call, since a proof spells each part where a block's end
/// lets it go.
pub fn told_of(alloc: Global, answer: Built, name: &str, look: &Look) -> Result<String, Fail> {
    let text = told_by(alloc, &answer, name, look);
    drop(answer);
    text
}

fn told_by(alloc: Global, answer: &Built, name: &str, look: &Look) -> Result<String, Fail> {
    match answer {
        Built::Planned(plan) => looked_at(alloc, plan, name, look),
        Built::Refused(_, fault) => Ok(plan_fault(alloc, fault)?),
    }
}

fn looked_at(alloc: Global, plan: &Plan, name: &str, look: &Look) -> Result<String, Fail> {
    match look {
        Look::Fault => Ok(String::new(alloc)),
        Look::Count => Ok(decimal(alloc, plan.count() as usize)?),
        Look::Done => Ok(done_names(alloc, plan.nodes())?),
        Look::Digest => Ok(hexadecimal(alloc, plan.digest())?),
        Look::Whole => whole_run(alloc, plan, name),
        Look::Command(attempt, phase) => command_text(alloc, plan, name, *attempt, *phase),
    }
}

fn done_names(alloc: Global, nodes: &[NodeSpec]) -> Result<String, AllocError> {
    let mut names = String::new(alloc);
    for node in nodes {
        if node.is_done() {
            write!(&mut names, "{} ", node.name())?;
        }
    }
    Ok(names)
}

fn hexadecimal(alloc: Global, bytes: &[u8]) -> Result<String, AllocError> {
    let mut digits = String::new(alloc);
    for byte in bytes {
        write!(&mut digits, "{byte:02x}")?;
    }
    Ok(digits)
}

fn whole_run(alloc: Global, plan: &Plan, name: &str) -> Result<String, Fail> {
    let node = number_of(plan, name)?;
    let answer = yes_or_no(plan.whole_run(node));
    Ok(joined(alloc, &[answer])?)
}
