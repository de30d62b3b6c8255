//! Nodes, and how they hang together.

ghost use Rattle.std.specs.Prelude.{◌<◌};
ghost use Rattle.run_plan.specs.Plan.{count_of};

use dag_graph::Graph;
use run_plan::Plan;
use run_plan_node::NodeSpec;
use splices::{FlatDag, FlatNode};
use std::alloc::{AllocError, Global};

/// Each ordinary node: its name, submit file, folder, parents and children.
pub fn links(alloc: Global, graph: &Graph) -> Result<String, AllocError> {
    let mut shown = String::new(alloc);
    let mut number = 0u32;
    for node in graph.flat().nodes() {
        add_link(&mut shown, graph, node, number)?;
        number = number.saturating_add(1);
    }
    Ok(shown)
}

fn add_link(
    shown: &mut String,
    graph: &Graph,
    node: &FlatNode,
    number: u32,
) -> Result<(), AllocError> {
    if number as usize >= graph.flat().nodes().len() {
        return Ok(());
    }
    let (parents, children) = (graph.parents(number), graph.children(number));
    let (name, file, folder) = (&node.name, &node.file, &node.folder);
    write!(shown, "{name} {file} '{folder}' {parents:?} {children:?};")
}

/// Each node, FINAL last: its name, submit file, folder and options.
pub fn options(alloc: Global, dag: &FlatDag) -> Result<String, AllocError> {
    let mut shown = String::new(alloc);
    for node in dag.nodes() {
        add_options(&mut shown, node)?;
    }
    if let Some(node) = dag.final_node() {
        add_options(&mut shown, node)?;
    }
    Ok(shown)
}

/// The word where it holds, or nothing.
fn word_if(holds: bool, word: &'static str) -> &'static str {
    if holds { word } else { "" }
}

fn add_options(shown: &mut String, node: &FlatNode) -> Result<(), AllocError> {
    let (noop, done) = (word_if(node.noop, " NOOP"), word_if(node.done, " DONE"));
    let (name, file, folder) = (&node.name, &node.file, &node.folder);
    write!(shown, "{name} {file} '{folder}'{noop}{done};")
}

/// Each node's ancestors, by numbers.
pub fn ancestors(alloc: Global, plan: &Plan) -> Result<String, AllocError> {
    let mut shown = String::new(alloc);
    for node in 0..plan.count() {
        write!(&mut shown, "{node}:")?;
        add_ancestors(alloc, &mut shown, plan, node)?;
        write!(&mut shown, ";")?;
    }
    Ok(shown)
}

fn add_ancestors(
    alloc: Global,
    shown: &mut String,
    plan: &Plan,
    node: u32,
) -> Result<(), AllocError>
    requires { node < count_of plan.now }
{
    for other in 0..plan.count() {
        if let Ok(true) = plan.graph().is_ancestor(alloc, other, node) {
            write!(shown, " {other}")?;
        }
    }
    Ok(())
}

/// The numbers of some names.
pub fn names(alloc: Global, graph: &Graph) -> Result<String, AllocError> {
    let mut shown = String::new(alloc);
    for name in ["S", "E", "Y+X+L", "Z+X+L", "F", "Y", "A", "y+a"] {
        let number = graph.node_named(name);
        write!(&mut shown, "{name} {number:?};")?;
    }
    Ok(shown)
}

/// What a plan says of its nodes, FINAL last.
pub fn plan_text(alloc: Global, plan: &Plan) -> Result<String, AllocError> {
    let mut shown = String::new(alloc);
    for number in 0..plan.count() {
        add_spec(&mut shown, plan.spec(number))?;
    }
    if plan.has_final() {
        add_spec(&mut shown, plan.spec(plan.count()))?;
    }
    Ok(shown)
}

fn add_spec(shown: &mut String, spec: &NodeSpec) -> Result<(), AllocError> {
    write!(shown, "{} {:?}", spec.name(), spec.parents())?;
    add_course(shown, spec)?;
    let done = word_if(spec.is_done(), " DONE");
    let (priority, category) = (spec.priority(), spec.category());
    let status = spec.abort_return();
    write!(shown, "{done} {priority} {category:?} {status:?};")
}

fn add_course(shown: &mut String, spec: &NodeSpec) -> Result<(), AllocError> {
    let it = spec.course();
    let (pre, post) = (word_if(it.pre, " PRE"), word_if(it.post, " POST"));
    let noop = word_if(it.noop, " NOOP");
    write!(
        shown,
        "{pre}{noop}{post} {} {:?}",
        it.retries, it.unless_exit
    )?;
    write!(shown, " {:?} {:?}", it.pre_skip, it.abort_on)
}
