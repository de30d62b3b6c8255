//! The answers at sets of files, as texts.

use crate::built::{Built, built_of};
use crate::dags::lines::{limits, settings};
use crate::dags::views::{ancestors, links, names, options, plan_text};
use crate::same::same_text;
use dag_graph::Graph;
use run_plan::Plan;
use splices::{FileSet, FlatDag, open_dag};
use std::alloc::{AllocError, Global};
use std::process::Abort;

/// What is looked at, where the files are read.
#[derive(Clone, Copy, Debug)]
pub enum View {
    /// Files, folders, parents and children of the nodes.
    Links,
    /// Folders and options of the nodes.
    Options,
    /// A topological order.
    Order,
    /// The ancestors of each node.
    Ancestors,
    /// The numbers of some names.
    Names,
    /// What lines set for the nodes.
    Settings,
    /// The limits of categories.
    Limits,
    /// What the plan says.
    Plan,
}

/// What opening this file answers: the fault of the files or of the graph, or what is looked at.
pub fn answer(alloc: Global, view: View, files: &FileSet, top: &str) -> Result<String, AllocError> {
    match open_dag(alloc, files, top) {
        Ok(dag) => answer_of_dag(alloc, view, dag),
        Err(fault) => format!(in alloc; "{fault}"),
    }
}

fn answer_of_dag(alloc: Global, view: View, dag: FlatDag) -> Result<String, AllocError> {
    match Graph::build(alloc, dag) {
        Ok(graph) => answer_of_graph(alloc, view, graph),
        Err(fault) => format!(in alloc; "{fault}"),
    }
}

fn answer_of_graph(alloc: Global, view: View, graph: Graph) -> Result<String, AllocError> {
    let built = built_of(Plan::build_bare(alloc, graph, None, false));
    let text = told(alloc, view, &built);
    drop(built);
    text
}

fn told(alloc: Global, view: View, built: &Built) -> Result<String, AllocError> {
    match built {
        Built::Planned(plan) => looked_at(alloc, view, plan),
        Built::Refused(_, fault) => format!(in alloc; "{fault}"),
    }
}

fn looked_at(alloc: Global, view: View, plan: &Plan) -> Result<String, AllocError> {
    let graph = plan.graph();
    match view {
        View::Links => links(alloc, graph),
        View::Options => options(alloc, graph.flat()),
        View::Order => {
            let order = graph.order();
            format!(in alloc; "{order:?}")
        }
        View::Ancestors => ancestors(alloc, plan),
        View::Names => names(alloc, graph),
        View::Settings => settings(alloc, graph.flat()),
        View::Limits => limits(alloc, graph.flat()),
        View::Plan => plan_text(alloc, plan),
    }
}

/// The file t.dag with this text, and the other files.
fn file_set(alloc: Global, others: &[(&str, &str)], text: &str) -> Result<FileSet, AllocError> {
    let mut files = FileSet::new(alloc);
    files.add(alloc, "t.dag", text.as_bytes())?;
    for (name, text) in others {
        files.add(alloc, name, text.as_bytes())?;
    }
    Ok(files)
}

fn compare_one(
    rt: &impl Abort,
    alloc: Global,
    view: View,
    others: &[(&str, &str)],
    case: &(&str, &str),
) -> Result<(), AllocError> {
    let files = file_set(alloc, others, case.0)?;
    let told = answer(alloc, view, &files, "t.dag")?;
    same_text(rt, case.0, told.as_str(), case.1);
    Ok(())
}

/// Compares the answers at some texts of t.dag, with other files beside it, with those that are
/// wanted.
pub fn compare(
    rt: &impl Abort,
    alloc: Global,
    view: View,
    others: &[(&str, &str)],
    cases: &[(&str, &str)],
) -> Result<(), AllocError> {
    for case in cases {
        compare_one(rt, alloc, view, others, case)?;
    }
    Ok(())
}
