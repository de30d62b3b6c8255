//! Why there is no plan behind a rescue file, and the graph that comes back.

use crate::built::{Built, built_of, files_of, graph_of};
use crate::jobs::looks::{Kind, Look, Source, told, told_of};
use crate::jobs::shown::plan_fault;
use crate::same::same_text;
use dag_graph::Graph;
use run_plan::{Plan, PlanFault};
use splices::FileSet;
use std::alloc::Global;
use std::process::Abort;
use std::test::Fail;

/// The fault of the plan of x.dag, or nothing.
fn fault_of(
    alloc: Global,
    files: &FileSet,
    rescue: Option<&str>,
    kind: Kind,
) -> Result<String, Fail> {
    let source = Source {
        kind,
        top: "x.dag",
        files,
        rescue,
    };
    told(alloc, &source, "", &Look::Fault)
}

/// The submit files beside x.dag.
static SUBMITS: [(&str, &str); 2] = [
    ("good.sub", "executable = x\nqueue\n"),
    ("none.sub", "queue\n"),
];

/// The fault where this is x.dag.
fn fault_of_dag(alloc: Global, dag: &str, rescue: Option<&str>) -> Result<String, Fail> {
    let mut files = files_of(alloc, &SUBMITS)?;
    files.add(alloc, "x.dag", dag.as_bytes())?;
    fault_of(alloc, &files, rescue, Kind::Full)
}

/// The fault where this is x.dag, and no submit file is read.
fn fault_of_bare(alloc: Global, dag: &str, rescue: Option<&str>) -> Result<String, Fail> {
    let files = files_of(alloc, &[("x.dag", dag)])?;
    fault_of(alloc, &files, rescue, Kind::Bare)
}

/// How a fault is met.
enum How {
    /// The text is a DAG, and this is a rescue file.
    Dag(Option<&'static str>),
    /// The text is a DAG, and this is a rescue file; no submit file is read.
    Bare(Option<&'static str>),
    /// Memory is refused.
    Memory,
}

fn answer(alloc: Global, text: &str, how: &How) -> Result<String, Fail> {
    match how {
        How::Dag(rescue) => fault_of_dag(alloc, text, *rescue),
        How::Bare(rescue) => fault_of_bare(alloc, text, *rescue),
        How::Memory => Ok(plan_fault(alloc, &PlanFault::Memory)?),
    }
}

/// Texts, and the faults that are met by them, or none.
static FAULTS: [(&str, How, &str); 15] = [
    (
        "JOB A good.sub\nFINAL F good.sub\n",
        How::Dag(Some("DONE A")),
        "",
    ),
    ("JOB A none.sub NOOP\n", How::Dag(Some("DONE A")), ""),
    (
        "JOB A none.sub\n",
        How::Dag(Some("DONE A")),
        "P4 NoExecutable A",
    ),
    (
        "JOB A good.sub\n",
        How::Dag(Some("RETRY A 1\n")),
        "E1 BadLine",
    ),
    (
        "JOB A good.sub\n",
        How::Dag(Some("DONE Q\nDONE\n")),
        "E2 UnknownNode",
    ),
    (
        "JOB A good.sub\nFINAL F good.sub\n",
        How::Dag(Some("DONE F\nDONE Q\n")),
        "E3 FinalDone",
    ),
    (
        "JOB A none.sub\n",
        How::Dag(Some("DONE Q\n")),
        "P4 NoExecutable A",
    ),
    (
        "JOB A good.sub\nFINAL F a.sub\n",
        How::Dag(Some("DONE F\n")),
        "P1 MissingFile a.sub",
    ),
    (
        "JOB A a.sub NOOP\n",
        How::Dag(Some("DONE Q\n")),
        "E2 UnknownNode",
    ),
    ("JOB A a.sub\nFINAL F f.sub\n", How::Bare(None), ""),
    (
        "JOB A a.sub\nFINAL F f.sub\n",
        How::Bare(Some("DONE A\n")),
        "",
    ),
    (
        "JOB A a.sub\nFINAL F f.sub\n",
        How::Bare(Some("DONE A B\n")),
        "E1 BadLine",
    ),
    (
        "JOB A a.sub\nFINAL F f.sub\n",
        How::Bare(Some("DONE a\n")),
        "E2 UnknownNode",
    ),
    (
        "JOB A a.sub\nFINAL F f.sub\n",
        How::Bare(Some("DONE F\n")),
        "E3 FinalDone",
    ),
    ("", How::Memory, "P7 Memory"),
];

fn compare(rt: &impl Abort, alloc: Global, row: &(&str, How, &str)) -> Result<(), Fail> {
    let told = answer(alloc, row.0, &row.1)?;
    same_text(rt, row.0, told.as_str(), row.2);
    Ok(())
}

#[test]
fn faults(rt: HostRuntime) -> Result<(), Fail> {
    for row in &FAULTS {
        compare(&rt, rt.alloc(), row)?;
    }
    Ok(())
}

/// How many nodes the plan of a graph has.
fn count_of(alloc: Global, graph: Graph, files: &FileSet) -> Result<String, Fail> {
    let answer = built_of(Plan::build(alloc, graph, files, None, false));
    told_of(alloc, answer, "", &Look::Count)
}

/// The answer for x.dag, which hands the graph back while the submit file is missing.
fn handed_back(alloc: Global, files: &FileSet) -> Result<Built, Fail> {
    let graph = graph_of(alloc, files, "x.dag")?;
    Ok(built_of(Plan::build(alloc, graph, files, None, false)))
}

/// How many nodes the plan has of a graph that was handed back.
fn count_of_handed_back(alloc: Global, answer: Built, files: &FileSet) -> Result<String, Fail> {
    match answer {
        Built::Planned(plan) => {
            drop(plan);
            Err(Fail::from("no file is missing"))
        }
        Built::Refused(graph, fault) => {
            drop(fault);
            count_of(alloc, graph, files)
        }
    }
}

#[test]
fn missing_submit_file_is_added(rt: HostRuntime) -> Result<(), Fail> {
    let alloc = rt.alloc();
    let mut files = files_of(alloc, &[("x.dag", "JOB A a.sub\nJOB B a.sub\n")])?;
    let answer = handed_back(alloc, &files)?;
    let added = files.add(alloc, "a.sub", b"executable = x\nqueue\n");
    let count = count_of_handed_back(alloc, answer, &files)?;
    added?;
    same_text(&rt, "nodes", count.as_str(), "2");
    Ok(())
}
