//! Rescue files: what is written, what is read, and their names.

use crate::built::{files_of, graph_of};
use crate::same::same_text;
use dag_graph::Graph;
use dag_reader::{Text, Texts};
use rescue_file::{RescueFault, pick_number, read_rescue, rescue_name, rescue_text};
use std::alloc::Global;
use std::process::Abort;
use std::test::Fail;

/// A diamond and a FINAL node.
const DIAMOND: &str = "JOB A a\nFINAL F f\nJOB B b\nJOB C c\nJOB D d\n\
    PARENT A CHILD B C\nPARENT B C CHILD D\n";

fn diamond(alloc: Global) -> Result<Graph, Fail> {
    let files = files_of(alloc, &[("x.dag", DIAMOND)])?;
    graph_of(alloc, &files, "x.dag")
}

/// The fault, with the number of its line where it has one.
fn shown_fault(alloc: Global, fault: RescueFault) -> Result<String, Fail> {
    match fault {
        RescueFault::BadLine(line)
        | RescueFault::UnknownNode(line)
        | RescueFault::FinalDone(line) => Ok(format!(in alloc; "{fault} x.dag.rescue001:{line}")?),
        RescueFault::NotThere(_) | RescueFault::Memory => Ok(format!(in alloc; "{fault}")?),
    }
}

/// The marks of the diamond's nodes, and the text.
static WRITTEN: [([bool; 4], &str); 3] = [
    (
        [true, true, false, false],
        "# Rescue DAG file\n# Total number of Nodes: 4\n# Nodes premarked DONE: 2\n\n\
        DONE A\nDONE B\n",
    ),
    (
        [false, false, false, false],
        "# Rescue DAG file\n# Total number of Nodes: 4\n# Nodes premarked DONE: 0\n\n",
    ),
    (
        [true, false, true, true],
        "# Rescue DAG file\n# Total number of Nodes: 4\n# Nodes premarked DONE: 3\n\n\
        DONE A\nDONE C\nDONE D\n",
    ),
];

fn are_written(rt: &impl Abort, alloc: Global, graph: &Graph) -> Result<(), Fail> {
    assert!(rt; graph.flat().nodes().len() == 4);
    for row in &WRITTEN {
        let text = rescue_text(alloc, graph, &row.0)?;
        same_text(rt, "a text", text.as_str(), row.1);
    }
    Ok(())
}

#[test]
fn texts(rt: HostRuntime) -> Result<(), Fail> {
    let graph = diamond(rt.alloc())?;
    are_written(&rt, rt.alloc(), &graph)
}

/// The text of a rescue file of the diamond, and the numbers of the nodes or the fault.
static READ: [(&str, &str); 18] = [
    ("", "[]"),
    (
        "# Rescue DAG file\n# Total number of Nodes: 4\n# Nodes premarked DONE: 2\n\n\
        DONE A\nDONE B\n",
        "[0, 1]",
    ),
    (
        "  # DONE Q\n\t\n\r\ndone D\ndOnE\tA \r\nDONE D",
        "[3, 0, 3]",
    ),
    ("#\n\n#DONE A", "[]"),
    ("RETRY A 1", "E1 BadLine x.dag.rescue001:1"),
    ("DONE", "E1 BadLine x.dag.rescue001:1"),
    ("DONE A\n\nDONE A B\n", "E1 BadLine x.dag.rescue001:3"),
    ("DONE A # B", "E1 BadLine x.dag.rescue001:1"),
    ("DONE A\r", "E1 BadLine x.dag.rescue001:1"),
    ("# bell\u{7}\n", "E1 BadLine x.dag.rescue001:1"),
    ("A", "E1 BadLine x.dag.rescue001:1"),
    ("DONE Q", "E2 UnknownNode x.dag.rescue001:1"),
    ("DONE a", "E2 UnknownNode x.dag.rescue001:1"),
    ("DONE A.B", "E2 UnknownNode x.dag.rescue001:1"),
    ("DONE F", "E3 FinalDone x.dag.rescue001:1"),
    ("DONE Q\nDONE F\nDONE", "E2 UnknownNode x.dag.rescue001:1"),
    ("DONE B\nDONE F\nDONE Q", "E3 FinalDone x.dag.rescue001:2"),
    ("DONE Q R", "E1 BadLine x.dag.rescue001:1"),
];

fn read(alloc: Global, bytes: &[u8], graph: &Graph) -> Result<String, Fail> {
    match read_rescue(alloc, bytes, graph) {
        Ok(nodes) => Ok(format!(in alloc; "{nodes:?}")?),
        Err(fault) => shown_fault(alloc, fault),
    }
}

fn is_read(
    rt: &impl Abort,
    alloc: Global,
    graph: &Graph,
    bytes: &[u8],
    due: &str,
) -> Result<(), Fail> {
    let got = read(alloc, bytes, graph)?;
    same_text(rt, "lines", got.as_str(), due);
    Ok(())
}

fn are_read(rt: &impl Abort, alloc: Global, graph: &Graph) -> Result<(), Fail> {
    for row in &READ {
        is_read(rt, alloc, graph, row.0.as_bytes(), row.1)?;
    }
    is_read(
        rt,
        alloc,
        graph,
        b"# \xff\n",
        "E1 BadLine x.dag.rescue001:1",
    )
}

#[test]
fn lines(rt: HostRuntime) -> Result<(), Fail> {
    let graph = diamond(rt.alloc())?;
    are_read(&rt, rt.alloc(), &graph)
}

static SPLICED: [(&str, &str); 2] = [
    ("x.dag", "SPLICE Y y.dag\nJOB A a\n"),
    ("y.dag", "JOB A a\nJOB B b\n"),
];

/// Node A, and behind it the nodes Y+A and Y+B of a splice.
fn spliced(alloc: Global) -> Result<Graph, Fail> {
    let files = files_of(alloc, &SPLICED)?;
    graph_of(alloc, &files, "x.dag")
}

/// A splice's nodes go by their full names.
#[test]
fn full_names(rt: HostRuntime) -> Result<(), Fail> {
    let alloc = rt.alloc();
    let graph = spliced(alloc)?;
    is_read(
        &rt,
        alloc,
        &graph,
        b"DONE Y+B\nDONE A\nDONE Y+A\n",
        "[2, 0, 1]",
    )?;
    is_read(
        &rt,
        alloc,
        &graph,
        b"DONE B\n",
        "E2 UnknownNode x.dag.rescue001:1",
    )
}

static NAMES: [(u16, &str); 8] = [
    (1, "x.dag.rescue001"),
    (7, "x.dag.rescue007"),
    (10, "x.dag.rescue010"),
    (340, "x.dag.rescue340"),
    (999, "x.dag.rescue999"),
    (0, "E4 NotThere 0"),
    (1000, "E4 NotThere 1000"),
    (65_535, "E4 NotThere 65535"),
];

fn named(alloc: Global, number: u16) -> Result<String, Fail> {
    match rescue_name(alloc, "x.dag", number) {
        Ok(name) => Ok(format!(in alloc; "{name}")?),
        Err(fault) => shown_fault(alloc, fault),
    }
}

fn is_named(rt: &impl Abort, alloc: Global, row: &(u16, &str)) -> Result<(), Fail> {
    let got = named(alloc, row.0)?;
    same_text(rt, "a name", got.as_str(), row.1);
    Ok(())
}

#[test]
fn names(rt: HostRuntime) -> Result<(), Fail> {
    for row in &NAMES {
        is_named(&rt, rt.alloc(), row)?;
    }
    let told = shown_fault(rt.alloc(), RescueFault::Memory)?;
    same_text(&rt, "memory", told.as_str(), "E5 Memory");
    Ok(())
}

/// Names with a bar between two, and the highest number of a rescue file of x.dag among them.
static PICKED: [(&str, u16); 8] = [
    ("", 0),
    ("x.dag.rescue002|x.dag.rescue010", 10),
    ("x.dag.rescue010|x.dag|x.dag.rescue002", 10),
    ("x.dag.rescue999|x.dag.rescue998", 999),
    ("x.dag.rescue000", 0),
    ("x.dag.rescue11|x.dag.rescue0012|x.dag.rescue", 0),
    ("y.dag.rescue003|xx.dag.rescue004|d/x.dag.rescue005", 0),
    (
        "x.dag.rescue1a1|x.dag.rescue+11|x.dag.rescue001.bak|x.dag.RESCUE009",
        0,
    ),
];

fn texts_of(alloc: Global, list: &str) -> Result<Texts, Fail> {
    let mut names = Texts::new(alloc);
    for name in list.split('|') {
        names.push(Text::new(alloc, name)?)?;
    }
    Ok(names)
}

fn is_picked(rt: &impl Abort, alloc: Global, row: &(&str, u16)) -> Result<(), Fail> {
    let names = texts_of(alloc, row.0)?;
    let got = pick_number(names.as_slice(), "x.dag");
    assert!(rt; got == row.1, "{}: {got}", row.0);
    Ok(())
}

#[test]
fn picked_numbers(rt: HostRuntime) -> Result<(), Fail> {
    for row in &PICKED {
        is_picked(&rt, rt.alloc(), row)?;
    }
    Ok(())
}
