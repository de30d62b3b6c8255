//! Each line kind in its shortest form and in its longest.

use crate::reader::shown::compare;
use std::test::Fail;

/// A text, and what it says.
static NODES: [(&str, &str); 9] = [
    (
        "JOB A a",
        "[Job { name: A@1:5, file: a@1:7, dir: None, noop: false, done: false }]",
    ),
    (
        "job A a.sub noop",
        "[Job { name: A@1:5, file: a.sub@1:7, dir: None, noop: true, done: false }]",
    ),
    (
        "Job A a.sub DONE dir noop NOOP",
        "[Job { name: A@1:5, file: a.sub@1:7, dir: Some(noop@1:22), noop: true, done: true }]",
    ),
    (
        "FINAL F f",
        "[Final { name: F@1:7, file: f@1:9, dir: None, noop: false }]",
    ),
    (
        "final F f.sub NoOp Dir d",
        "[Final { name: F@1:7, file: f.sub@1:9, dir: Some(d@1:24), noop: true }]",
    ),
    (
        "SPLICE S {",
        "[Splice { name: S@1:8, file: {@1:10, dir: None }]",
    ),
    (
        "splice S s.dag DIR DIR",
        "[Splice { name: S@1:8, file: s.dag@1:10, dir: Some(DIR@1:20) }]",
    ),
    (
        "PARENT A CHILD A",
        "[ParentChild { parents: [A@1:8], children: [A@1:16] }]",
    ),
    (
        "parent A child1 A child B C",
        "[ParentChild { parents: [A@1:8, child1@1:10, A@1:17], children: [B@1:25, C@1:27] }]",
    ),
];

static SETTINGS: [(&str, &str); 20] = [
    (
        "SCRIPT PRE A p",
        "[Script { kind: Pre, node: Node(A@1:12), program: p@1:14, arguments: [] }]",
    ),
    (
        "script post all_nodes p HOLD \"q r",
        "[Script { kind: Post, node: AllNodes(Span { line: 1, start: 12, stop: 21 }), program: p@1:23, arguments: [HOLD@1:25, \"q@1:30, r@1:33] }]",
    ),
    (
        "RETRY A 0",
        "[Retry { node: Node(A@1:7), retries: 0, unless_exit: None }]",
    ),
    (
        "retry All_Nodes +0001000000 unless-exit -2147483648",
        "[Retry { node: AllNodes(Span { line: 1, start: 6, stop: 15 }), retries: 1000000, unless_exit: Some(-2147483648) }]",
    ),
    (
        "RETRY A -0",
        "[Retry { node: Node(A@1:7), retries: 0, unless_exit: None }]",
    ),
    ("PRE_SKIP A 1", "[PreSkip { node: Node(A@1:10), value: 1 }]"),
    (
        "pre_skip ALL_NODES -1",
        "[PreSkip { node: AllNodes(Span { line: 1, start: 9, stop: 18 }), value: -1 }]",
    ),
    (
        "PRIORITY A 0",
        "[Priority { node: Node(A@1:10), priority: 0 }]",
    ),
    (
        "priority all_NODES 2147483647",
        "[Priority { node: AllNodes(Span { line: 1, start: 9, stop: 18 }), priority: 2147483647 }]",
    ),
    (
        "CATEGORY A c",
        "[Category { node: Node(A@1:10), category: c@1:12 }]",
    ),
    (
        "category ALL_NODES +c.d+ALL_NODES",
        "[Category { node: AllNodes(Span { line: 1, start: 9, stop: 18 }), category: +c.d+ALL_NODES@1:20 }]",
    ),
    ("MAXJOBS c 1", "[MaxJobs { category: c@1:9, limit: 1 }]"),
    (
        "maxjobs +c 01000000",
        "[MaxJobs { category: +c@1:9, limit: 1000000 }]",
    ),
    (
        "ABORT-DAG-ON A 0",
        "[AbortDagOn { node: Node(A@1:14), value: 0, status: None }]",
    ),
    (
        "abort-dag-on ALL_nodes -9 Return 255",
        "[AbortDagOn { node: AllNodes(Span { line: 1, start: 13, stop: 22 }), value: -9, status: Some(255) }]",
    ),
    (
        "ABORT-DAG-ON A 1 RETURN 0",
        "[AbortDagOn { node: Node(A@1:14), value: 1, status: Some(0) }]",
    ),
    (
        "DOT d.dot",
        "[Ignored(Span { line: 1, start: 0, stop: 3 })]",
    ),
    (
        " jobstate_log",
        "[Ignored(Span { line: 1, start: 1, stop: 13 })]",
    ),
    (
        "Node_Status_File a b c",
        "[Ignored(Span { line: 1, start: 0, stop: 16 })]",
    ),
    (
        "SET_JOB_ATTR a = \"b",
        "[Ignored(Span { line: 1, start: 0, stop: 12 })]",
    ),
];

#[test]
fn nodes(rt: HostRuntime) -> Result<(), Fail> {
    compare(&rt, rt.alloc(), &NODES)?;
    Ok(())
}

#[test]
fn settings(rt: HostRuntime) -> Result<(), Fail> {
    compare(&rt, rt.alloc(), &SETTINGS)?;
    Ok(())
}
