//! Nodes of nested splices, and how they hang together.

use crate::dags::shown::{View, compare};
use std::test::Fail;

/// The files beside t.dag.
static OTHERS: [(&str, &str); 4] = [
    (
        "in.dag",
        "JOB A a.sub\nJOB B b.sub\nSPLICE X leaf.dag\nPARENT A CHILD B X\n",
    ),
    ("leaf.dag", "JOB L l.sub\n"),
    (
        "z/in.dag",
        "JOB A a.sub\nJOB B b.sub\nSPLICE X leaf.dag\nPARENT A CHILD B X\n",
    ),
    ("z/leaf.dag", "JOB L l.sub\n"),
];

/// Two splices of a file that splices another, the second one in a folder.
const NESTED: &str = "JOB S s.sub\nSPLICE Y in.dag\nSPLICE Z in.dag DIR z\nJOB E e.sub\n\
    PARENT S CHILD Y\nPARENT Y CHILD Z\nPARENT Z CHILD E\n";

/// A FINAL line above the others, and pairs that are repeated.
const REPEATED: &str = "PARENT S CHILD B B\nFINAL F f DIR d\nJOB S s\nJOB B b\n\
    PARENT S S CHILD B Y\nSPLICE Y leaf.dag\nPARENT S B CHILD Y\n";

static LINKS: [(&str, &str); 2] = [
    (
        NESTED,
        "S s.sub '' [] [2];E e.sub '' [6, 7] [];Y+A a.sub '' [0] [3, 4];\
        Y+B b.sub '' [2] [5];Y+X+L l.sub '' [2] [5];Z+A z/a.sub 'z' [3, 4] [6, 7];\
        Z+B z/b.sub 'z' [5] [1];Z+X+L z/l.sub 'z' [5] [1];",
    ),
    (
        REPEATED,
        "S s '' [] [1, 2];B b '' [0] [2];Y+L l.sub '' [0, 1] [];",
    ),
];

static ANCESTORS: [(&str, &str); 1] = [(
    NESTED,
    "0:;1: 0 2 3 4 5 6 7;2: 0;3: 0 2;4: 0 2;5: 0 2 3 4;6: 0 2 3 4 5;7: 0 2 3 4 5;",
)];

static NAMES: [(&str, &str); 2] = [
    (
        NESTED,
        "S Some(0);E Some(1);Y+X+L Some(4);Z+X+L Some(7);F None;Y None;A None;y+a None;",
    ),
    (
        REPEATED,
        "S Some(0);E None;Y+X+L None;Z+X+L None;F Some(3);Y None;A None;y+a None;",
    ),
];

/// Each of these has one topological order.
static ORDERS: [(&str, &str); 3] = [
    (
        "JOB C c\nJOB A a\nJOB B b\nPARENT B CHILD C\nPARENT A CHILD B C\n",
        "[1, 2, 0]",
    ),
    (
        "JOB E e\nSPLICE Y leaf.dag\nJOB S s\nPARENT S CHILD Y\nPARENT Y CHILD E\n",
        "[1, 2, 0]",
    ),
    ("FINAL F f\n", "[]"),
];

#[test]
fn nested_splices(rt: HostRuntime) -> Result<(), Fail> {
    compare(&rt, rt.alloc(), View::Links, &OTHERS, &LINKS)?;
    Ok(())
}

#[test]
fn ancestors(rt: HostRuntime) -> Result<(), Fail> {
    compare(&rt, rt.alloc(), View::Ancestors, &OTHERS, &ANCESTORS)?;
    Ok(())
}

#[test]
fn nodes_by_name(rt: HostRuntime) -> Result<(), Fail> {
    compare(&rt, rt.alloc(), View::Names, &OTHERS, &NAMES)?;
    Ok(())
}

#[test]
fn parents_first(rt: HostRuntime) -> Result<(), Fail> {
    compare(&rt, rt.alloc(), View::Order, &OTHERS, &ORDERS)?;
    Ok(())
}
