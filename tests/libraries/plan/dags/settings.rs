//! What lines set for nodes: each setting is shown with the number of its line.

use crate::dags::shown::{View, compare};
use std::test::Fail;

/// A splice's file, and one that splices it.
static OTHERS: [(&str, &str); 2] = [
    (
        "in.dag",
        "JOB A a\nJOB B b\nCATEGORY A c\nCATEGORY B +c\nRETRY ALL_NODES 4\n",
    ),
    ("out.dag", "JOB A a\nCATEGORY A c\nSPLICE X in.dag\n"),
];

/// A text of t.dag, and the settings of each of its nodes.
static ONE_NODE: [(&str, &str); 7] = [
    ("JOB A a\n", "A;"),
    (
        "RETRY A 1\nRETRY A 2 UNLESS-EXIT -3\nJOB A a\n",
        "A 2:RETRY 2 Some(-3);",
    ),
    (
        "JOB A a\nRETRY A 2 UNLESS-EXIT 3\nRETRY A 0\n",
        "A 3:RETRY 0 None;",
    ),
    (
        "JOB A a\nSCRIPT PRE A p x\nSCRIPT POST A q\nSCRIPT PRE A r y $JOB\n",
        "A 4:PRE r y $JOB 3:POST q;",
    ),
    (
        "JOB A a\nPRE_SKIP A 1\nPRIORITY A 5\nPRE_SKIP A -2\nPRIORITY A -5\n",
        "A 4:PRE_SKIP -2 5:PRIORITY -5;",
    ),
    ("JOB A a\nCATEGORY A c\nCATEGORY A d\n", "A 3:CATEGORY d;"),
    (
        "JOB A a\nABORT-DAG-ON A 1 RETURN 2\nABORT-DAG-ON A 3\n",
        "A 3:ABORT 3 None;",
    ),
];

static MACROS: [(&str, &str); 4] = [
    (
        "JOB A a\nVARS A m=\"1\" n=\"2\"\nVARS A APPEND M=\"3\"\nVARS A k=\"4\"\n",
        "A 3:APPEND M=3 2:PREPEND n=2 4:PREPEND k=4;",
    ),
    (
        "JOB A a\nVARS A APPEND m=\"1\"\nVARS A m=\"2\"\n",
        "A 3:PREPEND m=2;",
    ),
    (
        "JOB A a\nVARS A m=\"1\" m=\"say \\\"$(JOB)\\\"\"\n",
        "A 2:PREPEND m=say \"$(JOB)\";",
    ),
    (
        "JOB A a\nVARS A m=\"1\"\nJOB B b\nVARS B m=\"2\"\n",
        "A 2:PREPEND m=1;B 4:PREPEND m=2;",
    ),
];

static MORE_NODES: [(&str, &str); 5] = [
    (
        "JOB A a\nFINAL F f\nRETRY ALL_NODES 2\nRETRY A 1\nJOB B b\nSCRIPT POST all_nodes p\n",
        "A 6:POST p 4:RETRY 1 None;B 6:POST p 3:RETRY 2 None;F;",
    ),
    (
        "FINAL F f\nJOB A a\nSCRIPT PRE All_Nodes p\nPRE_SKIP All_Nodes 1\nVARS ALL_NODES m=\"1\"\n\
        PRIORITY ALL_NODES 7\nCATEGORY ALL_NODES c\nABORT-DAG-ON ALL_NODES 9 RETURN 0\n",
        "A 3:PRE p 4:PRE_SKIP 1 6:PRIORITY 7 8:ABORT 9 Some(0) 7:CATEGORY c 5:PREPEND m=1;F;",
    ),
    (
        "FINAL F f\nSCRIPT PRE F p\nSCRIPT POST F q $JOB\nRETRY F 3 UNLESS-EXIT 4\nPRE_SKIP F 9\n\
        VARS F APPEND m=\"1\"\n",
        "F 2:PRE p 3:POST q $JOB 4:RETRY 3 Some(4) 5:PRE_SKIP 9 6:APPEND m=1;",
    ),
    // ALL_NODES doesn't reach into splices, nor out of them
    (
        "JOB A a\nSPLICE Y in.dag\nPRIORITY ALL_NODES 1\n",
        "A 3:PRIORITY 1;Y+A 5:RETRY 4 None 3:CATEGORY Y+c;Y+B 5:RETRY 4 None 4:CATEGORY +c;",
    ),
    (
        "JOB A a\nCATEGORY A Y+c\nSPLICE Y out.dag\n",
        "A 2:CATEGORY Y+c;Y+A 2:CATEGORY Y+c;Y+X+A 5:RETRY 4 None 3:CATEGORY Y+X+c;\
        Y+X+B 5:RETRY 4 None 4:CATEGORY +c;",
    ),
];

/// A text of t.dag, and its nodes: name, submit file, folder, options.
static DECLARED: [(&str, &str); 2] = [
    (
        "JOB A a NOOP\nJOB B b DONE DIR d\nFINAL F f DIR e NOOP\nJOB C c DONE NOOP DIR /d\nJOB D /d DIR e\n",
        "A a '' NOOP;B d/b 'd' DONE;C /d/c '/d' NOOP DONE;D /d 'e';F e/f 'e' NOOP;",
    ),
    (
        "SPLICE Y y.dag DIR g\nSPLICE Z /h/z.dag DIR g\nFINAL F /f\n",
        "Y+A g/a 'g';Y+B g/d/b 'g/d';Y+C /c '/d' NOOP;Z+A g/a 'g' DONE;F /f '';",
    ),
];

/// The files beside it.
static IN_FOLDERS: [(&str, &str); 2] = [
    ("g/y.dag", "JOB A a\nJOB B b DIR d\nJOB C /c DIR /d NOOP\n"),
    ("/h/z.dag", "JOB A a DONE\n"),
];

#[test]
fn later_wins(rt: HostRuntime) -> Result<(), Fail> {
    compare(&rt, rt.alloc(), View::Settings, &OTHERS, &ONE_NODE)?;
    Ok(())
}

#[test]
fn macros_by_name_without_case(rt: HostRuntime) -> Result<(), Fail> {
    compare(&rt, rt.alloc(), View::Settings, &OTHERS, &MACROS)?;
    Ok(())
}

#[test]
fn all_nodes_and_final(rt: HostRuntime) -> Result<(), Fail> {
    compare(&rt, rt.alloc(), View::Settings, &OTHERS, &MORE_NODES)?;
    Ok(())
}

#[test]
fn folders_and_options(rt: HostRuntime) -> Result<(), Fail> {
    compare(&rt, rt.alloc(), View::Options, &IN_FOLDERS, &DECLARED)?;
    Ok(())
}
