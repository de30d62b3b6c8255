//! The limits of categories, in the order in which the files are opened.

use crate::dags::shown::{View, compare};
use std::test::Fail;

/// The files beside t.dag.
static OTHERS: [(&str, &str); 2] = [
    (
        "y.dag",
        "JOB B b\nRETRY B 1\nNODE_STATUS_FILE s\nRETRY ALL_NODES 2\nMAXJOBS c 2\n\
        SET_JOB_ATTR a = 1\nMAXJOBS +c 4\n",
    ),
    ("z.dag", "DOT d\nSPLICE X y.dag\nDOT d\n"),
];

/// A text of t.dag, and the limits of its categories.
static LIMITS: [(&str, &str); 5] = [
    ("JOB A a\nRETRY A 1\nMAXJOBS c 1\n", "c 1 t.dag:3;"),
    (
        "JOB A a\nPRE_SKIP A 1\nABORT-DAG-ON A 1\nPRE_SKIP A 1\nABORT-DAG-ON A 1\n\
        MAXJOBS c 1\nMAXJOBS c 1\nMAXJOBS d 7\n",
        "c 1 t.dag:7;d 7 t.dag:8;",
    ),
    (
        "SPLICE Y y.dag\nMAXJOBS Y+c 5\nMAXJOBS c 6\n",
        "Y+c 2 y.dag:5;c 6 t.dag:3;+c 4 y.dag:7;",
    ),
    (
        "DOT d\nSPLICE Z z.dag\nMAXJOBS +c 1\nDOT d\n",
        "+c 4 y.dag:7;Z+X+c 2 y.dag:5;",
    ),
    (
        "SPLICE Z z.dag\nSPLICE Y y.dag\nMAXJOBS Z+X+c 9\n",
        "Z+X+c 2 y.dag:5;+c 4 y.dag:7;Y+c 2 y.dag:5;",
    ),
];

#[test]
fn limits_of_categories(rt: HostRuntime) -> Result<(), Fail> {
    compare(&rt, rt.alloc(), View::Limits, &OTHERS, &LIMITS)?;
    Ok(())
}
