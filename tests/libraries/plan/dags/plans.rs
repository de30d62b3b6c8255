//! Plans with no submit file read.

use crate::dags::shown::{View, compare};
use std::test::Fail;

/// The files beside t.dag.
static OTHERS: [(&str, &str); 1] = [(
    "y.dag",
    "JOB A a\nCATEGORY A c\nMAXJOBS c 3\nRETRY A 9\nRETRY A 2\n",
)];

/// Of each node its name and parents, PRE, NOOP and POST, retries, the values of UNLESS-EXIT,
/// PRE_SKIP and ABORT-DAG-ON, DONE, its priority, the place of its category
/// among those that have a limit, and the value of RETURN.
static PLANS: [(&str, &str); 3] = [
    (
        "JOB A a\nJOB B b NOOP DONE\nFINAL F f\nPARENT A CHILD B B\nSCRIPT PRE A p\n\
        SCRIPT POST B q\nRETRY A 3 UNLESS-EXIT -2\nPRE_SKIP A 4\nPRIORITY B -7\n\
        ABORT-DAG-ON A 5 RETURN 6\nABORT-DAG-ON B 8\nSCRIPT PRE F p\nSCRIPT POST F r\n\
        RETRY F 1\nSPLICE Y y.dag\nPARENT A B CHILD Y\n",
        "A [] PRE 3 Some(-2) Some(4) Some(5) 0 None Some(6);\
        B [0] NOOP POST 0 None None Some(8) DONE -7 None None;\
        Y+A [0, 1] 2 None None None 0 Some(0) None;F [] PRE POST 1 None None None 0 None None;",
    ),
    (
        "JOB B b\nJOB A a\nPARENT A CHILD B\n",
        "B [1] 0 None None None 0 None None;A [] 0 None None None 0 None None;",
    ),
    ("DOT d\n", ""),
];

#[test]
fn plans(rt: HostRuntime) -> Result<(), Fail> {
    compare(&rt, rt.alloc(), View::Plan, &OTHERS, &PLANS)?;
    Ok(())
}
