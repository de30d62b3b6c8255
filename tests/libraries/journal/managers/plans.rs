// Plans of the tests, and what they share.
use dag_graph::Graph;
use node_machine::{Key, Phase};
use run_plan::{Plan, PlanFault};
use splices::{FileSet, open_dag};
use std::alloc::Global;
use std::test::Fail;
use throttles::Limits;

/// A above B and C, and these above D.
pub const DIAMOND: &str =
    "JOB A a.sub\nJOB B b.sub\nJOB C c.sub\nJOB D d.sub\nPARENT A CHILD B C\nPARENT B C CHILD D\n";

/// A above B, which is tried twice, and Y beside them.
pub const PLAN_P: &str = "JOB A a.sub\nJOB B b.sub\nJOB Y y.sub\nPARENT A CHILD B\nRETRY B 1\n";

/// The same A and B between others.
pub const PLAN_Q: &str = "JOB X x.sub\nJOB A a.sub\nJOB B b.sub\nJOB Z z.sub\nPARENT A CHILD B\n\
    RETRY B 1\nRETRY X 2\n";

/// How many bytes a disk of the tests may have.
pub const ROOM: usize = 100_000;

/// How many records a journal of the tests may have.
pub const SLOTS: u32 = 1000;

pub const NO_LIMITS: Limits = Limits {
    jobs: 0,
    pre: 0,
    post: 0,
    children: 0,
};

/// The plan of a text.
pub fn plan_of(alloc: Global, text: &str) -> Result<Plan, Fail> {
    let mut files = FileSet::new(alloc);
    files.add(alloc, "x.dag", text.as_bytes())?;
    let dag = open_dag(alloc, &files, "x.dag")?;
    let graph = Graph::build(alloc, dag)?;
    match Plan::build_bare(alloc, graph, None, false) {
        Ok(plan) => Ok(plan),
        Err(refused) => Err(fault_of(refused)),
    }
}

fn fault_of(refused: (Graph, PlanFault)) -> Fail {
    let (graph, fault) = refused;
    drop(graph);
    Fail::from(fault)
}

/// The job of a node in its first attempt.
pub fn job(node: u32) -> Key {
    Key {
        node,
        attempt: 0,
        phase: Phase::Job,
    }
}
