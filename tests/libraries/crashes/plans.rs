// Plans of the tests.
use dag_graph::Graph;
use run_plan::{Plan, PlanFault};
use splices::{FileSet, open_dag};
use std::alloc::Global;
use std::test::Fail;
use throttles::Limits;

/// A above B.
pub const CHAIN: &str = "JOB A a.sub\nJOB B b.sub\nPARENT A CHILD B\n";

/// A above B and C, and these above D.
pub const DIAMOND: &str =
    "JOB A a.sub\nJOB B b.sub\nJOB C c.sub\nJOB D d.sub\nPARENT A CHILD B C\nPARENT B C CHILD D\n";

static SUBMITS: [(&str, &str); 4] = [
    ("a.sub", "executable = /bin/a\nqueue\n"),
    ("b.sub", "executable = /bin/b\nqueue\n"),
    ("c.sub", "executable = /bin/c\nqueue\n"),
    ("d.sub", "executable = /bin/d\nqueue\n"),
];

pub const NO_LIMITS: Limits = Limits {
    jobs: 0,
    pre: 0,
    post: 0,
    children: 0,
};

/// The plan of a text and of the submit files of its nodes.
pub fn plan_of(alloc: Global, text: &str) -> Result<Plan, Fail> {
    let mut files = FileSet::new(alloc);
    files.add(alloc, "x.dag", text.as_bytes())?;
    for (name, submit) in &SUBMITS {
        files.add(alloc, name, submit.as_bytes())?;
    }
    let dag = open_dag(alloc, &files, "x.dag")?;
    let graph = Graph::build(alloc, dag)?;
    match Plan::build(alloc, graph, &files, None, false) {
        Ok(plan) => Ok(plan),
        Err(refused) => Err(fault_of(refused)),
    }
}

// The graph that comes back is dropped by a call: a proof spells each of its parts where a block's end
// drops it.
fn fault_of(refused: (Graph, PlanFault)) -> Fail {
    let (graph, fault) = refused;
    drop(graph);
    Fail::from(fault)
}
