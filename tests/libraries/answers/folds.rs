//! Pictures of graphs whose nodes of one shape are one box.

use crate::same::same;
use dag_main_check::{Answer, RunFault};
use dag_main_files::plan_here;
use dag_main_inspect::{Question, Shape, answer_here};
use event_journal::MemDisk;
use node_machine::{Key, Outcome, Phase};
use recovery::{Manager, begin};
use run_plan::Plan;
use splices_flat::FileSet;
use std::alloc::Global;
use std::process::Abort;
use std::test::Fail;
use throttles::Limits;

static NO_LIMITS: Limits = Limits {
    jobs: 0,
    pre: 0,
    post: 0,
    children: 1024,
};

/// A submit file with which nothing is wrong.
static SUBMIT: &str = "executable = /bin/true\nqueue\n";

static SUBMITS: [&str; 6] = ["e.sub", "r.sub", "d.sub", "y.sub", "w.sub", "f.sub"];

/// A DAG file, another file and the picture, without what each begins and ends with.
struct BareRow {
    dag: &'static str,
    splice: &'static str,
    wanted: &'static str,
}

static BARE: [BareRow; 13] = [
    // No nodes.
    BareRow {
        dag: "# nothing\n",
        splice: "",
        wanted: "",
    },
    // A sweep: one source, five points, one sink. The source and the sink have one submit file, but not one shape.
    BareRow {
        dag: "JOB S a\nJOB P1 p\nJOB P2 p\nJOB P3 p\nJOB P4 p\nJOB P5 p\nJOB T a\n\
              PARENT S CHILD P1 P2 P3 P4 P5\nPARENT P1 P2 P3 P4 P5 CHILD T\n",
        splice: "",
        wanted: "    \"S\" [label=\"S\"];\n    \"P1\" [label=\"P1 x 5\"];\n    \"T\" [label=\"T\"];\n\
                 \u{20}   \"S\" -> \"P1\";\n    \"P1\" -> \"T\";\n",
    },
    // Two chains of two. A box has the name of its first node in plan order.
    BareRow {
        dag: "JOB B2 b\nJOB A1 a\nJOB B1 b\nJOB A2 a\nPARENT A1 CHILD B1\nPARENT A2 CHILD B2\n",
        splice: "",
        wanted: "    \"B2\" [label=\"B2 x 2\"];\n    \"A1\" [label=\"A1 x 2\"];\n    \"A1\" -> \"B2\";\n",
    },
    // A diamond whose two sides have different submit files.
    BareRow {
        dag: "JOB A a\nJOB B b\nJOB C c\nJOB D d\nPARENT A CHILD B C\nPARENT B C CHILD D\n",
        splice: "",
        wanted: "    \"A\" [label=\"A\"];\n    \"B\" [label=\"B\"];\n    \"C\" [label=\"C\"];\n    \"D\" [label=\"D\"];\n\
                 \u{20}   \"A\" -> \"B\";\n    \"A\" -> \"C\";\n    \"B\" -> \"D\";\n    \"C\" -> \"D\";\n",
    },
    // The same with one for both.
    BareRow {
        dag: "JOB A a\nJOB B b\nJOB C b\nJOB D d\nPARENT A CHILD B C\nPARENT B C CHILD D\n",
        splice: "",
        wanted: "    \"A\" [label=\"A\"];\n    \"B\" [label=\"B x 2\"];\n    \"D\" [label=\"D\"];\n\
                 \u{20}   \"A\" -> \"B\";\n    \"B\" -> \"D\";\n",
    },
    // The FINAL node is alone, whatever its submit file.
    BareRow {
        dag: "JOB A f\nFINAL F f\nJOB B f\n",
        splice: "",
        wanted: "    \"A\" [label=\"A x 2\"];\n    \"F\" [label=\"F\", peripheries=2];\n",
    },
    // One submit file in two folders.
    BareRow {
        dag: "JOB A a\nJOB B a DIR d\nJOB C a DIR d\n",
        splice: "",
        wanted: "    \"A\" [label=\"A\"];\n    \"B\" [label=\"B x 2\"];\n",
    },
    // Nodes that differ by their children alone, and by their parents alone.
    BareRow {
        dag: "JOB A a\nJOB B a\nJOB C c\nPARENT A CHILD C\n",
        splice: "",
        wanted: "    \"A\" [label=\"A\"];\n    \"B\" [label=\"B\"];\n    \"C\" [label=\"C\"];\n    \"A\" -> \"C\";\n",
    },
    BareRow {
        dag: "JOB A a\nJOB B b\nJOB C b\nPARENT A CHILD C\n",
        splice: "",
        wanted: "    \"A\" [label=\"A\"];\n    \"B\" [label=\"B\"];\n    \"C\" [label=\"C\"];\n    \"A\" -> \"C\";\n",
    },
    // How many parents of a box a node has makes no difference.
    BareRow {
        dag: "JOB A a\nJOB B a\nJOB C c\nJOB D c\nPARENT A B CHILD C\nPARENT B CHILD D\n",
        splice: "",
        wanted: "    \"A\" [label=\"A x 2\"];\n    \"C\" [label=\"C x 2\"];\n    \"A\" -> \"C\";\n",
    },
    // A chain of one submit file: each node has its own depth.
    BareRow {
        dag: "JOB A a\nJOB B a\nJOB C a\nPARENT A CHILD B\nPARENT B CHILD C\n",
        splice: "",
        wanted: "    \"A\" [label=\"A\"];\n    \"B\" [label=\"B\"];\n    \"C\" [label=\"C\"];\n\
                 \u{20}   \"A\" -> \"B\";\n    \"B\" -> \"C\";\n",
    },
    // Two splices of one body, whose nodes are after those of the file itself; there are no clusters, and a name is the full one.
    BareRow {
        dag: "SPLICE X s.dag\nSPLICE Y s.dag\nJOB E e\nPARENT X Y CHILD E\n",
        splice: "JOB A a\nJOB B b\nPARENT A CHILD B\n",
        wanted: "    \"E\" [label=\"E\"];\n    \"X+A\" [label=\"X+A x 2\"];\n    \"X+B\" [label=\"X+B x 2\"];\n\
                 \u{20}   \"X+A\" -> \"X+B\";\n    \"X+B\" -> \"E\";\n",
    },
    // What is between quotes is escaped.
    BareRow {
        dag: "JOB a\"\\& a\nJOB b a\n",
        splice: "",
        wanted: "    \"a\\\"\\\\&amp;\" [label=\"a\\\"\\\\&amp; x 2\"];\n",
    },
];

/// The files of a DAG without a journal.
fn files_of(alloc: Global, dag: &str, splice: &str) -> Result<FileSet, Fail> {
    let mut files = FileSet::new(alloc);
    files.add(alloc, "x.dag", dag.as_bytes())?;
    files.add(alloc, "s.dag", splice.as_bytes())?;
    for path in &SUBMITS {
        files.add(alloc, path, SUBMIT.as_bytes())?;
    }
    Ok(files)
}

/// The picture has these lines between its first two and its last; or this is the fault.
fn comes_to(
    rt: &impl Abort,
    alloc: Global,
    answer: Result<Answer, RunFault>,
    wanted: &str,
) -> Result<(), Fail> {
    let begin = "digraph dag {\n    node [shape=box, style=filled, fillcolor=white];\n";
    let wanted = format!(in alloc; "{begin}{wanted}}}\n")?;
    match answer {
        Ok(answer) => {
            same(rt, answer.text.as_str(), wanted.as_str());
            same(rt, answer.status, 0);
        }
        Err(fault) => same(rt, format!(in alloc; "{fault}")?.as_str(), wanted.as_str()),
    }
    Ok(())
}

#[test]
fn folded_without_a_run(rt: HostRuntime) -> Result<(), Fail> {
    let alloc = rt.alloc();
    for row in &BARE {
        let files = files_of(alloc, row.dag, row.splice)?;
        let answer = answer_here(alloc, &files, "x.dag", Question::Graph(Shape::Boxes));
        comes_to(&rt, alloc, answer, row.wanted)?;
    }
    Ok(())
}

/// Of E one is done, one failed and one runs; of R one is done and one runs; D are done; of Y one is done and one is ready;
/// W wait for E; V is done.
static STANDING: &str =
    "JOB E1 e.sub\nJOB E2 e.sub\nJOB E3 e.sub\nJOB R1 r.sub\nJOB R2 r.sub\nJOB D1 d.sub\nJOB D2 d.sub\n\
     JOB Y1 y.sub\nJOB Y2 y.sub\nJOB W1 w.sub\nJOB W2 w.sub\nJOB V f.sub\nFINAL F f.sub\n\
     PARENT E1 E2 E3 CHILD W1 W2\n";

static STANDS: &str =
    "    \"E1\" [label=\"E1 x 3: 1 done, 1 failed, 1 run\", fillcolor=lightcoral];\n\
     \u{20}   \"R1\" [label=\"R1 x 2: 1 done, 1 run\", fillcolor=lightskyblue];\n\
     \u{20}   \"D1\" [label=\"D1 x 2: 2 done\", fillcolor=palegreen];\n\
     \u{20}   \"Y1\" [label=\"Y1 x 2: 1 done\", fillcolor=khaki];\n\
     \u{20}   \"W1\" [label=\"W1 x 2\", fillcolor=white];\n\
     \u{20}   \"V\" [label=\"V\", fillcolor=palegreen];\n\
     \u{20}   \"F\" [label=\"F\", peripheries=2, fillcolor=white];\n\
     \u{20}   \"E1\" -> \"W1\";\n";

/// The nodes whose jobs are begun, and how they ended, if they did.
static BEGUN: [(u32, Option<Outcome>); 9] = [
    (0, Some(Outcome::Exit(0))),
    (1, Some(Outcome::Exit(1))),
    (2, None),
    (3, None),
    (4, Some(Outcome::Exit(0))),
    (5, Some(Outcome::Exit(0))),
    (6, Some(Outcome::Exit(0))),
    (7, Some(Outcome::Exit(0))),
    (11, Some(Outcome::Exit(0))),
];

/// Launches a job, and records its end.
fn begins(
    rt: &impl Abort,
    manager: &mut Manager<'_, MemDisk>,
    node: u32,
    outcome: Option<Outcome>,
) {
    let key = Key {
        node,
        attempt: 0,
        phase: Phase::Job,
    };
    same(rt, manager.launch(key).is_ok(), true);
    if let Some(outcome) = outcome {
        same(rt, manager.record_end(key, outcome), Ok(()));
    }
}

/// The journal of a round of this plan.
fn journal_of(rt: &impl Abort, alloc: Global, plan: &Plan) -> Result<MemDisk, Fail> {
    let disk = MemDisk::new(alloc, 100_000);
    let mut manager = match begin(alloc, disk, plan, 0, 1, 1000, NO_LIMITS) {
        Ok(manager) => manager,
        Err((_disk, fault)) => return Err(Fail::from(fault)),
    };
    for (node, outcome) in BEGUN {
        begins(rt, &mut manager, node, outcome);
    }
    Ok(manager.into_disk())
}

#[test]
fn folded_by_a_run(rt: HostRuntime) -> Result<(), Fail> {
    let alloc = rt.alloc();
    let mut files = files_of(alloc, STANDING, "")?;
    let plan = plan_here(alloc, &files, "x.dag", None, false)?;
    let journal = journal_of(&rt, alloc, &plan);
    drop(plan);
    files.add(alloc, "x.dag.journal", journal?.bytes())?;
    let answer = answer_here(alloc, &files, "x.dag", Question::Graph(Shape::Boxes));
    comes_to(&rt, alloc, answer, STANDS)
}

// What `graph` is refused for, the folded one is.
#[test]
fn folded_of_no_graph(rt: HostRuntime) -> Result<(), Fail> {
    let alloc = rt.alloc();
    let files = files_of(alloc, "JOB A a\nPARENT A CHILD A\n", "")?;
    let fault = match answer_here(alloc, &files, "x.dag", Question::Graph(Shape::Boxes)) {
        Ok(answer) => answer.text,
        Err(fault) => format!(in alloc; "{fault}")?,
    };
    let wanted = match answer_here(alloc, &files, "x.dag", Question::Graph(Shape::Nodes)) {
        Ok(answer) => answer.text,
        Err(fault) => format!(in alloc; "{fault}")?,
    };
    same(&rt, fault.as_str(), wanted.as_str());
    Ok(())
}
