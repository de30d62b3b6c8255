//! What is answered of a round as JSON, beside its status text.

use crate::same::same;
use dag_main_check::{Answer, RunFault};
use dag_main_files::plan_here;
use dag_main_inspect::{Form, Question, answer_here};
use event_journal::MemDisk;
use node_machine::{Key, Outcome, Phase};
use recovery::{Manager, begin};
use run_plan::Plan;
use splices_flat::FileSet;
use std::alloc::Global;
use std::process::Abort;
use std::test::Fail;
use throttles::Limits;

pub static NO_LIMITS: Limits = Limits {
    jobs: 0,
    pre: 0,
    post: 0,
    children: 1024,
};

/// A submit file with which nothing is wrong.
static SUBMIT: &str = "executable = /bin/true\nqueue\n";

/// The name of a node has a quote and a backslash; C waits for it. A line is overridden, of which a warning says so.
pub static DAG: &str = "JOB A a.sub\nJOB B\"\\q a.sub\nJOB C a.sub\nFINAL F a.sub\n\
                    PARENT B\"\\q CHILD C\nRETRY B\"\\q 7\nRETRY B\"\\q 1\n";

/// A phase that ended in the round: the node's number, the attempt and the outcome.
pub static ENDED: [(u32, u32, Outcome); 4] = [
    (0, 0, Outcome::Exit(0)),
    (1, 0, Outcome::Exit(3)),
    (1, 1, Outcome::NoStart),
    (3, 0, Outcome::Exit(0)),
];

static LINES: &str = "A DONE attempts=1 value=0\nB\"\\q ERROR attempts=2 value=-1001\n\
                      C NOT_READY attempts=0 value=-\nF DONE attempts=1 value=0\n";

static JSON: &str = "{\"dag\":\"x.dag\",\"nodes\":[\
    {\"attempts\":1,\"name\":\"A\",\"state\":\"DONE\",\"value\":0},\
    {\"attempts\":2,\"name\":\"B\\\"\\\\q\",\"state\":\"ERROR\",\"value\":-1001},\
    {\"attempts\":0,\"name\":\"C\",\"state\":\"NOT_READY\",\"value\":null},\
    {\"attempts\":1,\"name\":\"F\",\"state\":\"DONE\",\"value\":0}]}\n";

pub static WARNING: &str = "warning: x.dag:6 overridden\n";

/// The files of a DAG without a journal.
pub fn files_of(alloc: Global, path: &str, dag: &str) -> Result<FileSet, Fail> {
    let mut files = FileSet::new(alloc);
    files.add(alloc, path, dag.as_bytes())?;
    files.add(alloc, "a.sub", SUBMIT.as_bytes())?;
    Ok(files)
}

/// Launches a job and records its end.
pub fn ends(
    rt: &impl Abort,
    manager: &mut Manager<'_, MemDisk>,
    node: u32,
    attempt: u32,
    outcome: Outcome,
) {
    let key = Key {
        node,
        attempt,
        phase: Phase::Job,
    };
    same(rt, manager.launch(key).is_ok(), true);
    same(rt, manager.record_end(key, outcome), Ok(()));
}

/// The journal of a round of this plan in which the first `most` of these ended.
fn journal_of(rt: &impl Abort, alloc: Global, plan: &Plan, most: usize) -> Result<MemDisk, Fail> {
    let disk = MemDisk::new(alloc, 100_000);
    let mut manager = match begin(alloc, disk, plan, 0, 1, 1000, NO_LIMITS) {
        Ok(manager) => manager,
        Err((_disk, fault)) => return Err(Fail::from(fault)),
    };
    for (node, attempt, outcome) in ENDED.iter().take(most) {
        ends(rt, &mut manager, *node, *attempt, *outcome);
    }
    Ok(manager.into_disk())
}

/// The files of the DAG, and the journal of a round in which the first `most` ended.
pub fn round_of(rt: &impl Abort, alloc: Global, most: usize) -> Result<FileSet, Fail> {
    let mut files = files_of(alloc, "x.dag", DAG)?;
    let plan = plan_here(alloc, &files, "x.dag", None, false)?;
    let journal = journal_of(rt, alloc, &plan, most);
    drop(plan);
    files.add(alloc, "x.dag.journal", journal?.bytes())?;
    Ok(files)
}

/// Compares a text that was answered, with status 0; or the line of the fault.
fn comes_to(
    rt: &impl Abort,
    alloc: Global,
    answer: Result<Answer, RunFault>,
    wanted: &str,
) -> Result<(), Fail> {
    match answer {
        Ok(answer) => {
            same(rt, answer.text.as_str(), wanted);
            same(rt, answer.status, 0);
        }
        Err(fault) => same(rt, format!(in alloc; "{fault}")?.as_str(), wanted),
    }
    Ok(())
}

/// Both forms of a status come to these texts.
fn both_come_to(
    rt: &impl Abort,
    alloc: Global,
    files: &FileSet,
    path: &str,
    lines: &str,
    json: &str,
) -> Result<(), Fail> {
    for (question, wanted) in [
        (Question::Status(Form::Lines), lines),
        (Question::Status(Form::Json), json),
    ] {
        comes_to(rt, alloc, answer_here(alloc, files, path, question), wanted)?;
    }
    Ok(())
}

// A node that is done, one in error whose last attempt could not be started, one that never ran, and the FINAL node.
#[test]
fn a_round_as_json(rt: HostRuntime) -> Result<(), Fail> {
    let alloc = rt.alloc();
    let files = round_of(&rt, alloc, 4)?;
    both_come_to(&rt, alloc, &files, "x.dag", LINES, JSON)?;
    match answer_here(alloc, &files, "x.dag", Question::Status(Form::Json)) {
        Ok(answer) => same(&rt, answer.warnings.as_str(), WARNING),
        Err(fault) => comes_to(&rt, alloc, Err(fault), JSON)?,
    }
    Ok(())
}

// Halfway: an attempt ended and another one is allowed, so B has a value and is to be launched; it is not the FINAL node's turn.
#[test]
fn a_round_as_json_halfway(rt: HostRuntime) -> Result<(), Fail> {
    let alloc = rt.alloc();
    both_come_to(
        &rt,
        alloc,
        &round_of(&rt, alloc, 2)?,
        "x.dag",
        "A DONE attempts=1 value=0\nB\"\\q READY attempts=1 value=3\n\
         C NOT_READY attempts=0 value=-\nF NOT_READY attempts=0 value=-\n",
        "{\"dag\":\"x.dag\",\"nodes\":[\
         {\"attempts\":1,\"name\":\"A\",\"state\":\"DONE\",\"value\":0},\
         {\"attempts\":1,\"name\":\"B\\\"\\\\q\",\"state\":\"READY\",\"value\":3},\
         {\"attempts\":0,\"name\":\"C\",\"state\":\"NOT_READY\",\"value\":null},\
         {\"attempts\":0,\"name\":\"F\",\"state\":\"NOT_READY\",\"value\":null}]}\n",
    )
}

/// A path and a text of a DAG file without a journal, and both forms of its status.
struct FreshRow {
    path: &'static str,
    dag: &'static str,
    lines: &'static str,
    json: &'static str,
}

static FRESH: [FreshRow; 3] = [
    // The path is as it was given, with a blank, a quote, a backslash and letters beyond ASCII.
    FreshRow {
        path: "my \"é\\\".dag",
        dag: "JOB A a.sub\n",
        lines: "A READY attempts=0 value=-\n",
        json: "{\"dag\":\"my \\\"é\\\\\\\".dag\",\"nodes\":[\
               {\"attempts\":0,\"name\":\"A\",\"state\":\"READY\",\"value\":null}]}\n",
    },
    // A DAG without nodes.
    FreshRow {
        path: "x.dag",
        dag: "# nothing\n",
        lines: "",
        json: "{\"dag\":\"x.dag\",\"nodes\":[]}\n",
    },
    // Where the status text is refused, the JSON is.
    FreshRow {
        path: "x.dag",
        dag: "JOB A b.sub\n",
        lines: "P1 MissingFile b.sub",
        json: "P1 MissingFile b.sub",
    },
];

#[test]
fn no_round_as_json(rt: HostRuntime) -> Result<(), Fail> {
    let alloc = rt.alloc();
    for row in &FRESH {
        let files = files_of(alloc, row.path, row.dag)?;
        both_come_to(&rt, alloc, &files, row.path, row.lines, row.json)?;
    }
    let mut files = files_of(alloc, "x.dag", "JOB A a.sub\n")?;
    files.add(alloc, "x.dag.journal", b"Jammed")?;
    both_come_to(
        &rt,
        alloc,
        &files,
        "x.dag",
        "J3 NotAJournal",
        "J3 NotAJournal",
    )
}
