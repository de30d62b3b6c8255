//! Why nodes are in error, as JSON: by the records, by a log and by the files of jobs.

use crate::same::same;
use crate::statuses::{NO_LIMITS, ends};
use dag_main_check::{Answer, RunFault};
use dag_main_files::{Place, plan_here};
use event_journal::MemDisk;
use failure_answers::{WhyForm, why_here};
use failure_report::Grouping;
use node_machine::Outcome;
use recovery::begin;
use run_plan::Plan;
use splices_flat::FileSet;
use std::alloc::Global;
use std::fs;
use std::process::Abort;
use std::test::Fail;

/// C waits for B, whose name has a quote and a backslash; B, D and E are in error. A line is overridden, of which a warning says so.
static DAG: &str =
    "JOB A a.sub\nJOB B\"\\q b.sub\nJOB C a.sub\nJOB D d.sub\nJOB E a.sub\nFINAL F a.sub\n\
                    PARENT B\"\\q CHILD C\nRETRY B\"\\q 7\nRETRY B\"\\q 1\n";

static SUBMITS: [(&str, &str); 3] = [
    ("a.sub", "executable = /bin/true\nqueue\n"),
    (
        "b.sub",
        "executable = bin/work\narguments = \"'two words' é\"\noutput = b.out\nerror = b.err\nqueue\n",
    ),
    ("d.sub", "executable = /no/such\ninitialdir = deep\nqueue\n"),
];

/// The phases that ended in the round.
static ENDED: [(u32, u32, Outcome); 6] = [
    (0, 0, Outcome::Exit(0)),
    (1, 0, Outcome::Exit(2)),
    (1, 1, Outcome::Exit(3)),
    (3, 0, Outcome::NoStart),
    (4, 0, Outcome::Signal(9)),
    (5, 0, Outcome::Untold),
];

/// What the log says. Of E, only the start was logged.
static LOG: &str = "T\tstart\tB\"\\q\tJOB\t1\t7\tcommand=x\n\
                    T\tend\tB\"\\q\tJOB\t1\t7\texit=3\tseconds=12.045\n\
                    T\tnotstarted\tD\tJOB\t0\t-\twhat=program\tpath=/no/such\treason=No such file (os error 2)\tcommand=/no/such\n\
                    T\tstart\tE\tJOB\t0\t9\tcommand=/bin/true\n";

/// The error output of B: a byte that is no UTF-8, a character that a terminal obeys, a quote and a backslash.
static ERRORS: &[u8] = b"first\ncaf\xe9\n\x1b[31mred \"x\\y\"\n";

static B: &str =
    "{\"attempt\":1,\"attempts\":2,\"command\":[\"whys.test/bin/work\",\"two words\",\"é\"],\"ended\":\"exit\",\
    \"error\":\"whys.test/b.err\",\"exit_code\":3,\"folder\":\"whys.test\",\
    \"last_lines\":[\"first\",\"caf\u{fffd}\",\"\\\\x1b[31mred \\\"x\\\\y\\\"\"],\"ms\":12045,\"name\":\"B\\\"\\\\q\",\
    \"output\":\"whys.test/b.out\",\"phase\":\"JOB\",\"reason\":null,\"signal\":null,\"state\":\"ERROR\",\"value\":3,\"waiting\":1}";

static D: &str =
    "{\"attempt\":0,\"attempts\":1,\"command\":[\"/no/such\"],\"ended\":\"not started\",\"error\":null,\"exit_code\":null,\
    \"folder\":\"whys.test/deep\",\"last_lines\":[],\"ms\":null,\"name\":\"D\",\"output\":null,\"phase\":\"JOB\",\
    \"reason\":\"/no/such: No such file (os error 2)\",\"signal\":null,\"state\":\"ERROR\",\"value\":-1001,\"waiting\":0}";

static E: &str =
    "{\"attempt\":0,\"attempts\":1,\"command\":[\"/bin/true\"],\"ended\":\"signal\",\"error\":null,\"exit_code\":null,\
    \"folder\":\"whys.test\",\"last_lines\":[],\"ms\":null,\"name\":\"E\",\"output\":null,\"phase\":\"JOB\",\"reason\":null,\
    \"signal\":9,\"state\":\"ERROR\",\"value\":-9,\"waiting\":0}";

static F: &str =
    "{\"attempt\":0,\"attempts\":1,\"command\":[\"/bin/true\"],\"ended\":\"untold\",\"error\":null,\"exit_code\":null,\
    \"folder\":\"whys.test\",\"last_lines\":[],\"ms\":null,\"name\":\"F\",\"output\":null,\"phase\":\"JOB\",\"reason\":null,\
    \"signal\":null,\"state\":\"ERROR\",\"value\":-1000,\"waiting\":0}";

static A: &str = "{\"attempts\":1,\"name\":\"A\",\"state\":\"DONE\",\"value\":0}";

static C: &str = "{\"attempts\":0,\"name\":\"C\",\"state\":\"NOT_READY\",\"value\":null}";

static WARNING: &str = "warning: x.dag:8 overridden\n";

/// The files of the DAG.
fn files_of(alloc: Global) -> Result<FileSet, Fail> {
    let mut files = FileSet::new(alloc);
    files.add(alloc, "x.dag", DAG.as_bytes())?;
    for (path, text) in SUBMITS {
        files.add(alloc, path, text.as_bytes())?;
    }
    Ok(files)
}

/// The journal of the round of this plan.
fn journal_of(rt: &impl Abort, alloc: Global, plan: &Plan) -> Result<MemDisk, Fail> {
    let disk = MemDisk::new(alloc, 100_000);
    let mut manager = match begin(alloc, disk, plan, 0, 1, 1000, NO_LIMITS) {
        Ok(manager) => manager,
        Err((_disk, fault)) => return Err(Fail::from(fault)),
    };
    for (node, attempt, outcome) in &ENDED {
        ends(rt, &mut manager, *node, *attempt, *outcome);
    }
    Ok(manager.into_disk())
}

/// The files of the DAG, and the journal of the round.
fn round_of(rt: &impl Abort, alloc: Global) -> Result<FileSet, Fail> {
    let mut files = files_of(alloc)?;
    let plan = plan_here(alloc, &files, "x.dag", None, false)?;
    let journal = journal_of(rt, alloc, &plan);
    drop(plan);
    files.add(alloc, "x.dag.journal", journal?.bytes())?;
    Ok(files)
}

/// What is answered as JSON of the nodes of these names.
fn answer_of(
    rt: &HostRuntime,
    files: &FileSet,
    names: &[&str],
    form: WhyForm,
) -> Result<Answer, RunFault> {
    let place = Place {
        folder: "whys.test",
        top: "x.dag",
    };
    why_here(rt, files, &place, names, false, form)
}

/// The nodes of these names, all in error where there is none, come to these objects.
fn come_to(
    rt: &impl Abort,
    host: HostRuntime,
    files: &FileSet,
    names: &[&str],
    objects: &[&str],
) -> Result<(), Fail> {
    let mut wanted = String::from_str(host.alloc(), "{\"dag\":\"x.dag\",\"nodes\":[")?;
    for (place, object) in objects.iter().enumerate() {
        if place > 0 {
            wanted.push(',')?;
        }
        wanted.push_str(object)?;
    }
    wanted.push_str("]}\n")?;
    let answer = answer_of(&host, files, names, WhyForm::Json)?;
    same(rt, answer.text.as_str(), wanted.as_str());
    same(rt, answer.warnings.as_str(), WARNING);
    same(rt, answer.status, 0);
    Ok(())
}

/// Lays the folder with the log and an error output.
fn lay(rt: &HostRuntime) -> Result<(), Fail> {
    if fs::exists(rt, "whys.test")? {
        fs::remove_dir_all(rt, "whys.test")?;
    }
    fs::create_dir(rt, "whys.test")?;
    fs::write(rt, "whys.test/x.dag.log", LOG.as_bytes())?;
    fs::write(rt, "whys.test/b.err", ERRORS)?;
    Ok(())
}

// All nodes in error, each by itself, that first for which a node waits; and those that are named, in their order.
#[test]
fn whys_as_json(rt: HostRuntime) -> Result<(), Fail> {
    let files = round_of(&rt, rt.alloc())?;
    lay(&rt)?;
    come_to(&rt, rt, &files, &[], &[B, D, E, F])?;
    come_to(
        &rt,
        rt,
        &files,
        &["E", "C", "A", "B\"\\q", "E"],
        &[E, C, A, B, E],
    )?;
    fs::remove_dir_all(&rt, "whys.test")?;
    Ok(())
}

// A name that is none of a node is answered as without JSON: by a warning, no text and status 125.
#[test]
fn unknown_names(rt: HostRuntime) -> Result<(), Fail> {
    let files = round_of(&rt, rt.alloc())?;
    for form in [WhyForm::Json, WhyForm::Text(Grouping::Each)] {
        let answer = answer_of(&rt, &files, &["A", "Zebra"], form)?;
        same(&rt, answer.text.as_str(), "");
        same(
            &rt,
            answer.warnings.as_str(),
            "dagrun: x.dag has no node Zebra\n",
        );
        same(&rt, answer.status, 125);
    }
    Ok(())
}

// Where no round was begun, no node is in error; and what is refused without JSON is refused.
#[test]
fn no_round(rt: HostRuntime) -> Result<(), Fail> {
    let alloc = rt.alloc();
    let mut files = files_of(alloc)?;
    come_to(&rt, rt, &files, &[], &[])?;
    files.add(alloc, "x.dag.journal", b"Jammed")?;
    for form in [WhyForm::Json, WhyForm::Text(Grouping::Each)] {
        match answer_of(&rt, &files, &[], form) {
            Ok(answer) => same(&rt, answer.text.as_str(), "a refusal"),
            Err(fault) => same(
                &rt,
                format!(in alloc; "{fault}")?.as_str(),
                "J3 NotAJournal",
            ),
        }
    }
    Ok(())
}
