//! What is answered of an audit as JSON, beside its lines.

use crate::same::same;
use crate::statuses::{DAG, ENDED, NO_LIMITS, WARNING, ends, files_of, round_of};
use dag_main_check::{Answer, RunFault};
use dag_main_files::plan_here;
use dag_main_inspect::{Form, Question, answer_here};
use event_journal::{Journal, MemDisk, Opened};
use node_machine::{Key, Phase, Record};
use recovery::{Manager, begin};
use run_plan::Plan;
use splices_flat::FileSet;
use std::alloc::Global;
use std::process::Abort;
use std::test::Fail;

/// The FINAL node has no line, and no object.
static LINES: &str = "A DONE attempts=1 value=0\nB\"\\q ERROR attempts=2 value=-1001\n\
                      C NOT_READY attempts=0 value=-\naudit ok\n";

static JSON: &str = "{\"dag\":\"x.dag\",\"nodes\":[\
    {\"attempts\":1,\"name\":\"A\",\"state\":\"DONE\",\"value\":0},\
    {\"attempts\":2,\"name\":\"B\\\"\\\\q\",\"state\":\"ERROR\",\"value\":-1001},\
    {\"attempts\":0,\"name\":\"C\",\"state\":\"NOT_READY\",\"value\":null}],\"ok\":true}\n";

/// Writes the rescue file, and ends the run.
fn end(rt: &impl Abort, alloc: Global, manager: &mut Manager<'_, MemDisk>) {
    match manager.write_rescue(alloc, MemDisk::new(alloc, 10_000)) {
        Ok(seal) => same(rt, manager.finish(seal).is_ok(), true),
        Err((_disk, fault)) => panic!(rt; "no rescue file: {fault}"),
    }
}

/// The journal of the round of this plan that has ended.
fn ended(rt: &impl Abort, alloc: Global, plan: &Plan) -> Result<MemDisk, Fail> {
    let disk = MemDisk::new(alloc, 100_000);
    let mut manager = match begin(alloc, disk, plan, 0, 1, 1000, NO_LIMITS) {
        Ok(manager) => manager,
        Err((_disk, fault)) => return Err(Fail::from(fault)),
    };
    for (node, attempt, outcome) in &ENDED {
        ends(rt, &mut manager, *node, *attempt, *outcome);
    }
    end(rt, alloc, &mut manager);
    Ok(manager.into_disk())
}

/// The files of the DAG, and the journal of the round that has ended.
fn ended_round(rt: &impl Abort, alloc: Global) -> Result<FileSet, Fail> {
    let mut files = files_of(alloc, "x.dag", DAG)?;
    let plan = plan_here(alloc, &files, "x.dag", None, false)?;
    let journal = ended(rt, alloc, &plan);
    drop(plan);
    files.add(alloc, "x.dag.journal", journal?.bytes())?;
    Ok(files)
}

/// A journal of a life that launched the job of node 0, and then again while it runs: the records 0 to 2.
fn launched_twice(rt: &impl Abort, alloc: Global, plan: &Plan) -> Result<MemDisk, Fail> {
    let key = Key {
        node: 0,
        attempt: 0,
        phase: Phase::Job,
    };
    let mut manager = match begin(alloc, MemDisk::new(alloc, 1000), plan, 0, 1, 10, NO_LIMITS) {
        Ok(manager) => manager,
        Err((_disk, fault)) => return Err(Fail::from(fault)),
    };
    same(rt, manager.launch(key).is_ok(), true);
    let disk = manager.into_disk();
    let Ok(Opened::Found(mut journal, _)) = Journal::open(alloc, disk, plan.digest(), false, 10)
    else {
        panic!(rt; "no journal");
    };
    journal.append_body(&Record::Launch(key, 2))?;
    journal.open_gate()?;
    Ok(journal.into_disk())
}

/// Compares what was answered: its text, its warnings and its status; or the line of the fault, with status 125.
fn comes_to(
    rt: &impl Abort,
    alloc: Global,
    answer: Result<Answer, RunFault>,
    wanted: (&str, &str, u8),
) -> Result<(), Fail> {
    match answer {
        Ok(answer) => {
            let found = (answer.text.as_str(), answer.warnings.as_str());
            same(rt, found.0, wanted.0);
            same(rt, found.1, wanted.1);
            same(rt, answer.status, wanted.2);
        }
        Err(fault) => {
            same(rt, format!(in alloc; "{fault}")?.as_str(), wanted.0);
            same(rt, 125, wanted.2);
        }
    }
    Ok(())
}

/// Both forms of an audit come to these texts, with these warnings and this status.
fn both_come_to(
    rt: &impl Abort,
    alloc: Global,
    files: &FileSet,
    texts: (&str, &str),
    warnings: &str,
    status: u8,
) -> Result<(), Fail> {
    let lines = answer_here(alloc, files, "x.dag", Question::Audit(Form::Lines));
    comes_to(rt, alloc, lines, (texts.0, warnings, status))?;
    let json = answer_here(alloc, files, "x.dag", Question::Audit(Form::Json));
    comes_to(rt, alloc, json, (texts.1, warnings, status))
}

// A node that is done, one in error whose last attempt could not be started, and one that never ran.
#[test]
fn a_round_that_has_ended(rt: HostRuntime) -> Result<(), Fail> {
    let alloc = rt.alloc();
    let files = ended_round(&rt, alloc)?;
    both_come_to(&rt, alloc, &files, (LINES, JSON), WARNING, 0)
}

// All phases ended and the run did not.
#[test]
fn a_round_that_has_not_ended(rt: HostRuntime) -> Result<(), Fail> {
    let alloc = rt.alloc();
    let files = round_of(&rt, alloc, 4)?;
    let texts = (
        "audit no F3 Unfinished\n",
        "{\"cause\":\"F3 Unfinished\",\"dag\":\"x.dag\",\"ok\":false}\n",
    );
    both_come_to(&rt, alloc, &files, texts, WARNING, 1)
}

// The record of slot 2 may not follow.
#[test]
fn a_round_that_is_none(rt: HostRuntime) -> Result<(), Fail> {
    let alloc = rt.alloc();
    let mut files = files_of(alloc, "x.dag", "JOB A a.sub\n")?;
    let plan = plan_here(alloc, &files, "x.dag", None, false)?;
    let journal = launched_twice(&rt, alloc, &plan);
    drop(plan);
    files.add(alloc, "x.dag.journal", journal?.bytes())?;
    let texts = (
        "audit no F2 NotARun 2\n",
        "{\"cause\":\"F2 NotARun 2\",\"dag\":\"x.dag\",\"ok\":false}\n",
    );
    both_come_to(&rt, alloc, &files, texts, "", 1)
}

// No journal; one that is none, and a DAG file that is refused.
#[test]
fn no_round_to_audit(rt: HostRuntime) -> Result<(), Fail> {
    let alloc = rt.alloc();
    let texts = (
        "audit no F1 NotAJournal\n",
        "{\"cause\":\"F1 NotAJournal\",\"dag\":\"x.dag\",\"ok\":false}\n",
    );
    let mut files = files_of(alloc, "x.dag", "JOB A a.sub\n")?;
    both_come_to(&rt, alloc, &files, texts, "", 1)?;
    files.add(alloc, "x.dag.journal", b"Jammed")?;
    both_come_to(&rt, alloc, &files, texts, "", 1)?;
    let refused = files_of(alloc, "x.dag", "JOB A b.sub\n")?;
    let line = "P1 MissingFile b.sub";
    both_come_to(&rt, alloc, &refused, (line, line), "", 125)
}
