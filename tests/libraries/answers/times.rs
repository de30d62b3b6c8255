//! What `times` answers of a log that is given: expected texts were worked out by hand.

ghost use Rattle.std.specs.Prelude.{None, false};

use crate::same::same;
use dag_main_check::RunFault;
use run_times::{Form, times_here};
use splices_flat::FileSet;
use std::alloc::Global;
use std::process::Abort;
use std::test::Fail;

static DAG: &str = "JOB Fetch fetch.sub
JOB Fit1 fit.sub
JOB Fit2 fit.sub
JOB Sum sum.sub
SCRIPT POST Fit2 check
FINAL Last last.sub
PARENT Fetch CHILD Fit1 Fit2
PARENT Fit1 Fit2 CHILD Sum
";

static LOG: &str =
    "2026-11-25T23:40:00.000Z\tlife\t-\t-\t-\t9\tstart=begin\tjobs=1\tpre=0\tpost=0\tchildren=1024
2026-11-25T23:40:00.002Z\tstart\tFetch\tJOB\t0\t10\tcommand=/bin/true
2026-11-25T23:40:01.002Z\tend\tFetch\tJOB\t0\t10\texit=0\tseconds=1.000
2026-11-25T23:40:01.004Z\tstart\tFit1\tJOB\t0\t11\tcommand=/bin/true
2026-11-25T23:40:05.104Z\tend\tFit1\tJOB\t0\t11\texit=0\tseconds=4.100
2026-11-25T23:40:05.106Z\tstart\tFit2\tJOB\t0\t12\tcommand=/bin/true
2026-11-25T23:40:07.106Z\tend\tFit2\tJOB\t0\t12\texit=3\tseconds=2.000
2026-11-25T23:40:07.108Z\tstart\tFit2\tPOST\t0\t13\tcommand=check
2026-11-25T23:40:07.608Z\tend\tFit2\tPOST\t0\t13\texit=0\tseconds=0.500
2026-11-25T23:40:07.610Z\tstart\tSum\tJOB\t0\t14\tcommand=/bin/true
2026-11-25T23:40:08.610Z\tend\tSum\tJOB\t0\t14\texit=0\tseconds=1.000
2026-11-25T23:40:08.612Z\tstart\tLast\tJOB\t0\t15\tcommand=/bin/true
2026-11-25T23:40:08.712Z\tend\tLast\tJOB\t0\t15\texit=0\tseconds=0.100
2026-11-25T23:40:08.714Z\tfinish\t-\t-\t-\t9\tstatus=0
";

static SUMMARY: &str = "took 8.712 s, 4.600 s of it in the phases of the critical path
busy 8.700 s in 6 phases, at most 1 at once
without limits it would have taken at least 6.200 s
with no limit on jobs it would have taken 6.200 s, 8.700 s with all limits

critical path
    waited   seconds
     0.002     1.000  Fetch JOB 0
     4.104     2.000  Fit2 JOB 0  for its turn: limit 1 on jobs
     0.002     0.500  Fit2 POST 0
     0.002     1.000  Sum JOB 0
     0.002     0.100  Last JOB 0

longest kinds
     6.100 s  2 of fit.sub
     1.000 s  1 of fetch.sub
     1.000 s  1 of sum.sub
";

static TABLE: &str = "node\tphase\tattempt\tbegin\tseconds\tended\tpath
Fetch\tJOB\t0\t0.002\t1.000\texit 0\t*
Fit1\tJOB\t0\t1.004\t4.100\texit 0\t-
Fit2\tJOB\t0\t5.106\t2.000\texit 3\t*
Fit2\tPOST\t0\t7.108\t0.500\texit 0\t*
Sum\tJOB\t0\t7.610\t1.000\texit 0\t*
Last\tJOB\t0\t8.612\t0.100\texit 0\t*
";

/// Compares what is shown of a DAG file and a log in a form with a text.
fn shows(
    rt: &impl Abort,
    alloc: Global,
    dag: &str,
    log: &str,
    form: Form,
    wanted: &str,
) -> Result<(), Fail> {
    let mut files = FileSet::new(alloc);
    files.add(alloc, "x.dag", dag.as_bytes())?;
    files.add(alloc, "x.dag.log", log.as_bytes())?;
    match times_here(alloc, &files, "x.dag", form) {
        Ok(answer) => same(rt, answer.text.as_str(), wanted),
        Err(RunFault::Memory) => same(rt, "no memory", wanted),
        Err(_) => same(rt, "another fault", wanted),
    }
    Ok(())
}

/// A limit made a node wait, and its POST script is on the path.
#[test]
fn summary_of_a_round(rt: HostRuntime) -> Result<(), Fail> {
    let alloc = rt.alloc();
    shows(&rt, alloc, DAG, LOG, Form::Summary, SUMMARY)?;
    shows(&rt, alloc, DAG, LOG, Form::Table, TABLE)
}

/// Two phases at once, an attempt that failed and one that runs; two ends in one moment; more than three kinds.
#[test]
fn summary_while_it_runs(rt: HostRuntime) -> Result<(), Fail> {
    let dag =
        "JOB A a.sub\nJOB B b.sub\nJOB C c.sub\nSCRIPT PRE C prepare\nRETRY C 2\nPARENT A B CHILD C\n";
    let log = "2026-11-25T23:40:00.000Z\tlife\t-\t-\t-\t9\tstart=begin
2026-11-25T23:40:00.000Z\tstart\tA\tJOB\t0\t10\tcommand=/bin/true
2026-11-25T23:40:00.010Z\tstart\tB\tJOB\t0\t11\tcommand=/bin/true
2026-11-25T23:40:02.000Z\tend\tA\tJOB\t0\t10\texit=0\tseconds=2.000
2026-11-25T23:40:02.000Z\tend\tB\tJOB\t0\t11\texit=0\tseconds=1.990
2026-11-25T23:40:02.001Z\tstart\tC\tPRE\t0\t12\tcommand=prepare
2026-11-25T23:40:02.301Z\tend\tC\tPRE\t0\t12\texit=0\tseconds=0.300
2026-11-25T23:40:02.302Z\tstart\tC\tJOB\t0\t13\tcommand=/bin/true
2026-11-25T23:40:03.302Z\tend\tC\tJOB\t0\t13\texit=1\tseconds=1.000
2026-11-25T23:40:03.303Z\tstart\tC\tPRE\t1\t14\tcommand=prepare
2026-11-25T23:40:03.403Z\tend\tC\tPRE\t1\t14\texit=0\tseconds=0.100
2026-11-25T23:40:03.500Z\tstart\tC\tJOB\t1\t15\tcommand=/bin/true
2026-11-25T23:40:04.000Z\thold\t-\t-\t-\t-\treason=process
";
    let wanted = "took 4.000 s, 3.890 s of it in the phases of the critical path
busy 5.890 s in 6 phases, at most 2 at once
without limits it would have taken at least 3.900 s

critical path
    waited   seconds
     0.010     1.990  B JOB 0
     0.001     0.300  C PRE 0
     0.001     1.000  C JOB 0
     0.001     0.100  C PRE 1
     0.097     0.500  C JOB 1

longest kinds
     2.000 s  1 of a.sub
     1.990 s  1 of b.sub
     1.500 s  2 of c.sub
";
    shows(&rt, rt.alloc(), dag, log, Form::Summary, wanted)
}

/// A manager was killed: what it ran is lost since the last line before, and nothing made way for what waited for the next one.
#[test]
fn summary_of_two_lives(rt: HostRuntime) -> Result<(), Fail> {
    let dag = "JOB A a.sub\nJOB B a.sub\nJOB C a.sub\nPARENT A CHILD C\n";
    let log = "2026-11-25T23:40:00.000Z\tlife\t-\t-\t-\t9\tstart=begin
2026-11-25T23:40:00.100Z\tstart\tA\tJOB\t0\t10\tcommand=/bin/true
2026-11-25T23:40:00.100Z\tstart\tB\tJOB\t0\t11\tcommand=/bin/true
2026-11-25T23:40:01.000Z\tend\tA\tJOB\t0\t10\texit=0\tseconds=0.900
2026-11-25T23:40:10.000Z\tlife\t-\t-\t-\t19\tstart=resume
2026-11-25T23:40:10.005Z\tstart\tC\tJOB\t0\t20\tcommand=/bin/true
2026-11-25T23:40:11.005Z\tend\tC\tJOB\t0\t20\texit=0\tseconds=1.000
";
    let wanted = "took 11.005 s, 1.900 s of it in the phases of the critical path
busy 2.800 s in 3 phases, at most 2 at once
without limits it would have taken at least 1.900 s

critical path
    waited   seconds
     0.100     0.900  A JOB 0
     9.005     1.000  C JOB 0

longest kinds
     2.800 s  3 of a.sub
";
    shows(&rt, rt.alloc(), dag, log, Form::Summary, wanted)
}

/// The files were changed after the round: a node began before its parent ended, and another one is unknown.
#[test]
fn summary_of_changed_files(rt: HostRuntime) -> Result<(), Fail> {
    let dag = "JOB A a.sub\nJOB B b.sub\nPARENT A CHILD B\n";
    let log = "2026-11-25T23:40:00.000Z\tlife\t-\t-\t-\t9\tstart=begin
2026-11-25T23:40:00.000Z\tstart\tA\tJOB\t0\t10\tcommand=/bin/true
2026-11-25T23:40:00.500Z\tstart\tOld\tJOB\t0\t11\tcommand=/bin/true
2026-11-25T23:40:00.750Z\tend\tOld\tJOB\t0\t11\texit=0\tseconds=0.250
2026-11-25T23:40:01.000Z\tstart\tB\tJOB\t0\t12\tcommand=/bin/true
2026-11-25T23:40:02.000Z\tend\tA\tJOB\t0\t10\texit=0\tseconds=2.000
2026-11-25T23:40:03.000Z\tend\tB\tJOB\t0\t12\texit=0\tseconds=2.000
";
    let wanted = "took 3.000 s, 4.000 s of it in the phases of the critical path
busy 4.250 s in 3 phases, at most 2 at once
without limits it would have taken at least 4.250 s

critical path
    waited   seconds
     0.000     2.000  A JOB 0
    -1.000     2.000  B JOB 0

longest kinds
     2.000 s  1 of a.sub
     2.000 s  1 of b.sub
     0.250 s  1 of unknown nodes
";
    shows(&rt, rt.alloc(), dag, log, Form::Summary, wanted)
}

/// What is shown of two jobs of a category, of which one began as the other ended; the second begins its row so.
fn shows_two(rt: &impl Abort, alloc: Global, dag: &str, row: &str) -> Result<(), Fail> {
    let log =
        "2026-11-25T23:40:00.000Z\tlife\t-\t-\t-\t9\tstart=begin\tjobs=0\tpre=0\tpost=0\tchildren=1024
2026-11-25T23:40:00.000Z\tstart\tA\tJOB\t0\t10\tcommand=/bin/true
2026-11-25T23:40:01.000Z\tend\tA\tJOB\t0\t10\texit=0\tseconds=1.000
2026-11-25T23:40:01.001Z\tstart\tB\tJOB\t0\t11\tcommand=/bin/true
2026-11-25T23:40:03.001Z\tend\tB\tJOB\t0\t11\texit=0\tseconds=2.000
";
    let wanted = format!(in alloc;
        "took 3.001 s, 2.000 s of it in the phases of the critical path
busy 3.000 s in 2 phases, at most 1 at once
without limits it would have taken at least 2.000 s

critical path
    waited   seconds
     1.001     2.000  {row}

longest kinds
     3.000 s  2 of a.sub
"
    )?;
    shows(rt, alloc, dag, log, Form::Summary, wanted.as_str())
}

/// The limit of a category held a node back; and where there is none, nobody says so.
#[test]
fn summary_under_the_limit_of_a_category(rt: HostRuntime) -> Result<(), Fail> {
    let alloc = rt.alloc();
    let limited = "JOB A a.sub\nJOB B a.sub\nCATEGORY A heavy\nCATEGORY B heavy\nMAXJOBS heavy 1\n";
    shows_two(
        &rt,
        alloc,
        limited,
        "B JOB 0  for its turn: limit 1 on jobs of heavy",
    )?;
    let wide = "JOB A a.sub\nJOB B a.sub\nCATEGORY A heavy\nCATEGORY B heavy\nMAXJOBS heavy 2\n";
    shows_two(&rt, alloc, wide, "B JOB 0")?;
    shows_two(&rt, alloc, "JOB A a.sub\nJOB B a.sub\n", "B JOB 0")
}

/// Four jobs of a category that has a limit of 1: one after another they take 10 s, at once as long as the longest. While the round has no end,
/// nothing is said of that.
#[test]
fn gain_of_a_category(rt: HostRuntime) -> Result<(), Fail> {
    let alloc = rt.alloc();
    let dag =
        "JOB A a.sub\nJOB B a.sub\nJOB C a.sub\nJOB D a.sub\nCATEGORY ALL_NODES heavy\nMAXJOBS heavy 1\n";
    let log =
        "2026-11-25T23:40:00.000Z\tlife\t-\t-\t-\t9\tstart=begin\tjobs=0\tpre=0\tpost=0\tchildren=1024
2026-11-25T23:40:00.000Z\tstart\tA\tJOB\t0\t10\tcommand=/bin/true
2026-11-25T23:40:01.000Z\tend\tA\tJOB\t0\t10\texit=0\tseconds=1.000
2026-11-25T23:40:01.001Z\tstart\tB\tJOB\t0\t11\tcommand=/bin/true
2026-11-25T23:40:03.001Z\tend\tB\tJOB\t0\t11\texit=0\tseconds=2.000
2026-11-25T23:40:03.002Z\tstart\tC\tJOB\t0\t12\tcommand=/bin/true
2026-11-25T23:40:06.002Z\tend\tC\tJOB\t0\t12\texit=0\tseconds=3.000
2026-11-25T23:40:06.003Z\tstart\tD\tJOB\t0\t13\tcommand=/bin/true
2026-11-25T23:40:10.003Z\tend\tD\tJOB\t0\t13\texit=0\tseconds=4.000
";
    let opening = "took 10.003 s, 4.000 s of it in the phases of the critical path
busy 10.000 s in 4 phases, at most 1 at once
without limits it would have taken at least 4.000 s
";
    let lists = "
critical path
    waited   seconds
     6.003     4.000  D JOB 0  for its turn: limit 1 on jobs of heavy

longest kinds
    10.000 s  4 of a.sub
";
    let unended = format!(in alloc; "{opening}{lists}")?;
    shows(&rt, alloc, dag, log, Form::Summary, unended.as_str())?;
    let finished = format!(in alloc;
        "{log}2026-11-25T23:40:10.004Z\tfinish\t-\t-\t-\t9\tstatus=0\n"
    )?;
    let gain =
        "with no limit on jobs of heavy it would have taken 4.000 s, 10.000 s with all limits\n";
    let ended = format!(in alloc; "{opening}{gain}{lists}")?;
    shows(
        &rt,
        alloc,
        dag,
        finished.as_str(),
        Form::Summary,
        ended.as_str(),
    )
}

/// Two limits. With both, B begins at 2 s and D at 4 s, and both end at 5 s. With no limit on the category A and B begin, C at 2 s, and it ends at 6 s.
/// With no limit on jobs A, C and D begin, B at 2 s, and it ends at 5 s.
#[test]
fn gain_of_two_limits(rt: HostRuntime) -> Result<(), Fail> {
    let dag =
        "JOB A a.sub\nJOB B a.sub\nJOB C a.sub\nJOB D a.sub\nCATEGORY A heavy\nCATEGORY B heavy\nMAXJOBS heavy 1\n";
    let log =
        "2026-11-25T23:40:00.000Z\tlife\t-\t-\t-\t9\tstart=begin\tjobs=2\tpre=0\tpost=0\tchildren=1024
2026-11-25T23:40:00.000Z\tstart\tA\tJOB\t0\t10\tcommand=/bin/true
2026-11-25T23:40:00.000Z\tstart\tC\tJOB\t0\t11\tcommand=/bin/true
2026-11-25T23:40:02.000Z\tend\tA\tJOB\t0\t10\texit=0\tseconds=2.000
2026-11-25T23:40:02.001Z\tstart\tB\tJOB\t0\t12\tcommand=/bin/true
2026-11-25T23:40:04.000Z\tend\tC\tJOB\t0\t11\texit=0\tseconds=4.000
2026-11-25T23:40:04.001Z\tstart\tD\tJOB\t0\t13\tcommand=/bin/true
2026-11-25T23:40:05.001Z\tend\tB\tJOB\t0\t12\texit=0\tseconds=3.000
2026-11-25T23:40:05.001Z\tend\tD\tJOB\t0\t13\texit=0\tseconds=1.000
2026-11-25T23:40:05.002Z\tfinish\t-\t-\t-\t9\tstatus=0
";
    let wanted = "took 5.001 s, 1.000 s of it in the phases of the critical path
busy 10.000 s in 4 phases, at most 2 at once
without limits it would have taken at least 4.000 s
with no limit on jobs of heavy it would have taken 6.000 s, 5.000 s with all limits
with no limit on jobs it would have taken 5.000 s, 5.000 s with all limits

critical path
    waited   seconds
     4.001     1.000  D JOB 0  for its turn: limit 2 on jobs

longest kinds
    10.000 s  4 of a.sub
";
    shows(&rt, rt.alloc(), dag, log, Form::Summary, wanted)
}

/// Each node of a chain waits for the one before it, so a limit costs nothing; an attempt that failed, a POST script, and what a manager that was
/// killed had lost: of that phase the last run counts.
#[test]
fn gain_of_a_chain(rt: HostRuntime) -> Result<(), Fail> {
    let dag = "JOB A a.sub\nJOB B b.sub\nRETRY B 1\nSCRIPT POST B check\nPARENT A CHILD B\n";
    let log =
        "2026-11-25T23:40:00.000Z\tlife\t-\t-\t-\t9\tstart=begin\tjobs=1\tpre=0\tpost=0\tchildren=1024
2026-11-25T23:40:00.000Z\tstart\tA\tJOB\t0\t10\tcommand=/bin/true
2026-11-25T23:40:00.500Z\thold\t-\t-\t-\t-\treason=process
2026-11-25T23:40:01.000Z\tlife\t-\t-\t-\t19\tstart=go_on\tjobs=1\tpre=0\tpost=0\tchildren=1024
2026-11-25T23:40:01.000Z\tstart\tA\tJOB\t0\t20\tcommand=/bin/true
2026-11-25T23:40:02.000Z\tend\tA\tJOB\t0\t20\texit=0\tseconds=1.000
2026-11-25T23:40:02.002Z\tstart\tB\tJOB\t0\t21\tcommand=/bin/true
2026-11-25T23:40:03.002Z\tend\tB\tJOB\t0\t21\tsignal=9\tname=SIGKILL\tseconds=1.000
2026-11-25T23:40:03.004Z\tstart\tB\tPOST\t0\t22\tcommand=check
2026-11-25T23:40:03.254Z\tend\tB\tPOST\t0\t22\texit=1\tseconds=0.250
2026-11-25T23:40:03.256Z\tstart\tB\tJOB\t1\t23\tcommand=/bin/true
2026-11-25T23:40:05.256Z\tend\tB\tJOB\t1\t23\texit=0\tseconds=2.000
2026-11-25T23:40:05.258Z\tstart\tB\tPOST\t1\t24\tcommand=check
2026-11-25T23:40:05.508Z\tend\tB\tPOST\t1\t24\texit=0\tseconds=0.250
2026-11-25T23:40:05.510Z\tfinish\t-\t-\t-\t19\tstatus=0
";
    let wanted = "took 5.508 s, 5.000 s of it in the phases of the critical path
busy 5.000 s in 6 phases, at most 1 at once
without limits it would have taken at least 5.000 s
with no limit on jobs it would have taken 4.500 s, 4.500 s with all limits

critical path
    waited   seconds
     0.000     0.500  A JOB 0
     0.500     1.000  A JOB 0
     0.002     1.000  B JOB 0
     0.002     0.250  B POST 0
     0.002     2.000  B JOB 1
     0.002     0.250  B POST 1

longest kinds
     3.000 s  2 of b.sub
     1.500 s  2 of a.sub
     0.500 s  2 of POST scripts
";
    shows(&rt, rt.alloc(), dag, log, Form::Summary, wanted)
}

/// A value of ABORT-DAG-ON ended the round: what is left of it was not run, so nothing is said of a limit.
#[test]
fn no_gain_behind_an_abort(rt: HostRuntime) -> Result<(), Fail> {
    let dag = "JOB A a.sub\nJOB B a.sub\nABORT-DAG-ON A 3\n";
    let log =
        "2026-11-25T23:40:00.000Z\tlife\t-\t-\t-\t9\tstart=begin\tjobs=1\tpre=0\tpost=0\tchildren=1024
2026-11-25T23:40:00.000Z\tstart\tA\tJOB\t0\t10\tcommand=/bin/true
2026-11-25T23:40:01.000Z\tend\tA\tJOB\t0\t10\texit=3\tseconds=1.000
2026-11-25T23:40:01.001Z\tfinish\t-\t-\t-\t9\tstatus=3
";
    let wanted = "took 1.000 s, 1.000 s of it in the phases of the critical path
busy 1.000 s in 1 phase, at most 1 at once
without limits it would have taken at least 1.000 s

critical path
    waited   seconds
     0.000     1.000  A JOB 0

longest kinds
     1.000 s  1 of a.sub
";
    shows(&rt, rt.alloc(), dag, log, Form::Summary, wanted)
}

/// One phase that took no time, and none.
#[test]
fn summary_of_little(rt: HostRuntime) -> Result<(), Fail> {
    let dag = "JOB A a.sub\n";
    let life = "2026-11-25T23:40:00.000Z\tlife\t-\t-\t-\t9\tstart=begin\n";
    let one = "2026-11-25T23:40:00.000Z\tlife\t-\t-\t-\t9\tstart=begin
2026-11-25T23:40:00.004Z\tnotstarted\tA\tJOB\t0\t-\twhat=program
";
    let wanted = "took 0.004 s, 0.000 s of it in the phases of the critical path
busy 0.000 s in 1 phase, at most 1 at once
without limits it would have taken at least 0.000 s

critical path
    waited   seconds
     0.004     0.000  A JOB 0

longest kinds
     0.000 s  1 of a.sub
";
    let alloc = rt.alloc();
    shows(&rt, alloc, dag, one, Form::Summary, wanted)?;
    shows(&rt, alloc, dag, life, Form::Summary, "no phase was run\n")?;
    shows(&rt, alloc, dag, "", Form::Summary, "no phase was run\n")
}

/// Compares the table of the rounds of two logs with a text.
fn shows_rounds(
    rt: &impl Abort,
    alloc: Global,
    before: Option<&str>,
    log: &str,
    wanted: &str,
) -> Result<(), Fail> {
    let mut files = FileSet::new(alloc);
    files.add(alloc, "x.dag", DAG.as_bytes())?;
    files.add(alloc, "x.dag.log", log.as_bytes())?;
    if let Some(before) = before {
        files.add(alloc, "x.dag.log.old", before.as_bytes())?;
    }
    match times_here(alloc, &files, "x.dag", Form::Rounds) {
        Ok(answer) => same(rt, answer.text.as_str(), wanted),
        Err(RunFault::Memory) => same(rt, "no memory", wanted),
        Err(_) => same(rt, "another fault", wanted),
    }
    Ok(())
}

/// A round that failed, and one that runs: which phases begin, which fail, and that the first line with a time counts, also one of an orphan.
#[test]
fn rounds_of_two_logs(rt: HostRuntime) -> Result<(), Fail> {
    let before = "2026-11-25T23:40:00.000Z\tlife\t-\t-\t-\t9\tstart=begin
2026-11-25T23:40:00.002Z\tstart\tA\tJOB\t0\t10\tcommand=/bin/true
2026-11-25T23:40:01.002Z\tend\tA\tJOB\t0\t10\texit=0\tseconds=1.000
2026-11-25T23:40:01.003Z\tnotstarted\tB\tJOB\t0\t-\twhat=program
2026-11-25T23:40:01.004Z\tstart\tC\tJOB\t0\t11\tcommand=/bin/true
2026-11-25T23:40:02.504Z\tend\tC\tJOB\t0\t11\tsignal=9\tname=SIGKILL\tseconds=1.500
2026-11-25T23:40:02.505Z\tstart\tD\tJOB\t0\t12\tcommand=/bin/true
2026-11-25T23:40:02.506Z\tend\tD\tJOB\t0\t12\texit=10\tseconds=0.001
2026-11-25T23:40:02.510Z\tfinish\t-\t-\t-\t9\tstatus=1\tdone=1\terror=3
";
    let log = "no line
2026-11-26T08:00:00.250Z\torphan\tA\tJOB\t0\t8\tdone=killed
2026-11-26T08:00:00.300Z\tlife\t-\t-\t-\t9\tstart=begin
2026-11-26T08:00:00.400Z\tstart\tA\tJOB\t0\t10\tcommand=/bin/true
2026-11-26T08:00:03.251Z\thold\tB\tJOB\t0\t-\treason=process
2026-11-26T08:00:09.000Z\tend\tA\tJOB\t0\t10\texit=1";
    let wanted = "began\tseconds\tphases\tfailed\tended
2026-11-25T23:40:00.000Z\t2.510\t4\t3\texit 1
2026-11-26T08:00:00.250Z\t3.001\t1\t0\truns
";
    shows_rounds(&rt, rt.alloc(), Some(before), log, wanted)
}

/// How rounds are that have not ended: of the one before another one came, so it was cut short. A kill is no failure, a clock does not go back, and
/// the last line that tells it counts.
#[test]
fn rounds_without_an_end(rt: HostRuntime) -> Result<(), Fail> {
    let alloc = rt.alloc();
    let killed = "2026-11-25T23:40:00.000Z\tlife\t-\t-\t-\t9\tstart=begin
2026-11-25T23:40:05.000Z\tstart\tA\tJOB\t0\t10\tcommand=/bin/true
2026-11-25T23:39:00.000Z\tkilled\tA\tJOB\t0\t10\tseconds=1.000
";
    let stopped = "2026-11-25T23:40:00.000Z\tlife\t-\t-\t-\t9\tstart=begin
2026-11-25T23:40:05.000Z\tstop\t-\t-\t-\t9\tfault='J1 Device'
";
    let again = "2026-11-25T23:40:00.000Z\tlife\t-\t-\t-\t9\tstart=begin
2026-11-25T23:40:05.000Z\tstop\t-\t-\t-\t9\tfault='J1 Device'
2026-11-25T23:40:06.500Z\tlife\t-\t-\t-\t19\tstart=go_on
";
    let full = "2026-11-25T23:40:00.000Z\tlife\t-\t-\t-\t9\tstart=begin
2026-11-25T23:40:00.001Z\tfull\t-\t-\t-\t9
";
    let rows = "began\tseconds\tphases\tfailed\tended
2026-11-25T23:40:00.000Z\t5.000\t1\t0\tcut short
2026-11-25T23:40:00.000Z\t5.000\t0\t0\tcut short
";
    shows_rounds(&rt, alloc, Some(killed), stopped, rows)?;
    let rows = "began\tseconds\tphases\tfailed\tended
2026-11-25T23:40:00.000Z\t0.001\t0\t0\tunknown
2026-11-25T23:40:00.000Z\t6.500\t0\t0\truns
";
    shows_rounds(&rt, alloc, Some(full), again, rows)?;
    let rows = "began\tseconds\tphases\tfailed\tended
2026-11-25T23:40:00.000Z\t5.000\t1\t0\truns
";
    shows_rounds(&rt, alloc, None, killed, rows)?;
    shows_rounds(&rt, alloc, Some("no line\n"), killed, rows)?;
    shows_rounds(
        &rt,
        alloc,
        None,
        "",
        "began\tseconds\tphases\tfailed\tended\n",
    )
}
