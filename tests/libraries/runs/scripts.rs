// Runs by a script: no child is started, and each call can be made to fail.
ghost use Rattle.node_machine.specs.OutcomeTable.{HasPossibleOutcomes};

use crate::plans::{File, NO_LIMITS, in_order, plan_behind, plan_of, run};
use crate::same::same;
use job_starter_drive::{
    Call, DriveFault, RunEnd, Script, ScriptedStarter, StartFault, Started, Starter,
};
use node_machine::{Table, read_table};
use run_plan::Plan;
use std::alloc::Global;
use std::process::Abort;
use std::test::Fail;
use throttles::Limits;

struct Row {
    dag: &'static str,
    // How the phases end that do not exit with 0.
    table: &'static str,
    // The order of the endings.
    places: &'static [usize],
    failing_start: Option<u64>,
    failing_wait: Option<u64>,
    lets_go: bool,
    always_post: bool,
    limits: Limits,
    // How the run ends, the calls of the starter, and what the nodes come to.
    due: &'static str,
}

const QUIET: Row = Row {
    dag: "",
    table: "",
    places: &[],
    failing_start: None,
    failing_wait: None,
    lets_go: false,
    always_post: false,
    limits: NO_LIMITS,
    due: "",
};

const ONE_JOB: Limits = Limits {
    jobs: 1,
    pre: 0,
    post: 0,
    children: 0,
};

const THREE: &str = "JOB A a.sub\nJOB B a.sub\nJOB C a.sub\n";

const SKIPS: &str = "JOB A a.sub\nSCRIPT PRE A q.sh\nSCRIPT POST A p.sh\nPRE_SKIP A 4\n";

static ROWS: [Row; 17] = [
    Row {
        due: "result 0\n",
        ..QUIET
    },
    Row {
        dag: "JOB A a.sub NOOP\nSCRIPT PRE A p.sh\n",
        due: "result 0\nstart 0 Pre\nend 0 Pre Exit(0)\nA Done 1 0\n",
        ..QUIET
    },
    // A PRE script skips its node, and one that fails ends it: either is all that is started.
    Row {
        dag: SKIPS,
        table: "A 0 PRE 4\n",
        due: "result 0\nstart 0 Pre\nend 0 Pre Exit(4)\nA Done 1 0\n",
        ..QUIET
    },
    Row {
        dag: SKIPS,
        table: "A 0 PRE 5\n",
        due: "result 1\nstart 0 Pre\nend 0 Pre Exit(5)\nA Error 1 5\n",
        ..QUIET
    },
    // The same with the flag: POST is started behind the one that fails, and decides.
    Row {
        dag: SKIPS,
        table: "A 0 PRE 4\n",
        always_post: true,
        due: "result 0\nstart 0 Pre\nend 0 Pre Exit(4)\nA Done 1 0\n",
        ..QUIET
    },
    Row {
        dag: SKIPS,
        table: "A 0 PRE 5\n",
        always_post: true,
        due: "result 0\nstart 0 Pre\nend 0 Pre Exit(5)\nstart 0 Post\nend 0 Post Exit(0)\n\
              A Done 1 0\n",
        ..QUIET
    },
    Row {
        dag: SKIPS,
        table: "A 0 PRE 5\nA 0 POST 2\n",
        always_post: true,
        due: "result 1\nstart 0 Pre\nend 0 Pre Exit(5)\nstart 0 Post\nend 0 Post Exit(2)\n\
              A Error 1 2\n",
        ..QUIET
    },
    Row {
        dag: THREE,
        places: &[2, 1],
        due: "result 0\nstart 0 Job\nstart 1 Job\nstart 2 Job\nend 2 Job Exit(0)\n\
              end 1 Job Exit(0)\nend 0 Job Exit(0)\nA Done 1 0\nB Done 1 0\nC Done 1 0\n",
        ..QUIET
    },
    Row {
        dag: THREE,
        limits: ONE_JOB,
        due: "result 0\nstart 0 Job\nend 0 Job Exit(0)\nstart 1 Job\nend 1 Job Exit(0)\n\
              start 2 Job\nend 2 Job Exit(0)\nA Done 1 0\nB Done 1 0\nC Done 1 0\n",
        ..QUIET
    },
    Row {
        dag: "JOB A a.sub\nRETRY A 1\n",
        table: "A 0 JOB nostart\nA 1 JOB signal 9\n",
        due: "result 1\nnot started 0 Job\nstart 0 Job\nend 0 Job Signal(9)\nA Error 2 -9\n",
        ..QUIET
    },
    // An abort: what still runs is killed, and only FINAL is started then.
    Row {
        dag: "JOB B b.sub\nJOB A a.sub\nRETRY B 3\nABORT-DAG-ON B 7 RETURN 42\n",
        table: "B 0 JOB 7\n",
        due: "result 42 aborted\nstart 0 Job\nstart 1 Job\nend 0 Job Exit(7)\nkill 1 Job\n\
              B Error 1 7\nA NotRun 0 -\n",
        ..QUIET
    },
    Row {
        dag: "JOB B b.sub\nJOB A a.sub\nRETRY B 3\nABORT-DAG-ON B 7 RETURN 42\nFINAL F f.sub\n",
        table: "B 0 JOB 7\n",
        due: "result 0 aborted\nstart 0 Job\nstart 1 Job\nend 0 Job Exit(7)\nkill 1 Job\n\
              start 2 Job\nend 2 Job Exit(0)\nB Error 1 7\nA NotRun 0 -\nF Done 1 0\n",
        ..QUIET
    },
    // A child that is not killed is let go of all the same.
    Row {
        dag: "JOB B b.sub\nJOB A a.sub\nRETRY B 3\nABORT-DAG-ON B 7 RETURN 42\nFINAL F f.sub\n",
        table: "B 0 JOB 7\n",
        lets_go: true,
        due: "result 0 aborted\nstart 0 Job\nstart 1 Job\nend 0 Job Exit(7)\nkill 1 Job\n\
              start 2 Job\nend 2 Job Exit(0)\nB Error 1 7\nA NotRun 0 -\nF Done 1 0\n",
        ..QUIET
    },
    // A child that can't be started aborts the run once all that was launched with it is started; what runs is killed.
    Row {
        dag: "JOB B b.sub\nJOB A a.sub\nABORT-DAG-ON A -1001\nPRIORITY A 1\n",
        table: "A 0 JOB nostart\n",
        due: "result 1 aborted\nnot started 1 Job\nstart 0 Job\nkill 0 Job\nB NotRun 0 -\n\
              A Error 1 -1001\n",
        ..QUIET
    },
    // An ending that aborts the run is the last that is recorded of those that came at once.
    Row {
        dag: "JOB A a.sub NOOP\nJOB B a.sub NOOP\nJOB C a.sub\nABORT-DAG-ON A 0 RETURN 5\n",
        due: "result 5 aborted\nstart 2 Job\nkill 2 Job\nA Done 1 0\nB NotRun 0 -\n\
              C NotRun 0 -\n",
        ..QUIET
    },
    // What is refused stops the run, and no child is left.
    Row {
        dag: THREE,
        failing_start: Some(2),
        due: "A1 StartMemory\nstart 0 Job\nstart 1 Job\nkill 0 Job\nkill 1 Job\n\
              A NotRun 0 -\nB NotRun 0 -\nC NotRun 0 -\n",
        ..QUIET
    },
    Row {
        dag: THREE,
        failing_wait: Some(1),
        due: "A2 WaitFault\nstart 0 Job\nstart 1 Job\nstart 2 Job\nend 0 Job Exit(0)\n\
              kill 1 Job\nkill 2 Job\nA Done 1 0\nB NotRun 0 -\nC NotRun 0 -\n",
        ..QUIET
    },
];

static SUBMITS: [File; 3] = [
    ("a.sub", "executable = /bin/a\nqueue\n"),
    ("b.sub", "executable = /bin/b\nqueue\n"),
    ("f.sub", "executable = /bin/f\nqueue\n"),
];

/// Adds a line for how a run ended.
pub fn add_end(text: &mut String, end: Result<RunEnd, DriveFault>) -> Result<(), Fail> {
    match end {
        Ok(end) => {
            let aborted = if end.aborted { " aborted" } else { "" };
            write!(text, "result {}{aborted}\n", end.verdict)?;
        }
        Err(fault) => write!(text, "{fault}\n")?,
    }
    Ok(())
}

fn add_call(text: &mut String, call: &Call) -> Result<(), Fail> {
    let (what, key) = match call {
        Call::Started(key, _, Started::Running) => ("start", key),
        Call::Started(key, _, Started::NotStarted) => ("not started", key),
        Call::Ended(key, _) => ("end", key),
        Call::Killed(key) => ("kill", key),
        Call::HaltSeen => return Ok(text.push_str("halt\n")?),
    };
    write!(text, "{what} {} {:?}", key.node, key.phase)?;
    if let Call::Ended(_, outcome) = call {
        write!(text, " {outcome:?}")?;
    }
    text.push_str("\n")?;
    Ok(())
}

/// Adds a line for each call of a starter.
pub fn add_calls(text: &mut String, calls: &[Call]) -> Result<(), Fail> {
    for call in calls {
        add_call(text, call)?;
    }
    Ok(())
}

fn script_of(alloc: Global, row: &Row) -> Result<Script, Fail> {
    let mut places = Vec::new(alloc);
    for place in row.places {
        places.push(*place)?;
    }
    Ok(Script {
        places,
        failing_start: row.failing_start,
        failing_wait: row.failing_wait,
        lets_go: row.lets_go,
    })
}

// The text of how a run ended, of the calls, and of what the nodes came to.
fn told(
    alloc: Global,
    end: Result<RunEnd, DriveFault>,
    calls: &[Call],
    nodes: &str,
) -> Result<String, Fail> {
    let mut text = String::new(alloc);
    add_end(&mut text, end)?;
    add_calls(&mut text, calls)?;
    text.push_str(nodes)?;
    Ok(text)
}

fn shown(alloc: Global, plan: &Plan, table: &Table, row: &Row) -> Result<String, Fail>
    requires { HasPossibleOutcomes table.now }
{
    let mut starter = ScriptedStarter::new(alloc, plan, table, script_of(alloc, row)?);
    let (end, nodes) = run(alloc, plan, row.limits, &mut starter)?;
    told(alloc, end, starter.calls(), nodes.as_str())
}

fn shown_by(alloc: Global, table: &Table, row: &Row) -> Result<String, Fail>
    requires { HasPossibleOutcomes table.now }
{
    let plan = plan_behind(alloc, row.dag, &SUBMITS, None, row.always_post)?;
    let text = shown(alloc, &plan, table, row);
    drop(plan);
    text
}

fn shows(rt: &impl Abort, alloc: Global, row: &Row) -> Result<(), Fail> {
    let Ok(table) = read_table(alloc, row.table.as_bytes()) else {
        panic!(rt; "no table");
    };
    let text = shown_by(alloc, &table, row)?;
    same(rt, text.as_str(), row.due);
    Ok(())
}

#[test]
fn scripted_runs(rt: HostRuntime) -> Result<(), Fail> {
    for row in &ROWS {
        shows(&rt, rt.alloc(), row)?;
    }
    Ok(())
}

#[test]
fn no_child_to_wait_for(rt: HostRuntime) -> Result<(), Fail> {
    let alloc = rt.alloc();
    let Ok(table) = read_table(alloc, b"") else {
        panic!(rt; "no table");
    };
    let plan = plan_of(alloc, THREE, &SUBMITS)?;
    let mut starter = ScriptedStarter::new(alloc, &plan, &table, in_order(alloc));
    let answer = starter.wait_any();
    let faults = starter.faults();
    drop(starter);
    drop(plan);
    same(&rt, answer, Err(StartFault::NoChild));
    same(&rt, faults, 0);
    Ok(())
}
