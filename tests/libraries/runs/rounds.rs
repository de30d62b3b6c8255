// Rounds of a DAG over disks in memory, each begun with the rescue text that the one before wrote.
ghost use Rattle.std.specs.Prelude.{◌≤◌};
ghost use Rattle.node_machine.specs.OutcomeTable.{HasPossibleOutcomes};

use crate::plans::{File, NO_LIMITS, in_order, plan_behind};
use crate::same::same;
use crate::scripts::add_calls;
use event_journal::MemDisk;
use job_starter_drive::{ScriptedStarter, Starter};
use node_machine::{Table, Verdict, read_table};
use run_plan::Plan;
use run_round::{RunToEnd, Start, run_round};
use std::alloc::Global;
use std::process::Abort;
use std::test::Fail;

const ROOM: usize = 100_000;

static SUBMITS: [File; 4] = [
    ("a.sub", "executable = /bin/a\nqueue\n"),
    ("b.sub", "executable = /bin/b\nqueue\n"),
    ("c.sub", "executable = /bin/c\nqueue\n"),
    ("d.sub", "executable = /bin/d\nqueue\n"),
];

const DIAMOND: &str = "JOB A a.sub\nJOB B b.sub\nJOB C c.sub\nJOB D d.sub\n\
                       PARENT A CHILD B C\nPARENT B C CHILD D\n";

struct Round {
    // How C ends.
    table: &'static str,
    status: Verdict,
    // What it prints, the calls of its starter, and the rescue file that it writes.
    report: &'static str,
    calls: &'static str,
    rescue: Option<&'static str>,
}

/// A rescue file that marks A and B.
const TWO_DONE: &str =
    "# Rescue DAG file\n# Total number of Nodes: 4\n# Nodes premarked DONE: 2\n\n\
                        DONE A\nDONE B\n";

static ROUNDS: [Round; 3] = [
    Round {
        table: "C 0 JOB 3\n",
        status: 1,
        report: "A DONE attempts=1 value=0\nB DONE attempts=1 value=0\nC ERROR attempts=1 value=3\n\
                 D NOT_READY attempts=0 value=-\nresult 1\n",
        calls: "start 0 Job\nend 0 Job Exit(0)\nstart 1 Job\nstart 2 Job\nend 1 Job Exit(0)\n\
                end 2 Job Exit(3)\n",
        rescue: Some(TWO_DONE),
    },
    Round {
        table: "C 0 JOB 4\n",
        status: 1,
        report: "A DONE attempts=0 value=-\nB DONE attempts=0 value=-\nC ERROR attempts=1 value=4\n\
                 D NOT_READY attempts=0 value=-\nresult 1\n",
        calls: "start 2 Job\nend 2 Job Exit(4)\n",
        rescue: Some(TWO_DONE),
    },
    Round {
        table: "C 0 JOB 0\n",
        status: 0,
        report: "A DONE attempts=0 value=-\nB DONE attempts=0 value=-\nC DONE attempts=1 value=0\n\
                 D DONE attempts=1 value=0\nresult 0\n",
        calls: "start 2 Job\nend 2 Job Exit(0)\nstart 3 Job\nend 3 Job Exit(0)\n",
        rescue: None,
    },
];

/// Runs a round that writes the rescue file of this number; what it came to, and the text of its
/// starter's calls.
fn led(
    rt: &impl Abort,
    alloc: Global,
    plan: &Plan,
    table: &Table,
    number: u16,
) -> Result<(RunToEnd<MemDisk>, String), Fail>
    requires table { HasPossibleOutcomes table.now }
    requires first { 1 ≤ number }
    requires last { number ≤ 999 }
{
    let mut starter = ScriptedStarter::new(alloc, plan, table, in_order(alloc));
    let start = Start::Begin {
        used: number - 1,
        next: number,
    };
    let journal = MemDisk::new(alloc, ROOM);
    let rescue = MemDisk::new(alloc, ROOM);
    let ended = run_round(alloc, journal, plan, start, NO_LIMITS, &mut starter, rescue);
    let Ok((_journal, led)) = ended else {
        panic!(rt; "the round is stopped");
    };
    let mut calls = String::new(alloc);
    add_calls(&mut calls, starter.calls())?;
    Ok((led, calls))
}

/// The bytes that a disk has, where there is one.
fn bytes_on(disk: &Option<MemDisk>) -> Option<&[u8]> {
    match disk {
        Some(disk) => Some(disk.bytes()),
        None => None,
    }
}

/// Compares a round that was led with what it is to be, and hands its rescue file on.
fn due(rt: &impl Abort, round: &Round, told: (RunToEnd<MemDisk>, String)) -> Option<MemDisk> {
    let (led, calls) = told;
    let RunToEnd {
        text,
        status,
        rescue,
    } = led;
    same(rt, text.as_str(), round.report);
    same(rt, status, round.status);
    same(rt, calls.as_str(), round.calls);
    same(
        rt,
        bytes_on(&rescue),
        round.rescue.map(|text| text.as_bytes()),
    );
    rescue
}

/// One round, which reads this rescue file; that which it writes.
fn one_round(
    rt: &impl Abort,
    alloc: Global,
    round: &Round,
    number: u16,
    rescue: &Option<MemDisk>,
) -> Result<Option<MemDisk>, Fail>
    requires first { 1 ≤ number }
    requires last { number ≤ 999 }
{
    let Ok(table) = read_table(alloc, round.table.as_bytes()) else {
        panic!(rt; "no table");
    };
    let plan = plan_behind(alloc, DIAMOND, &SUBMITS, bytes_on(rescue), false)?;
    let told = led(rt, alloc, &plan, &table, number);
    drop(plan);
    Ok(due(rt, round, told?))
}

#[test]
fn three_rounds(rt: HostRuntime) -> Result<(), Fail> {
    let alloc = rt.alloc();
    let first = one_round(&rt, alloc, &ROUNDS[0], 1, &None)?;
    let second = one_round(&rt, alloc, &ROUNDS[1], 2, &first)?;
    let third = one_round(&rt, alloc, &ROUNDS[2], 3, &second)?;
    assert!(rt; third.is_none());
    Ok(())
}
