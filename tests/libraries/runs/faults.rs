// Runs that are stopped, by a disk that fails or by a starter that refuses, and taken up again.
ghost use Rattle.std.specs.Prelude.{◌≡◌, IfOk};
ghost use Rattle.node_machine.specs.OutcomeTable.{HasPossibleOutcomes};
ghost use Rattle.recovery_manager.specs.Managed.{plan_of, past_of};
ghost use Rattle.recovery.specs.Recovery.{IsNewLife};

use crate::plans::{File, NO_LIMITS, plan_of};
use crate::same::same;
use event_journal::{Fuse, FuseDisk, Journal, MemDisk, Opened};
use job_starter_drive::{Script, ScriptedStarter};
use node_machine::{Record, Table, read_table};
use recovery::{Manager, ManagerFault, begin, recover, replay};
use run_plan::Plan;
use run_round::run_to_end;
use status_report::run_text;
use std::alloc::Global;
use std::process::Abort;
use std::test::Fail;

const ROOM: usize = 100_000;

const SLOTS: u32 = 1000;

/// What stops a life.
#[derive(Clone, Copy)]
struct Stop {
    journal: Fuse,
    rescue: Fuse,
    failing_start: Option<u64>,
    failing_wait: Option<u64>,
}

const NOTHING: Stop = Stop {
    journal: Fuse::Spent,
    rescue: Fuse::Spent,
    failing_start: None,
    failing_wait: None,
};

/// A kind of stop, at the call of a number.
#[derive(Clone, Copy)]
enum Kind {
    JournalOnce,
    JournalFromThere,
    RescueOnce,
    RescueFromThere,
    Start,
    Wait,
}

static KINDS: [Kind; 6] = [
    Kind::JournalOnce,
    Kind::JournalFromThere,
    Kind::RescueOnce,
    Kind::RescueFromThere,
    Kind::Start,
    Kind::Wait,
];

fn stop_of(kind: Kind, number: u64) -> Stop {
    match kind {
        Kind::JournalOnce => Stop {
            journal: Fuse::One(number),
            ..NOTHING
        },
        Kind::JournalFromThere => Stop {
            journal: Fuse::All(number),
            ..NOTHING
        },
        Kind::RescueOnce => Stop {
            rescue: Fuse::One(number),
            ..NOTHING
        },
        Kind::RescueFromThere => Stop {
            rescue: Fuse::All(number),
            ..NOTHING
        },
        Kind::Start => Stop {
            failing_start: Some(number),
            ..NOTHING
        },
        Kind::Wait => Stop {
            failing_wait: Some(number),
            ..NOTHING
        },
    }
}

/// A life: what it left on the disk, the records that it had, and its report where it ended the run.
#[derive(Drop)]
struct Life {
    disk: MemDisk,
    records: Vec<Record>,
    text: Option<String>,
}

// Begins a run where no journal is on the disk, and recovers it where one is.
fn manager_on<'a>(
    alloc: Global,
    disk: FuseDisk<MemDisk>,
    plan: &'a Plan,
) -> Result<Manager<'a, FuseDisk<MemDisk>>, (FuseDisk<MemDisk>, ManagerFault)>
    ensures plan { IfOk result (λ manager. plan_of manager ≡ plan.now) }
    ensures life { IfOk result (λ manager. IsNewLife (past_of manager)) }
{
    let mut disk = disk;
    match Journal::peek(alloc, &mut disk) {
        Ok(None) => begin(alloc, disk, plan, 0, 1, SLOTS, NO_LIMITS),
        Ok(Some(_)) => recover(alloc, disk, plan, SLOTS, NO_LIMITS),
        Err(fault) => Err((disk, ManagerFault::Journal(fault))),
    }
}

fn copied(alloc: Global, records: &[Record]) -> Result<Vec<Record>, Fail> {
    let mut copy = Vec::new(alloc);
    for record in records {
        copy.push(*record)?;
    }
    Ok(copy)
}

// Leads a run to its end, or to what stops it: its report.
fn led(
    alloc: Global,
    manager: &mut Manager<'_, FuseDisk<MemDisk>>,
    plan: &Plan,
    table: &Table,
    stop: &Stop,
) -> Option<String>
    requires plan { plan_of manager.old ≡ plan.now }
    requires life { IsNewLife (past_of manager.old) }
    requires table { HasPossibleOutcomes table.now }
{
    let script = Script {
        places: Vec::new(alloc),
        failing_start: stop.failing_start,
        failing_wait: stop.failing_wait,
        lets_go: false,
    };
    let mut starter = ScriptedStarter::new(alloc, plan, table, script);
    let rescue = FuseDisk::new(MemDisk::new(alloc, ROOM), stop.rescue);
    match run_to_end(alloc, manager, plan, &mut starter, rescue) {
        Ok(led) => Some(led.text),
        Err(_) => None,
    }
}

fn live(alloc: Global, disk: MemDisk, plan: &Plan, table: &Table, stop: &Stop) -> Result<Life, Fail>
    requires { HasPossibleOutcomes table.now }
{
    let mut manager = match manager_on(alloc, FuseDisk::new(disk, stop.journal), plan) {
        Ok(manager) => manager,
        Err((disk, _fault)) => {
            return Ok(Life {
                disk: disk.into_disk(),
                records: Vec::new(alloc),
                text: None,
            });
        }
    };
    let text = led(alloc, &mut manager, plan, table, stop);
    let records = copied(alloc, manager.core().records())?;
    Ok(Life {
        disk: manager.into_disk().into_disk(),
        records,
        text,
    })
}

// The records of a journal, and its disk.
fn read_back(alloc: Global, plan: &Plan, disk: MemDisk) -> Result<(MemDisk, Vec<Record>), Fail> {
    match Journal::open(alloc, disk, plan.digest(), plan.always_post(), SLOTS) {
        Ok(Opened::Found(journal, records)) => Ok((journal.into_disk(), records)),
        Ok(Opened::Fresh(journal)) => Ok((journal.into_disk(), Vec::new(alloc))),
        Err((_, fault)) => Err(Fail::from(fault)),
    }
}

fn is_finished(records: &[Record]) -> bool {
    matches!(records.last(), Some(Record::Finish(_)))
}

// The report of a run whose end had been recorded.
fn replayed(alloc: Global, plan: &Plan, records: &[Record]) -> Result<String, Fail> {
    let core = replay(alloc, plan, records)?;
    Ok(run_text(alloc, &core, core.verdict())?)
}

// The report of a run that was stopped, which nothing stops now.
fn gone_on(
    rt: &impl Abort,
    alloc: Global,
    plan: &Plan,
    table: &Table,
    disk: MemDisk,
    acknowledged: &[Record],
) -> Result<String, Fail>
    requires { HasPossibleOutcomes table.now }
{
    let Life {
        disk: _,
        records,
        text,
    } = live(alloc, disk, plan, table, &NOTHING)?;
    assert!(rt; records.starts_with(acknowledged));
    match text {
        Some(text) => Ok(text),
        None => panic!(rt; "taken up again it is stopped"),
    }
}

// The report of a run that was stopped, once it is taken up again: replayed where its end had been
// recorded.
fn taken_up(
    rt: &impl Abort,
    alloc: Global,
    plan: &Plan,
    table: &Table,
    stopped: Life,
) -> Result<String, Fail>
    requires { HasPossibleOutcomes table.now }
{
    let Life {
        disk,
        records: acknowledged,
        text: _,
    } = stopped;
    let (disk, records) = read_back(alloc, plan, disk)?;
    assert!(rt; records.starts_with(&acknowledged));
    if is_finished(&records) {
        return replayed(alloc, plan, &records);
    }
    gone_on(rt, alloc, plan, table, disk, &acknowledged)
}

// Stops a run so, and takes it up again; whether it was stopped.
fn is_stopped(
    rt: &impl Abort,
    alloc: Global,
    plan: &Plan,
    table: &Table,
    stop: &Stop,
    due: &str,
) -> Result<bool, Fail>
    requires { HasPossibleOutcomes table.now }
{
    let life = live(alloc, MemDisk::new(alloc, ROOM), plan, table, stop)?;
    if let Some(text) = &life.text {
        same(rt, text.as_str(), due);
        return Ok(false);
    }
    let text = taken_up(rt, alloc, plan, table, life)?;
    same(rt, text.as_str(), due);
    Ok(true)
}

// Stops a run at the call of each number in turn, until it isn't stopped; how often it was.
fn stops(
    rt: &impl Abort,
    alloc: Global,
    plan: &Plan,
    table: &Table,
    kind: Kind,
    due: &str,
) -> Result<u64, Fail>
    requires { HasPossibleOutcomes table.now }
{
    for number in 0..1000u64 {
        if !is_stopped(rt, alloc, plan, table, &stop_of(kind, number), due)? {
            return Ok(number);
        }
    }
    panic!(rt; "it is stopped a thousand times");
}

static SUBMITS: [File; 4] = [
    ("a.sub", "executable = /bin/a\nqueue\n"),
    ("b.sub", "executable = /bin/b\nqueue\n"),
    ("c.sub", "executable = /bin/c\nqueue\n"),
    ("d.sub", "executable = /bin/d\nqueue\n"),
];

const DIAMOND: &str = "JOB A a.sub\nJOB B b.sub\nJOB C c.sub\nJOB D d.sub\n\
                       PARENT A CHILD B C\nPARENT B C CHILD D\n";

struct Run {
    table: &'static str,
    // How many calls of the journal's disk there are at least, four for a record and as many at its
    // beginning, how many children are started, and how often the disk of the rescue file is called:
    // cut, written and synced.
    journal: u64,
    children: u64,
    rescue: u64,
    due: &'static str,
}

static RUNS: [Run; 2] = [
    Run {
        table: "",
        journal: 44,
        children: 4,
        rescue: 0,
        due: "A DONE attempts=1 value=0\nB DONE attempts=1 value=0\nC DONE attempts=1 value=0\n\
              D DONE attempts=1 value=0\nresult 0\n",
    },
    Run {
        table: "C 0 JOB 3\n",
        journal: 36,
        children: 3,
        rescue: 3,
        due: "A DONE attempts=1 value=0\nB DONE attempts=1 value=0\nC ERROR attempts=1 value=3\n\
              D NOT_READY attempts=0 value=-\nresult 1\n",
    },
];

// Whether a kind stops a run at as many calls as it has.
fn is_due(run: &Run, kind: Kind, count: u64) -> bool {
    match kind {
        Kind::JournalOnce | Kind::JournalFromThere => count >= run.journal,
        Kind::RescueOnce | Kind::RescueFromThere => count == run.rescue,
        Kind::Start | Kind::Wait => count == run.children,
    }
}

fn stopped_everywhere(rt: &impl Abort, alloc: Global, plan: &Plan, run: &Run) -> Result<(), Fail> {
    let Ok(table) = read_table(alloc, run.table.as_bytes()) else {
        panic!(rt; "no table");
    };
    for kind in KINDS {
        let count = stops(rt, alloc, plan, &table, kind, run.due)?;
        assert!(rt; is_due(run, kind, count));
    }
    Ok(())
}

fn all_stopped(rt: &impl Abort, alloc: Global, plan: &Plan) -> Result<(), Fail> {
    for run in &RUNS {
        stopped_everywhere(rt, alloc, plan, run)?;
    }
    Ok(())
}

#[test]
fn runs_are_taken_up_again(rt: HostRuntime) -> Result<(), Fail> {
    let plan = plan_of(rt.alloc(), DIAMOND, &SUBMITS)?;
    let answer = all_stopped(&rt, rt.alloc(), &plan);
    drop(plan);
    answer
}
