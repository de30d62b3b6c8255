// Runs over a system whose children have all ended by the time that it is asked.
ghost use Rattle.std.specs.Prelude.{IsTrue};
ghost use Rattle.node_machine.specs.Story.{is_possible};
ghost use Rattle.job_starter_drive.specs.Calls.{any_ending};

use crate::plans::{File, NO_LIMITS, driven, plan_of};
use crate::same::same;
use crate::scripts::{add_calls, add_end};
use job_starter_drive::{
    Call, CallLog, Killed, ProcessStarter, StartFault, Started, Starter, System, key_at, no_memory,
};
use node_machine::{Key, Outcome};
use run_plan::Plan;
use run_plan_node::ChildCommand;
use std::alloc::Global;
use std::process::Abort;
use std::test::Fail;

/// A system whose children have ended once they are asked for: the child of one node with 7, each other with 0. All endings are at hand.
/// It halts a run once there are so many calls.
#[derive(Drop)]
struct EndedSystem {
    log: CallLog,
    bad: u32,
    halts_at: Option<usize>,
    faults: u64,
}

impl EndedSystem {
    fn outcome_of(&self, key: &Key) -> Outcome
        ensures { IsTrue (is_possible result) }
    {
        if key.node == self.bad {
            Outcome::Exit(7)
        } else {
            Outcome::Exit(0)
        }
    }
}

impl System for EndedSystem {
    ghost call_log = { λ s. s.log.calls };

    ghost may_return = { λ _. any_ending };

    ghost faults = { λ s. s.faults };

    ghost prepared = { λ _. Unit {0} };

    fn spawn(&mut self, key: Key, command: &ChildCommand) -> Result<Started, StartFault> {
        if self.log.make_room().is_err() {
            return Err(no_memory(&mut self.faults));
        }
        self.log.started(key, command, Started::Running);
        Ok(Started::Running)
    }

    fn ask(&mut self, key: Key) -> Result<Option<Outcome>, StartFault> {
        let outcome = self.outcome_of(&key);
        self.log.ended(key, outcome);
        Ok(Some(outcome))
    }

    fn wait(&mut self, key: Key) -> Result<Outcome, StartFault> {
        let outcome = self.outcome_of(&key);
        self.log.ended(key, outcome);
        Ok(outcome)
    }

    fn take_ended(&mut self) -> Option<(Key, Outcome)> {
        if self.log.running().is_empty() {
            return None;
        }
        let key = key_at(self.log.running(), 0);
        let outcome = self.outcome_of(&key);
        self.log.ended(key, outcome);
        Some((key, outcome))
    }

    fn will_record(&mut self) {}

    fn sees_halt(&mut self) -> bool {
        if self.log.is_halted() {
            return true;
        }
        match self.halts_at {
            Some(calls) if self.log.calls().len() >= calls => self.log.see_halt(),
            _ => false,
        }
    }

    fn kill(&mut self, key: Key) -> Killed {
        self.log.killed(key);
        Killed::Ended
    }

    fn pause(&mut self) {}

    fn running(&self) -> &[Key] {
        self.log.running()
    }

    fn calls(&self) -> &[Call] {
        self.log.calls()
    }

    fn faults(&self) -> u64 {
        self.faults
    }
}

struct Row {
    dag: &'static str,
    // The node whose child exits with 7.
    bad: u32,
    // After how many calls the run is halted.
    halts_at: Option<usize>,
    // What stands behind each gate of the journal, and then how the run ended and the calls of the starter, where they are few.
    due: &'static str,
}

static SUBMITS: [File; 1] = [("a.sub", "executable = /bin/a\nqueue\n")];

const NOBODY: u32 = u32::MAX;

static ROWS: [Row; 6] = [
    // What is at hand is recorded together, and what it lets in is launched behind all of it.
    Row {
        dag: "JOB A a.sub\nJOB B a.sub\nJOB C a.sub\nJOB D a.sub\nPARENT A CHILD C\nPARENT A B CHILD D\n",
        bad: NOBODY,
        halts_at: None,
        due: "life\nlaunch 0, launch 1\nend 0, end 1\nlaunch 2, launch 3\nend 2, end 3\nresult 0\n\
              start 0 Job\nstart 1 Job\nend 0 Job Exit(0)\nend 1 Job Exit(0)\n\
              start 2 Job\nstart 3 Job\nend 2 Job Exit(0)\nend 3 Job Exit(0)\n",
    },
    // One that fails and aborts nothing is one among others.
    Row {
        dag: "JOB A a.sub\nJOB B a.sub\nJOB C a.sub\n",
        bad: 1,
        halts_at: None,
        due: "life\nlaunch 0, launch 1, launch 2\nend 0, end 1, end 2\nresult 1\n\
              start 0 Job\nstart 1 Job\nstart 2 Job\nend 0 Job Exit(0)\nend 1 Job Exit(7)\nend 2 Job Exit(0)\n",
    },
    // None is taken behind one that aborts the run: the children that are left are killed.
    Row {
        dag: "JOB A a.sub\nJOB B a.sub\nJOB C a.sub\nJOB D a.sub\nABORT-DAG-ON B 7 RETURN 5\n",
        bad: 1,
        halts_at: None,
        due: "life\nlaunch 0, launch 1, launch 2, launch 3\nend 0, end 1\nresult 5 aborted\n\
              start 0 Job\nstart 1 Job\nstart 2 Job\nstart 3 Job\nend 0 Job Exit(0)\nend 1 Job Exit(7)\nkill 2 Job\nkill 3 Job\n",
    },
    // A run that is halted at once launches nothing.
    Row {
        dag: "JOB A a.sub\nJOB B a.sub\nPARENT A CHILD B\n",
        bad: NOBODY,
        halts_at: Some(0),
        due: "life\nH1 Halted\nhalt\n",
    },
    // One that is halted later launches nothing more. What it has launched is waited for and recorded.
    Row {
        dag: "JOB A a.sub\nJOB B a.sub\nPARENT A CHILD B\n",
        bad: NOBODY,
        halts_at: Some(2),
        due: "life\nlaunch 0\nend 0\nH1 Halted\nstart 0 Job\nend 0 Job Exit(0)\nhalt\n",
    },
    // One that has nothing left to launch is not asked, and ends.
    Row {
        dag: "JOB A a.sub\n",
        bad: NOBODY,
        halts_at: Some(2),
        due: "life\nlaunch 0\nend 0\nresult 0\nstart 0 Job\nend 0 Job Exit(0)\n",
    },
];

/// Adds a word for the record of a slot: its kind and its node.
fn add_record(text: &mut String, slot: &[u8]) -> Result<(), Fail> {
    let word = match slot.get(1) {
        Some(1) => return Ok(text.push_str("life")?),
        Some(2) => "launch",
        Some(3) => "end",
        _ => "another",
    };
    write!(text, "{word} {}", slot.get(7).copied().unwrap_or(0))?;
    Ok(())
}

/// Adds a line for each open gate of a journal, with all the records behind it.
fn add_groups(text: &mut String, journal: &[u8]) -> Result<(), Fail> {
    let slots = journal.get(64..).unwrap_or(&[]);
    let mut left: u8 = 0;
    for slot in slots.chunks_exact(32) {
        match (slot.get(1), slot.get(3)) {
            (Some(5), Some(count)) => left = *count,
            _ => {
                add_record(text, slot)?;
                left = left.saturating_sub(1);
                text.push_str(if left == 0 { "\n" } else { ", " })?;
            }
        }
    }
    Ok(())
}

fn ended_system(alloc: Global, bad: u32, halts_at: Option<usize>) -> ProcessStarter<EndedSystem> {
    ProcessStarter::new(EndedSystem {
        log: CallLog::new(alloc),
        bad,
        halts_at,
        faults: 0,
    })
}

/// What stands behind each gate, how the run ended, and the calls.
fn shown(alloc: Global, plan: &Plan, bad: u32, halts_at: Option<usize>) -> Result<String, Fail> {
    let mut starter = ended_system(alloc, bad, halts_at);
    let (manager, end) = driven(alloc, plan, NO_LIMITS, &mut starter)?;
    let disk = manager.into_disk();
    let mut text = String::new(alloc);
    add_groups(&mut text, disk.bytes())?;
    add_end(&mut text, end)?;
    add_calls(&mut text, starter.calls())?;
    Ok(text)
}

fn shows(rt: &impl Abort, alloc: Global, row: &Row) -> Result<(), Fail> {
    let plan = plan_of(alloc, row.dag, &SUBMITS)?;
    let text = shown(alloc, &plan, row.bad, row.halts_at);
    drop(plan);
    same(rt, text?.as_str(), row.due);
    Ok(())
}

#[test]
fn endings_at_hand(rt: HostRuntime) -> Result<(), Fail> {
    for row in &ROWS {
        shows(&rt, rt.alloc(), row)?;
    }
    Ok(())
}

/// So many jobs that wait for nothing.
fn wide(alloc: Global, jobs: u32) -> Result<String, Fail> {
    let mut text = String::new(alloc);
    for job in 0..jobs {
        write!(text, "JOB n{job} a.sub\n")?;
    }
    Ok(text)
}

/// How many records stand behind each open gate.
fn group_sizes(alloc: Global, journal: &[u8]) -> Result<Vec<u8>, Fail> {
    let slots = journal.get(64..).unwrap_or(&[]);
    let mut sizes = Vec::new(alloc);
    let mut left: u8 = 0;
    for slot in slots.chunks_exact(32) {
        match (slot.get(1), slot.get(3)) {
            (Some(5), Some(count)) => {
                sizes.push(*count)?;
                left = *count;
            }
            _ if left == 0 => sizes.push(1)?,
            _ => left = left.saturating_sub(1),
        }
    }
    Ok(sizes)
}

/// How many records are behind each gate of a run of 130 jobs.
fn sizes_of(alloc: Global, halts_at: Option<usize>) -> Result<Vec<u8>, Fail> {
    let dag = wide(alloc, 130)?;
    let plan = plan_of(alloc, dag.as_str(), &SUBMITS)?;
    let sizes = sizes_by(alloc, &plan, halts_at);
    drop(plan);
    sizes
}

fn sizes_by(alloc: Global, plan: &Plan, halts_at: Option<usize>) -> Result<Vec<u8>, Fail> {
    let mut starter = ended_system(alloc, NOBODY, halts_at);
    let (manager, _) = driven(alloc, plan, NO_LIMITS, &mut starter)?;
    let disk = manager.into_disk();
    group_sizes(alloc, disk.bytes())
}

#[test]
fn sixty_four_together(rt: HostRuntime) -> Result<(), Fail> {
    let sizes = sizes_of(rt.alloc(), None)?;
    // Life; the launches of 130, and their endings.
    same(&rt, sizes.as_slice(), [1, 64, 64, 2, 64, 64, 2].as_slice());
    Ok(())
}

#[test]
fn halted_between_two_rounds(rt: HostRuntime) -> Result<(), Fail> {
    let sizes = sizes_of(rt.alloc(), Some(64))?;
    // The first 64 are launched, and end.
    same(&rt, sizes.as_slice(), [1, 64, 64].as_slice());
    Ok(())
}
