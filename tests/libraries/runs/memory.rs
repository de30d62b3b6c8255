// A process starter over a system in memory with two running keys.
ghost use Rattle.job_starter_drive.specs.Calls.{any_ending};

use crate::children::shell;
use crate::same::same;
use job_starter_drive::{
    Call, CallLog, Killed, ProcessStarter, StartFault, Started, Starter, System, no_memory,
};
use node_machine::{Key, Outcome, Phase};
use run_plan_node::ChildCommand;
use std::alloc::Global;
use std::process::Abort;
use std::test::Fail;

/// A system whose children exit with 0: the one of a node once it is asked for;
/// with 7 each once it is waited for.
#[derive(Drop)]
struct MemorySystem {
    log: CallLog,
    tells: Option<u32>,
    faults: u64,
}

impl System for MemorySystem {
    ghost call_log = { λ s. s.log.calls };

    ghost may_return = { λ _. any_ending };

    ghost faults = { λ s. s.faults };

    ghost prepared = { λ _. Unit {0} };

    fn spawn(&mut self, key: Key, command: &ChildCommand) -> Result<Started, StartFault> {
        if self.log.make_room().is_err() {
            return Err(no_memory(&mut self.faults));
        }
        self.log.started(key, command, Started::Running);
        Ok(Started::Running)
    }

    fn ask(&mut self, key: Key) -> Result<Option<Outcome>, StartFault> {
        if self.tells != Some(key.node) {
            return Ok(None);
        }
        self.log.ended(key, Outcome::Exit(0));
        Ok(Some(Outcome::Exit(0)))
    }

    fn wait(&mut self, key: Key) -> Result<Outcome, StartFault> {
        self.log.ended(key, Outcome::Exit(7));
        Ok(Outcome::Exit(7))
    }

    fn take_ended(&mut self) -> Option<(Key, Outcome)> {
        None
    }

    fn will_record(&mut self) {}

    fn sees_halt(&mut self) -> bool {
        self.log.is_halted()
    }

    fn kill(&mut self, key: Key) -> Killed {
        self.log.killed(key);
        Killed::Ended
    }

    fn pause(&mut self) {}

    fn running(&self) -> &[Key] {
        self.log.running()
    }

    fn calls(&self) -> &[Call] {
        self.log.calls()
    }

    fn faults(&self) -> u64 {
        self.faults
    }
}

const A: Key = Key {
    node: 0,
    attempt: 0,
    phase: Phase::Job,
};

const B: Key = Key {
    node: 1,
    attempt: 0,
    phase: Phase::Job,
};

// Of which node the system tells when it is asked, and which ending the starter tells first.
static FIRST: [(Option<u32>, Key, Outcome); 2] = [
    (Some(1), B, Outcome::Exit(0)),
    (None, A, Outcome::Exit(7)),
];

fn told_first(
    rt: &impl Abort,
    alloc: Global,
    command: &ChildCommand,
    tells: Option<u32>,
) -> Result<(Key, Outcome), StartFault> {
    let mut starter = ProcessStarter::new(MemorySystem {
        log: CallLog::new(alloc),
        tells,
        faults: 0,
    });
    let Started::Running = starter.start(A, command)? else {
        panic!(rt; "not started");
    };
    let Started::Running = starter.start(B, command)? else {
        panic!(rt; "not started");
    };
    let told = starter.wait_any()?;
    same(rt, starter.running().len(), 1);
    Ok(told)
}

#[test]
fn two_running_keys(rt: HostRuntime) -> Result<(), Fail> {
    let command = shell(rt.alloc(), "exit 0")?;
    for (tells, key, outcome) in FIRST {
        let told = told_first(&rt, rt.alloc(), &command, tells);
        same(&rt, told, Ok((key, outcome)));
    }
    drop(command);
    Ok(())
}
