// Calls of a local system with one child.
use crate::first_lives::{DIAMOND, SUBMITS};
use crate::plans::plan_of;
use crate::same::same;
use child_watcher::{RoundIdentity, Unwatched, run_shell};
use dag_reader::{Text, Texts};
use job_starter_drive::{Killed, Started, System};
use job_starter_local::{Launcher, LocalSystem};
use node_machine::{Key, Outcome, Phase};
use run_plan_node::ChildCommand;
use std::alloc::{AllocError, Global};
use std::fs;
use std::test::Fail;

const A: Key = Key {
    node: 0,
    attempt: 0,
    phase: Phase::Job,
};

/// Who the round of these children is.
pub const ROUND: RoundIdentity<'static> = RoundIdentity {
    round: "5f3a",
    dag: "/there/x.dag",
};

/// A command that runs a line of shell.
pub fn shell(alloc: Global, line: &str) -> Result<ChildCommand, AllocError> {
    let mut words = Texts::new(alloc);
    words.push(Text::new(alloc, "-c")?)?;
    words.push(Text::new(alloc, line)?)?;
    Ok(ChildCommand {
        program: Text::new(alloc, "/bin/sh")?,
        words,
        folder: Text::new(alloc, "/")?,
        input: None,
        output: None,
        error: None,
        environment: Texts::new(alloc),
    })
}

#[test]
fn local_wait_succeeds(rt: HostRuntime) -> Result<(), Fail> {
    let alloc = rt.alloc();
    let launcher = Launcher::none(alloc);
    let plan = plan_of(alloc, DIAMOND, &SUBMITS)?;
    let mut system = LocalSystem::new(alloc, rt, "/", &launcher, &plan, ROUND, Unwatched)?;
    let Started::Running = system.spawn(A, &shell(alloc, "exit 3")?)? else {
        panic!(rt; "not started");
    };
    same(&rt, system.wait(A), Ok(Outcome::Exit(3)));
    assert!(rt; system.running().is_empty());
    Ok(())
}

#[test]
fn local_kill_ends(rt: HostRuntime) -> Result<(), Fail> {
    let alloc = rt.alloc();
    let launcher = Launcher::none(alloc);
    let plan = plan_of(alloc, DIAMOND, &SUBMITS)?;
    let mut system = LocalSystem::new(alloc, rt, "/", &launcher, &plan, ROUND, Unwatched)?;
    let Started::Running = system.spawn(A, &shell(alloc, "exec sleep 60")?)? else {
        panic!(rt; "not started");
    };
    same(&rt, system.kill(A), Killed::Ended);
    assert!(rt; system.running().is_empty());
    same(&rt, system.faults(), 0);
    Ok(())
}

/// A launcher that ends with 4 and passes over what stands behind it; node 1 is spared.
fn four(alloc: Global) -> Result<Launcher, AllocError> {
    let command = shell(alloc, "exit 4")?;
    Ok(Launcher {
        program: Some(Text::new(alloc, command.program.as_str())?),
        words: command.words.from_place(alloc, 0)?,
        spared: Some(1),
        grace: 0,
        keeps_output: false,
    })
}

/// A child, and how it ends whose own command ends with 3.
const LAUNCHED: [(u32, Phase, u8); 4] = [
    (0, Phase::Job, 4),
    (0, Phase::Pre, 3),
    (0, Phase::Post, 3),
    (1, Phase::Job, 3),
];

#[test]
fn launcher_starts_jobs(rt: HostRuntime) -> Result<(), Fail> {
    let alloc = rt.alloc();
    let launcher = four(alloc)?;
    let plan = plan_of(alloc, DIAMOND, &SUBMITS)?;
    for (node, phase, code) in LAUNCHED {
        let mut system = LocalSystem::new(alloc, rt, "/", &launcher, &plan, ROUND, Unwatched)?;
        let key = Key {
            node,
            attempt: 0,
            phase,
        };
        let Started::Running = system.spawn(key, &shell(alloc, "exit 3")?)? else {
            panic!(rt; "not started");
        };
        same(&rt, system.wait(key), Ok(Outcome::Exit(code)));
    }
    Ok(())
}

/// What a child is to find in its environment, as one text, by its key; and what its own command adds to the environment.
const INHERITED: [(u32, Phase, u32, &str, &str); 3] = [
    (0, Phase::Job, 0, "", "5f3a /there/x.dag A JOB 0"),
    (1, Phase::Post, 12, "", "5f3a /there/x.dag B POST 12"),
    (
        3,
        Phase::Pre,
        1,
        "DAGRUN_NODE=mine",
        "5f3a /there/x.dag mine PRE 1",
    ),
];

#[test]
fn children_inherit_their_round(rt: HostRuntime) -> Result<(), Fail> {
    let alloc = rt.alloc();
    let launcher = Launcher::none(alloc);
    let plan = plan_of(alloc, DIAMOND, &SUBMITS)?;
    for (node, phase, attempt, own, wanted) in INHERITED {
        let mut system = LocalSystem::new(alloc, rt, "/", &launcher, &plan, ROUND, Unwatched)?;
        let key = Key {
            node,
            attempt,
            phase,
        };
        let names = "$DAGRUN_ROUND $DAGRUN_DAG $DAGRUN_NODE $DAGRUN_PHASE $DAGRUN_ATTEMPT";
        let line = format!(in alloc; "[ \"{names}\" = '{wanted}' ]")?;
        let mut command = shell(alloc, line.as_str())?;
        if !own.is_empty() {
            command.environment.push(Text::new(alloc, own)?)?;
        }
        let Started::Running = system.spawn(key, &command)? else {
            panic!(rt; "not started");
        };
        same(&rt, system.wait(key), Ok(Outcome::Exit(0)));
    }
    Ok(())
}

/// A shell runs all the words, finds no input, and how they end is not asked.
#[test]
fn shell_runs_words(rt: HostRuntime) -> Result<(), Fail> {
    let alloc = rt.alloc();
    assert!(rt; run_shell(alloc, &rt, "cat; printf heard > shell.out; exit 3").is_ok());
    let heard = fs::read(&rt, "shell.out")?;
    same(&rt, heard.as_slice(), b"heard".as_slice());
    Ok(())
}
