// A first life of a manager over a file, and a round with real children that goes on behind it.
use crate::children::ROUND;
use crate::plans::{File, NO_LIMITS, plan_of};
use crate::same::same;
use child_watcher::Unwatched;
use event_journal::FileDisk;
use job_starter_drive::{Call, ProcessStarter, Starter};
use job_starter_local::{Launcher, LocalSystem};
use node_machine::{Key, Outcome, Phase};
use run_plan::Plan;
use run_round::{Start, open_round, run_round};
use std::alloc::Global;
use std::fs;
use std::process::Abort;
use std::test::Fail;

pub const DIAMOND: &str = "JOB A e.sub\nJOB B e.sub\nJOB C e.sub\nJOB D e.sub\n\
                       PARENT A CHILD B C\nPARENT B C CHILD D\n";

pub static SUBMITS: [File; 1] = [("e.sub", "executable = /bin/echo\nqueue\n")];

const ALL_DONE: &str = "A DONE attempts=1 value=0\nB DONE attempts=1 value=0\n\
                        C DONE attempts=1 value=0\nD DONE attempts=1 value=0\nresult 0\n";

/// The job of a node in its first attempt.
fn job(node: u32) -> Key {
    Key {
        node,
        attempt: 0,
        phase: Phase::Job,
    }
}

/// Life, the launch and the end of A, the launch of B.
fn first_life(rt: &impl Abort, host: HostRuntime, plan: &Plan, name: &str) -> Result<(), Fail> {
    let alloc = host.alloc();
    let disk = FileDisk::at(host, String::from_str(alloc, name)?);
    let start = Start::Begin { used: 0, next: 1 };
    let Ok(mut manager) = open_round(alloc, disk, plan, start, NO_LIMITS) else {
        panic!(rt; "the round is not begun");
    };
    same(rt, manager.launch(job(0)), Ok(1));
    same(rt, manager.record_end(job(0), Outcome::Exit(0)), Ok(()));
    same(rt, manager.launch(job(1)), Ok(2));
    Ok(())
}

/// The nodes whose children were started, in order.
fn started(alloc: Global, calls: &[Call]) -> Result<Vec<u32>, Fail> {
    let mut nodes = Vec::new(alloc);
    for call in calls {
        if let Call::Started(key, _, _) = call {
            nodes.push(key.node)?;
        }
    }
    Ok(nodes)
}

/// B is launched again, then C and D; A is not.
fn goes_on(rt: &impl Abort, host: HostRuntime, plan: &Plan, name: &str) -> Result<(), Fail> {
    let alloc = host.alloc();
    let disk = FileDisk::at(host, String::from_str(alloc, name)?);
    let rescue = FileDisk::at(host, String::from_str(alloc, "no_rescue_file.test")?);
    let launcher = Launcher::none(alloc);
    let mut starter = ProcessStarter::new(LocalSystem::new(
        alloc, host, "/", &launcher, plan, ROUND, Unwatched,
    )?);
    let ended = run_round(
        alloc,
        disk,
        plan,
        Start::GoOn,
        NO_LIMITS,
        &mut starter,
        rescue,
    );
    let Ok((_disk, led)) = ended else {
        panic!(rt; "the round is stopped");
    };
    same(rt, led.text.as_str(), ALL_DONE);
    same(rt, led.status, 0);
    assert!(rt; led.rescue.is_none());
    let nodes = started(alloc, starter.calls())?;
    same(rt, nodes.as_slice(), [1, 2, 3].as_slice());
    Ok(())
}

#[test]
fn a_first_life_over_a_file(rt: HostRuntime) -> Result<(), Fail> {
    let name = "a_first_life.test";
    let plan = plan_of(rt.alloc(), DIAMOND, &SUBMITS)?;
    first_life(&rt, rt, &plan, name)?;
    let answer = goes_on(&rt, rt, &plan, name);
    drop(plan);
    answer?;
    fs::remove_file(&rt, name)?;
    Ok(())
}
