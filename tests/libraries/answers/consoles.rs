//! What stands on a console behind an answer and behind a refusal.

use crate::same::same;
use dag_main_check::{Answer, Console, MemConsole, RunFault, display_reply};
use std::alloc::Global;
use std::process::Abort;
use std::test::Fail;

/// An answer of this text and these warnings.
fn answer(alloc: Global, text: &str, warnings: &str, status: u8) -> Result<Answer, Fail> {
    Ok(Answer {
        text: String::from_str(alloc, text)?,
        warnings: String::from_str(alloc, warnings)?,
        status,
    })
}

/// Displays a result, and compares what stands on the console with this, and the exit status.
fn displayed(
    rt: &impl Abort,
    alloc: Global,
    reply: &Result<Answer, RunFault>,
    printed: &str,
    warned: &str,
    status: u8,
) {
    let mut console = MemConsole::new(alloc);
    same(rt, display_reply(alloc, &mut console, reply), status);
    same(rt, console.printed(), printed);
    same(rt, console.warned(), warned);
    same(rt, console.is_terminal(), false);
}

#[test]
fn answers(rt: HostRuntime) -> Result<(), Fail> {
    let alloc = rt.alloc();
    for (text, warnings, status) in [
        ("ok nodes=1 edges=0 final=no\n", "", 0u8),
        ("audit no F3 Unfinished\n", "warning: x.dag:2 ignored\n", 1),
        ("", "dagrun: R2 Ended x.dag.journal\n", 125),
    ] {
        let reply = Ok(answer(alloc, text, warnings, status)?);
        displayed(&rt, alloc, &reply, text, warnings, status);
    }
    Ok(())
}

#[test]
fn refusals(rt: HostRuntime) -> Result<(), Fail> {
    let alloc = rt.alloc();
    displayed(
        &rt,
        alloc,
        &Err(RunFault::NotThere(7)),
        "",
        "dagrun: E4 NotThere 7\n",
        125,
    );
    displayed(
        &rt,
        alloc,
        &Err(RunFault::Unfinished),
        "",
        "dagrun: E6 Unfinished\n",
        125,
    );
    let path = String::from_str(alloc, "x.dag.lock")?;
    let reply = Err(RunFault::FileRefused(path));
    displayed(
        &rt,
        alloc,
        &reply,
        "",
        "dagrun: X2 FileRefused x.dag.lock\n",
        125,
    );
    Ok(())
}
