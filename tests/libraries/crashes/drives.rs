// A run that is driven, torn at each moment.
ghost use Rattle.node_machine.specs.OutcomeTable.{HasPossibleOutcomes};

use crate::plans::{DIAMOND, NO_LIMITS, plan_of};
use crate::readings::{Due, ROOM, SLOTS, records_of, torn_everywhere};
use crate::same::same;
use event_journal::MemDisk;
use job_starter_drive::{Script, ScriptedStarter, drive};
use node_machine::{Table, read_table};
use recovery::begin;
use run_plan::Plan;
use std::alloc::Global;
use std::process::Abort;
use std::test::Fail;

// The disk of a run that was driven by a table, as far as its end is to be recorded.
fn driven(rt: &impl Abort, alloc: Global, plan: &Plan, table: &Table) -> Result<MemDisk, Fail>
    requires { HasPossibleOutcomes table.now }
{
    let script = Script {
        places: Vec::new(alloc),
        failing_start: None,
        failing_wait: None,
        lets_go: false,
    };
    let mut starter = ScriptedStarter::new(alloc, plan, table, script);
    let disk = MemDisk::new(alloc, ROOM);
    let mut manager = match begin(alloc, disk, plan, 0, 1, SLOTS, NO_LIMITS) {
        Ok(manager) => manager,
        Err((_disk, fault)) => return Err(Fail::from(fault)),
    };
    let end = drive(alloc, &mut manager, plan, &mut starter);
    assert!(rt; end.is_ok());
    Ok(manager.into_disk())
}

fn drive_torn(rt: &impl Abort, alloc: Global, plan: &Plan) -> Result<(), Fail> {
    let Ok(table) = read_table(alloc, b"") else {
        panic!(rt; "no table");
    };
    let disk = driven(rt, alloc, plan, &table)?;
    let Some(records) = records_of(alloc, disk.bytes(), plan.digest())? else {
        return Err(Fail::from("no journal"));
    };
    // B and C are launched together.
    let due = Due {
        digest: plan.digest(),
        records: &records,
        plan: Some(plan),
        together: 2,
    };
    same(rt, records.len(), 9);
    same(rt, torn_everywhere(rt, alloc, &[], &disk, 0, due)?, 10);
    Ok(())
}

#[test]
fn a_diamond(rt: HostRuntime) -> Result<(), Fail> {
    let plan = plan_of(rt.alloc(), DIAMOND)?;
    let answer = drive_torn(&rt, rt.alloc(), &plan);
    drop(plan);
    answer
}
