// The disk of a rescue file, torn at each moment of the call that writes it.
use crate::images::{images_of, replayed, synced};
use crate::managers::{called, given, life};
use crate::plans::{CHAIN, plan_of};
use crate::readings::disk_of;
use crate::same::same;
use event_journal::{DiskEvent, MemDisk};
use recovery::Sealed;
use run_plan::Plan;
use std::alloc::Global;
use std::process::Abort;
use std::test::Fail;

// An older text on the rescue disk, longer than nothing.
static OLD: &[u8] = b"# old\n";

static RESCUE: &[u8] =
    b"# Rescue DAG file\n# Total number of Nodes: 2\n# Nodes premarked DONE: 1\n\nDONE A\n";

// The rescue disk of a run that goes on from this journal, once its end is recorded.
fn rescued(
    rt: &impl Abort,
    alloc: Global,
    plan: &Plan,
    journal: &[u8],
    rescue: &[u8],
) -> Result<MemDisk, Fail> {
    let mut manager = given(rt, life(alloc, disk_of(alloc, journal)?, plan));
    let seal: Sealed<MemDisk> = given(rt, manager.write_rescue(alloc, disk_of(alloc, rescue)?));
    match given(rt, manager.finish(seal)) {
        Some(disk) => Ok(disk),
        None => Err(Fail::from("no rescue disk")),
    }
}

// Whatever the rescue disk holds, the run goes on and writes the text anew.
fn written_anew(
    rt: &impl Abort,
    alloc: Global,
    plan: &Plan,
    journal: &[u8],
    images: &[Vec<u8>],
) -> Result<(), Fail> {
    for image in images {
        let disk = rescued(rt, alloc, plan, journal, image)?;
        same(rt, disk.bytes(), RESCUE);
    }
    Ok(())
}

// The images at the moment behind these events, of which the last is a sync or not.
fn images_at(alloc: Global, events: &[DiskEvent]) -> Result<Vec<Vec<u8>>, Fail> {
    let count = synced(events);
    let (Some(done), Some(pending)) = (events.get(..count), events.get(count..)) else {
        return Err(Fail::from("no such moment"));
    };
    let bytes = replayed(alloc, OLD, done)?;
    Ok(images_of(alloc, &bytes, pending)?)
}

fn rescue_torn(rt: &impl Abort, alloc: Global, plan: &Plan) -> Result<(), Fail> {
    let journal = called(rt, alloc, plan, 4);
    let disk = rescued(rt, alloc, plan, journal.bytes(), OLD)?;
    let events = disk.events();
    for count in 0..events.len() + 1 {
        let images = images_at(alloc, &events[..count])?;
        written_anew(rt, alloc, plan, journal.bytes(), &images)?;
        if count == events.len() {
            same(rt, images.len(), 1);
            assert!(rt; images.iter().all(|image| image.as_slice() == RESCUE));
        }
    }
    Ok(())
}

#[test]
fn rescue_file(rt: HostRuntime) -> Result<(), Fail> {
    let plan = plan_of(rt.alloc(), CHAIN)?;
    let answer = rescue_torn(&rt, rt.alloc(), &plan);
    drop(plan);
    answer
}
