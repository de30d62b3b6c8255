// The disks under a journal.
ghost use Rattle.std.specs.Prelude.{◌<◌};

use crate::journals::runs::{
    FAILS_ONCE, RECORDS, add, add_and_fail, add_many, begin, records_on, written,
};
use crate::same::same;
use event_journal::{
    Disk, DiskFault, FileDisk, Fuse, FuseDisk, Journal, JournalFault, MemDisk, ReadFault,
};
use node_machine::Record;
use std::alloc::Global;
use std::fs;
use std::fs::File;
use std::process::Abort;
use std::rt::Files;
use std::test::Fail;

#[test]
fn journal_full(rt: HostRuntime) -> Result<(), Fail> {
    let alloc = rt.alloc();
    let (disk, append, count) = add_and_fail(alloc, MemDisk::new(alloc, 65), 16)?;
    same(&rt, append, Err(JournalFault::DiskFull));
    same(&rt, count, Err(JournalFault::Broken));
    same(&rt, disk.bytes().get(..64), FAILS_ONCE.get(..64));
    same(&rt, disk.bytes().get(64..), Some([0].as_slice()));
    Ok(())
}

#[test]
fn slot_limit(rt: HostRuntime) -> Result<(), Fail> {
    let alloc = rt.alloc();
    let (disk, append, count) = add_and_fail(alloc, MemDisk::new(alloc, 1000), 1)?;
    same(&rt, append, Err(JournalFault::SlotsFull));
    same(&rt, count, Ok(1));
    same(&rt, disk.bytes().get(..96), FAILS_ONCE.get(..96));
    same(&rt, disk.bytes().get(96..), Some([0].as_slice()));
    Ok(())
}

// Leaves a body behind the records whose gate is closed.
fn staged<D: Disk + Drop>(alloc: Global, disk: D) -> Result<D, JournalFault> {
    let mut journal = begin(alloc, disk, 16)?;
    journal.append_body(&Record::Finish(3))?;
    Ok(journal.into_disk())
}

#[test]
fn body_replaced(rt: HostRuntime) -> Result<(), Fail> {
    let alloc = rt.alloc();
    let disk = staged(alloc, MemDisk::new(alloc, 1000))?;
    let disk = written(alloc, disk)?;
    same(&rt, disk.bytes(), FAILS_ONCE.as_slice());
    Ok(())
}

// Opens, makes a journal and adds a record: twelve calls of the disk.
fn first_record(alloc: Global, disk: FuseDisk<MemDisk>) -> Result<(), JournalFault> {
    let mut journal = begin(alloc, disk, 16)?;
    add(&mut journal, &Record::Life)
}

fn fails_at(rt: &impl Abort, alloc: Global, calls: u64, fuse: Fuse) {
    let answer = first_record(alloc, FuseDisk::new(MemDisk::new(alloc, 1000), fuse));
    if calls < 12 {
        same(rt, (calls, answer), (calls, Err(JournalFault::Device)));
    } else {
        same(rt, answer, Ok(()));
    }
}

#[test]
fn each_call_fails_once(rt: HostRuntime) {
    for calls in 0..13 {
        fails_at(&rt, rt.alloc(), calls, Fuse::One(calls));
        fails_at(&rt, rt.alloc(), calls, Fuse::All(calls));
    }
}

// The bytes of the gate's write are there before its sync fails.
#[test]
fn sync_of_a_gate_fails(rt: HostRuntime) -> Result<(), Fail> {
    let alloc = rt.alloc();
    let disk = FuseDisk::new(MemDisk::new(alloc, 1000), Fuse::One(11));
    let (disk, append, count) = add_and_fail(alloc, disk, 16)?;
    same(&rt, append, Err(JournalFault::Device));
    same(&rt, count, Err(JournalFault::Broken));
    let records = records_on(alloc, disk.into_disk())?;
    same(&rt, records.as_slice(), &RECORDS[..1]);
    Ok(())
}

// Two records for each node: a journal of 640,065 bytes.
#[test]
fn many_records(rt: HostRuntime) -> Result<(), Fail> {
    let alloc = rt.alloc();
    let count = add_many(alloc, MemDisk::new(alloc, 1_000_000), 10_000)?;
    same(&rt, count, 20_000);
    Ok(())
}

// The file has these bytes.
fn has_bytes(rt: &impl Abort, host: HostRuntime, name: &str, due: &[u8]) -> Result<(), Fail> {
    let bytes = fs::read(&host, name)?;
    same(rt, bytes.as_slice(), due);
    Ok(())
}

// The journal in this file has the records of one that fails once.
fn has_records(rt: &impl Abort, host: HostRuntime, name: &str) -> Result<(), Fail> {
    let alloc = host.alloc();
    let records = records_on(alloc, FileDisk::at(host, String::from_str(alloc, name)?))?;
    same(rt, records.as_slice(), RECORDS.as_slice());
    Ok(())
}

#[test]
fn journal_in_a_file(rt: HostRuntime) -> Result<(), Fail> {
    let alloc = rt.alloc();
    let name = "journal_in_a_file.test";
    written(alloc, FileDisk::at(rt, String::from_str(alloc, name)?))?;
    has_bytes(&rt, rt, name, FAILS_ONCE.as_slice())?;
    has_records(&rt, rt, name)?;
    fs::remove_file(&rt, name)?;
    Ok(())
}

#[test]
fn file_is_missing(rt: HostRuntime) -> Result<(), Fail> {
    let name = "file_is_missing.test";
    let mut disk = FileDisk::at(rt, String::from_str(rt.alloc(), name)?);
    same(&rt, disk.size(), Ok(0));
    same(&rt, disk.sync(), Ok(()));
    assert!(rt; !fs::exists(&rt, name)?);
    Ok(())
}

#[test]
fn file_in_a_missing_folder(rt: HostRuntime) -> Result<(), Fail> {
    let alloc = rt.alloc();
    let disk = FileDisk::at(rt, String::from_str(alloc, "no_such_folder/journal")?);
    match written(alloc, disk) {
        Ok(_) => panic!(rt; "a journal in no folder"),
        Err(fault) => same(&rt, fault, JournalFault::Device),
    }
    Ok(())
}

// A disk whose file is there and can't be opened: each call fails, and none reads as a missing file.
fn never_opens<R: Files<File = File> + Drop>(
    rt: &impl Abort,
    alloc: Global,
    disk: &mut FileDisk<R>,
) {
    same(rt, disk.size(), Err(DiskFault::Failed));
    assert!(rt; matches!(disk.read(alloc), Err(ReadFault::Failed)));
    same(rt, disk.sync(), Err(DiskFault::Failed));
    same(rt, disk.cut(0), Err(DiskFault::Failed));
    same(rt, disk.write_at(0, b"x"), Err(DiskFault::Failed));
    same(
        rt,
        Journal::peek(alloc, disk).err(),
        Some(JournalFault::Device),
    );
}

#[test]
fn file_is_a_folder(rt: HostRuntime) -> Result<(), Fail> {
    let name = "file_is_a_folder.test";
    fs::create_dir(&rt, name)?;
    let alloc = rt.alloc();
    let mut disk = FileDisk::at(rt, String::from_str(alloc, name)?);
    never_opens(&rt, alloc, &mut disk);
    fs::remove_dir_all(&rt, name)?;
    Ok(())
}

#[test]
fn file_within_a_file(rt: HostRuntime) -> Result<(), Fail> {
    let name = "file_within_a_file.test";
    fs::write(&rt, name, b"x")?;
    let alloc = rt.alloc();
    let path = String::from_str(alloc, "file_within_a_file.test/journal")?;
    let mut disk = FileDisk::at(rt, path);
    never_opens(&rt, alloc, &mut disk);
    drop(disk);
    has_bytes(&rt, rt, name, b"x")?;
    fs::remove_file(&rt, name)?;
    Ok(())
}

// Cuts a file behind its gate.
fn cut_file(rt: &impl Abort, host: HostRuntime, name: &str) -> Result<(), Fail> {
    let alloc = host.alloc();
    let mut disk = FileDisk::at(host, String::from_str(alloc, name)?);
    same(rt, disk.cut(65), Ok(()));
    same(rt, disk.size(), Ok(65));
    let bytes = disk.read(alloc)?;
    same(rt, bytes.as_slice(), &FAILS_ONCE[..65]);
    Ok(())
}

#[test]
fn file_is_cut(rt: HostRuntime) -> Result<(), Fail> {
    let name = "file_is_cut.test";
    fs::write(&rt, name, FAILS_ONCE.as_slice())?;
    cut_file(&rt, rt, name)?;
    fs::remove_file(&rt, name)?;
    Ok(())
}
