// The bytes of a journal.
ghost use Rattle.std.specs.Prelude.{◌≡◌, ◌≤◌, ◌<◌, IfOk, length, vec_len};

use crate::journals::runs::{
    DIGEST, FAILS_ONCE, JOB, RECORDS, SIZE, begin_with, read_and_add, records_on, written,
};
use crate::same::same;
use event_journal::{Journal, JournalFault, MemDisk, Peek, decode_record, encode_record, has_slot};
use node_machine::{Outcome, Record};
use std::alloc::{AllocError, Global};
use std::process::Abort;
use std::test::Fail;

#[test]
fn journal_bytes(rt: HostRuntime) -> Result<(), Fail> {
    let alloc = rt.alloc();
    let mut disk = written(alloc, MemDisk::new(alloc, 1000))?;
    same(&rt, disk.bytes(), FAILS_ONCE.as_slice());
    let seen = Journal::peek(alloc, &mut disk)?;
    let wanted = Peek {
        used: 0,
        next: 1,
        always_post: false,
        finished: true,
    };
    same(&rt, seen, Some(wanted));
    Ok(())
}

fn ends_as(rt: &impl Abort, outcome: Outcome, byte: u8, value: [u8; 4]) {
    let entry = Record::End(JOB, outcome);
    assert!(rt; has_slot(&entry));
    let slot = encode_record(&entry);
    same(rt, &slot[..4], [0x4F, 3, 2, byte].as_slice());
    same(rt, &slot[12..16], value.as_slice());
    same(rt, decode_record(&slot), Some(entry));
}

#[test]
fn endings(rt: HostRuntime) -> Result<(), Fail> {
    ends_as(&rt, Outcome::Exit(255), 1, [0, 0, 0, 255]);
    ends_as(&rt, Outcome::Signal(9), 2, [0xFF, 0xFF, 0xFF, 0xF7]);
    ends_as(&rt, Outcome::NoStart, 3, [0xFF, 0xFF, 0xFC, 0x17]);
    ends_as(&rt, Outcome::Untold, 4, [0xFF, 0xFF, 0xFC, 0x18]);
    Ok(())
}

fn front_of(alloc: Global, bytes: &[u8], size: usize) -> Result<Vec<u8>, AllocError>
    requires { size ≤ length bytes.now }
    ensures { IfOk result (λ front. vec_len front ≡ size) }
{
    Vec::from_slice(alloc, &bytes[..size])
}

/// A disk with the first bytes of a journal, one of them changed.
pub fn changed(
    alloc: Global,
    journal: &[u8; SIZE],
    size: usize,
    at: usize,
    byte: u8,
) -> Result<MemDisk, AllocError>
    requires { size ≤ 193 }
{
    let mut bytes = front_of(alloc, journal, size)?;
    if at < bytes.len() {
        bytes[at] = byte;
    }
    Ok(MemDisk::of(alloc, bytes, 1000))
}

// The last slot begins at byte 160, and is whole where byte 192 is there.
fn ends_in_the_last_slot(
    rt: &impl Abort,
    alloc: Global,
    size: usize,
    gate: u8,
) -> Result<(), AllocError>
    requires { size ≤ 193 }
{
    let answer = records_on(alloc, changed(alloc, &FAILS_ONCE, size, 160, gate)?);
    match &answer {
        Ok(records) => {
            let is_open = gate == 0x4F;
            assert!(rt; !is_open || size == SIZE);
            let due = if is_open {
                RECORDS.as_slice()
            } else {
                &RECORDS[..3]
            };
            same(rt, records.as_slice(), due);
        }
        Err(fault) => {
            same(rt, *fault, JournalFault::BadSlot(3));
            assert!(rt; gate == 0x4F && size < SIZE);
        }
    }
    drop(answer);
    Ok(())
}

#[test]
fn every_prefix_of_a_journal(rt: HostRuntime) -> Result<(), Fail> {
    for size in 161..194 {
        for gate in 0..=255 {
            ends_in_the_last_slot(&rt, rt.alloc(), size, gate)?;
        }
    }
    Ok(())
}

#[test]
fn faults_of_an_image(rt: HostRuntime) -> Result<(), Fail> {
    for (at, byte, fault) in [
        (0, 0, JournalFault::NotAJournal),
        (1, 0, JournalFault::Version(0)),
        (1, 3, JournalFault::Version(3)),
        (8, 0, JournalFault::OtherInputs),
        (39, 0, JournalFault::OtherInputs),
        (40, 1, JournalFault::NotAJournal),
        (63, 1, JournalFault::NotAJournal),
        (65, 5, JournalFault::BadSlot(0)),
        (66, 1, JournalFault::BadSlot(0)),
        (98, 0, JournalFault::BadSlot(1)),
        (99, 1, JournalFault::BadSlot(1)),
        (111, 1, JournalFault::BadSlot(1)),
        (131, 5, JournalFault::BadSlot(2)),
        (142, 1, JournalFault::BadSlot(2)),
        (151, 1, JournalFault::BadSlot(2)),
        (164, 1, JournalFault::BadSlot(3)),
        (191, 1, JournalFault::BadSlot(3)),
    ] {
        let disk = changed(rt.alloc(), &FAILS_ONCE, SIZE, at, byte)?;
        match records_on(rt.alloc(), disk) {
            Ok(_) => panic!(rt; "a record at {at}"),
            Err(found) => same(&rt, (at, found), (at, fault)),
        }
    }
    Ok(())
}

// A digest stands before a flag, and both before a bad slot.
#[test]
fn order_of_faults(rt: HostRuntime) -> Result<(), Fail> {
    let alloc = rt.alloc();
    let bad_slot = JournalFault::BadSlot(0);
    for (digest, always_post, wanted) in [
        ([8; 32], true, JournalFault::OtherInputs),
        ([8; 32], false, JournalFault::OtherInputs),
        (DIGEST, true, JournalFault::OtherFlag),
        (DIGEST, false, bad_slot),
    ] {
        let disk = changed(alloc, &FAILS_ONCE, SIZE, 65, 5)?;
        match Journal::open(alloc, disk, &digest, always_post, 16) {
            Ok(_) => panic!(rt; "a record in a bad slot"),
            Err((disk, fault)) => {
                same(&rt, (always_post, fault), (always_post, wanted));
                let mut disk = disk;
                same(&rt, Journal::peek(alloc, &mut disk), Err(bad_slot));
            }
        }
    }
    Ok(())
}

#[test]
fn flag_of_a_new_journal(rt: HostRuntime) -> Result<(), Fail> {
    let alloc = rt.alloc();
    for (always_post, front) in [
        (false, [0x4A, 2, 0, 0, 0, 0, 0, 1]),
        (true, [0x4A, 2, 1, 0, 0, 0, 0, 1]),
    ] {
        let disk = begin_with(alloc, MemDisk::new(alloc, 1000), always_post, 16)?.into_disk();
        same(&rt, disk.bytes().get(..8), Some(front.as_slice()));
    }
    Ok(())
}

/// Bytes 1 to 3 of a journal, and what opening it answers with the flag false, and with it true.
static FRONTS: [([u8; 3], Option<JournalFault>, Option<JournalFault>); 10] = [
    ([2, 0, 0], None, Some(JournalFault::OtherFlag)),
    ([2, 1, 0], Some(JournalFault::OtherFlag), None),
    ([1, 0, 0], None, Some(JournalFault::OtherFlag)),
    ([1, 1, 0], NO_JOURNAL, NO_JOURNAL),
    ([2, 2, 0], NO_JOURNAL, NO_JOURNAL),
    ([1, 0, 1], NO_JOURNAL, NO_JOURNAL),
    ([2, 0, 1], NO_JOURNAL, NO_JOURNAL),
    ([7, 0, 1], NO_JOURNAL, NO_JOURNAL),
    ([7, 0, 0], VERSION_7, VERSION_7),
    ([7, 5, 0], VERSION_7, VERSION_7),
];

const NO_JOURNAL: Option<JournalFault> = Some(JournalFault::NotAJournal);

const VERSION_7: Option<JournalFault> = Some(JournalFault::Version(7));

fn with_front(alloc: Global, front: [u8; 3]) -> Result<MemDisk, AllocError> {
    let mut bytes = FAILS_ONCE;
    bytes[1..4].copy_from_slice(&front);
    Ok(MemDisk::of(alloc, Vec::from_slice(alloc, &bytes)?, 1000))
}

// Opens the journal with this front. Where it is one with this flag, its records are read and one is
// added, and nothing changes of its header or its records.
fn opened_as(
    rt: &impl Abort,
    alloc: Global,
    front: [u8; 3],
    always_post: bool,
    wanted: Option<JournalFault>,
) -> Result<(), AllocError> {
    let before = with_front(alloc, front)?;
    let answer = read_and_add(alloc, with_front(alloc, front)?, always_post);
    let found = answer.as_ref().err().copied();
    same(
        rt,
        (front, always_post, found),
        (front, always_post, wanted),
    );
    if let Ok((records, disk)) = &answer {
        same(rt, records.as_slice(), RECORDS.as_slice());
        same(rt, disk.bytes().len(), SIZE + 32);
        let (found, due) = (disk.bytes().get(..SIZE - 1), before.bytes().get(..SIZE - 1));
        same(rt, found, due);
    }
    drop(answer);
    Ok(())
}

// A peek says the flag with which the journal is opened, or else what opening answers with either.
fn peeked_as(
    rt: &impl Abort,
    alloc: Global,
    front: [u8; 3],
    without: Option<JournalFault>,
    with: Option<JournalFault>,
) -> Result<(), AllocError> {
    let wanted = match (without, with) {
        (None, _) => Ok(Some(false)),
        (_, None) => Ok(Some(true)),
        (Some(fault), _) => Err(fault),
    };
    let told = match Journal::peek(alloc, &mut with_front(alloc, front)?) {
        Ok(Some(peek)) => Ok(Some(peek.always_post)),
        Ok(None) => Ok(None),
        Err(fault) => Err(fault),
    };
    same(rt, (front, told), (front, wanted));
    Ok(())
}

#[test]
fn versions_and_flags(rt: HostRuntime) -> Result<(), Fail> {
    for (front, without, with) in FRONTS {
        peeked_as(&rt, rt.alloc(), front, without, with)?;
        opened_as(&rt, rt.alloc(), front, false, without)?;
        opened_as(&rt, rt.alloc(), front, true, with)?;
    }
    Ok(())
}

// What a peek says of so many equal bytes.
fn peek_of(alloc: Global, byte: u8, size: usize) -> Result<Option<Peek>, JournalFault>
    requires { size < 1000 }
{
    let Ok(bytes) = vec![in alloc; byte; size] else {
        return Err(JournalFault::Memory);
    };
    let mut disk = MemDisk::of(alloc, bytes, 1000);
    Journal::peek(alloc, &mut disk)
}

#[test]
fn fresh_places(rt: HostRuntime) -> Result<(), Fail> {
    let alloc = rt.alloc();
    for (byte, size) in [(0, 0), (0x4A, 1), (0, 1), (0, 64), (0, 65)] {
        same(
            &rt,
            (size, byte, peek_of(alloc, byte, size)),
            (size, byte, Ok(None)),
        );
    }
    for (byte, size) in [(0, 66), (0x4A, 2), (0x4A, 64), (0x4A, 65)] {
        let wanted = Err(JournalFault::NotAJournal);
        same(
            &rt,
            (size, byte, peek_of(alloc, byte, size)),
            (size, byte, wanted),
        );
    }
    Ok(())
}

// A header that was never finished is cut away.
#[test]
fn old_bytes_are_cut(rt: HostRuntime) -> Result<(), Fail> {
    let alloc = rt.alloc();
    let bytes = vec![in alloc; 9u8; 65]?;
    let disk = written(alloc, MemDisk::of(alloc, bytes, 1000))?;
    same(&rt, disk.bytes(), FAILS_ONCE.as_slice());
    Ok(())
}

#[test]
fn fault_codes(rt: HostRuntime) -> Result<(), Fail> {
    for (fault, text) in [
        (JournalFault::Device, "J1 Device"),
        (JournalFault::DiskFull, "J2 DiskFull"),
        (JournalFault::NotAJournal, "J3 NotAJournal"),
        (JournalFault::Version(2), "J4 Version 2"),
        (JournalFault::OtherInputs, "J5 OtherInputs"),
        (JournalFault::SlotsFull, "J6 SlotsFull"),
        (JournalFault::Broken, "J7 Broken"),
        (JournalFault::Memory, "J8 Memory"),
        (JournalFault::BadSlot(3), "J9 BadSlot 3"),
        (JournalFault::OtherFlag, "J10 OtherFlag"),
    ] {
        let told = format!(in rt.alloc(); "{fault}")?;
        same(&rt, told.as_str(), text);
    }
    Ok(())
}
