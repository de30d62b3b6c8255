//! Texts that keep what a round was begun with: each that is written is read again, and none that is cut short or spelled in another way.

use round_inputs::{BadBytes, begun_in, begun_text};
use splices_flat::FileSet;
use std::alloc::Global;
use std::test::Fail;

/// A digest.
const DIGEST: [u8; 32] = [7; 32];

/// A DAG file, a submit file with bytes that are no text, and an empty one.
fn files_of(alloc: Global) -> Result<FileSet, Fail> {
    let mut files = FileSet::new(alloc);
    files.add(alloc, "x.dag", b"JOB A a.sub\nJOB B b.sub\n")?;
    files.add(alloc, "a.sub", b"executable = \xff\n\0\r\n")?;
    files.add(alloc, "b\nb.sub", b"")?;
    Ok(files)
}

/// The text of these files with this rescue file.
fn text_of(alloc: Global, rescue: Option<(&str, &[u8])>) -> Result<Vec<u8>, Fail> {
    let files = files_of(alloc)?;
    Ok(begun_text(alloc, &DIGEST, &files, rescue)?)
}

/// Whether bytes are refused as none that are spelled so.
fn is_refused(alloc: Global, bytes: &[u8]) -> bool {
    match begun_in(alloc, bytes) {
        Ok(_) => false,
        Err(fault) => fault == BadBytes::NotSpelled,
    }
}

#[test]
fn a_text_is_read_again(rt: HostRuntime) -> Result<(), Fail> {
    let alloc = rt.alloc();
    let rescue: &[u8] = b"DONE A\n";
    let text = text_of(alloc, Some(("x.dag.rescue001", rescue)))?;
    let begun = begun_in(alloc, &text).ok().ok_or("it is refused")?;
    assert!(rt; begun.digest == DIGEST);
    assert!(rt; begun.rescue_bytes() == Some(rescue));
    assert!(rt; begun.files.get("x.dag").map_or(0, |bytes| bytes.len()) == 24);
    assert!(rt; begun.files.get("a.sub").map_or(0, |bytes| bytes.len()) == 18);
    assert!(rt; begun.files.get("b\nb.sub").map_or(1, |bytes| bytes.len()) == 0);
    assert!(rt; begun.files.get("x.dag.rescue001").is_none());
    Ok(())
}

#[test]
fn a_text_without_a_rescue_file(rt: HostRuntime) -> Result<(), Fail> {
    let alloc = rt.alloc();
    let text = text_of(alloc, None)?;
    let begun = begun_in(alloc, &text).ok().ok_or("it is refused")?;
    assert!(rt; begun.rescue_bytes().is_none());
    assert!(rt; begun.files.iter().count() == 3);
    Ok(())
}

#[test]
fn a_text_that_is_cut_short(rt: HostRuntime) -> Result<(), Fail> {
    let alloc = rt.alloc();
    let rescue: &[u8] = b"DONE A\n";
    let text = text_of(alloc, Some(("x.dag.rescue001", rescue)))?;
    for length in 0..text.len() {
        assert!(rt; is_refused(alloc, &text[..length]), "{length}");
    }
    Ok(())
}

/// A text of this head and these files, as it is written by hand.
fn by_hand(alloc: Global, files: &str) -> Result<Vec<u8>, Fail> {
    let mut text = String::from_str(alloc, "# dagrun begun, digest ")?;
    for _ in 0..32 {
        text.push_str("07")?;
    }
    text.push_str("\n")?;
    text.push_str(files)?;
    text.push_str("end\n")?;
    Ok(Vec::from_slice(alloc, text.as_bytes())?)
}

#[test]
fn texts_in_another_spelling(rt: HostRuntime) -> Result<(), Fail> {
    let alloc = rt.alloc();
    let good = by_hand(alloc, "file 1 2\na\nbc\nfile 1 0\nb\n\nrescue 1 1\nr\n\n\n")?;
    assert!(rt; begun_in(alloc, &good).is_ok());
    for bad in [
        "file 01 2\na\nbc\n",
        "file 1 2 \na\nbc\n",
        "file +1 2\na\nbc\n",
        "file 1 2\na\rbc\n",
        "file 1 2\na\nbc\r",
        "file 1 2\na\nbcd\n",
        "file 1 1\na\nbc\n",
        "files 1 2\na\nbc\n",
        "FILE 1 2\na\nbc\n",
        "file 1 18446744073709551615\na\nbc\n",
        "file 1 99999999999999999999999\na\nbc\n",
        "file 1 0\nb\n\nfile 1 0\na\n\n",
        "file 1 0\na\n\nfile 1 0\na\n\n",
        "rescue 1 1\nr\n\n\nfile 1 0\na\n\n",
        "rescue 1 0\nr\n\nrescue 1 0\nr\n\n",
        "\n",
        "file 1 2\na\nbc\n\n",
        "end\n",
        "file 1 2\na\nbc\nend\n",
    ] {
        let text = by_hand(alloc, bad)?;
        assert!(rt; is_refused(alloc, &text), "{bad}");
    }
    Ok(())
}

#[test]
fn heads_in_another_spelling(rt: HostRuntime) -> Result<(), Fail> {
    let alloc = rt.alloc();
    for bad in [
        "",
        "\n",
        "# dagrun begun, digest \n",
        "# dagrun begun, digest 07\n",
        "# dagrun inputs, digest 0707070707070707070707070707070707070707070707070707070707070707\n",
        "# dagrun begun, digest 0707070707070707070707070707070707070707070707070707070707070707",
        "# dagrun begun, digest 0A07070707070707070707070707070707070707070707070707070707070707\n",
        " # dagrun begun, digest 0707070707070707070707070707070707070707070707070707070707070707\n",
    ] {
        assert!(rt; is_refused(alloc, bad.as_bytes()), "{bad}");
    }
    Ok(())
}
