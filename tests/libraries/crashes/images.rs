// The images that a crash may leave, made of what a disk in memory kept of its calls.
use event_journal::DiskEvent;
use std::alloc::{AllocError, Global};

// How a write is torn, byte by byte of its range.
#[derive(Clone, Copy)]
enum Tear {
    // So many bytes are written.
    First(usize),
    // All but so many are written; where nothing stood, zeros stand before them.
    Last(usize),
    // One byte is something else, and the others are written.
    Changed(usize, u8),
    // One byte is something else, and the others are as they were.
    Only(usize, u8),
    // So many bytes are something else.
    Filled(usize, u8),
}

// What stands there, if anything does.
fn byte_of(tear: Tear, place: usize, old: Option<u8>, new: u8) -> Option<u8> {
    match tear {
        Tear::First(count) if place < count => Some(new),
        Tear::First(_) => old,
        Tear::Last(count) if place < count => Some(old.unwrap_or(0)),
        Tear::Last(_) => Some(new),
        Tear::Changed(at, byte) if place == at => Some(byte),
        Tear::Changed(_, _) => Some(new),
        Tear::Only(at, byte) if place == at => Some(byte),
        Tear::Only(at, _) if place < at => Some(old.unwrap_or(0xFF)),
        Tear::Only(_, _) => old,
        Tear::Filled(count, byte) if place < count => Some(byte),
        Tear::Filled(_, _) => old,
    }
}

// What a write leaves of an image, torn so. An image that ends before its place stays as it is.
fn torn(
    alloc: Global,
    image: &[u8],
    at: usize,
    new: &[u8],
    tear: Tear,
) -> Result<Vec<u8>, AllocError> {
    let (Some(front), Some(rest)) = (image.get(..at), image.get(at..)) else {
        return Vec::from_slice(alloc, image);
    };
    let mut torn = Vec::from_slice(alloc, front)?;
    for (place, byte) in new.iter().enumerate() {
        if let Some(byte) = byte_of(tear, place, rest.get(place).copied(), *byte) {
            torn.push(byte)?;
        }
    }
    if let Some(behind) = rest.get(new.len()..) {
        torn.extend_from_slice(behind)?;
    }
    Ok(torn)
}

// The bytes that a torn write may leave where another was written: none, the two gates, and all bits.
static GARBAGE: [u8; 4] = [0, 0x4A, 0x4F, 0xFF];

// The images of a write that have something else at a place or until it; all 256 bytes in a write of one.
fn garble(
    alloc: Global,
    image: &[u8],
    at: usize,
    new: &[u8],
    place: usize,
    images: &mut Vec<Vec<u8>>,
) -> Result<(), AllocError> {
    for byte in 0..=255 {
        if new.len() == 1 || GARBAGE.contains(&byte) {
            images.push(torn(alloc, image, at, new, Tear::Changed(place, byte))?)?;
            images.push(torn(alloc, image, at, new, Tear::Only(place, byte))?)?;
            images.push(torn(alloc, image, at, new, Tear::Filled(place, byte))?)?;
        }
    }
    Ok(())
}

// The images of a write: none of it, all of it, its beginnings and its ends, and those with something else.
fn tear_write(
    alloc: Global,
    image: &[u8],
    at: usize,
    new: &[u8],
    images: &mut Vec<Vec<u8>>,
) -> Result<(), AllocError> {
    for place in 0..new.len() + 1 {
        images.push(torn(alloc, image, at, new, Tear::First(place))?)?;
        images.push(torn(alloc, image, at, new, Tear::Last(place))?)?;
        garble(alloc, image, at, new, place, images)?;
    }
    Ok(())
}

// The images of a cut: each size between.
fn tear_cut(
    alloc: Global,
    image: &[u8],
    len: usize,
    images: &mut Vec<Vec<u8>>,
) -> Result<(), AllocError> {
    for size in len.min(image.len())..image.len() + 1 {
        images.push(Vec::from_slice(alloc, &image[..size])?)?;
    }
    Ok(())
}

// What an event may leave of each of these images.
fn left(alloc: Global, images: &[Vec<u8>], event: &DiskEvent) -> Result<Vec<Vec<u8>>, AllocError> {
    let mut left = Vec::new(alloc);
    for image in images {
        match event {
            DiskEvent::Write { at, bytes } => tear_write(alloc, image, *at, bytes, &mut left)?,
            DiskEvent::Cut { len } => tear_cut(alloc, image, *len, &mut left)?,
            DiskEvent::Sync => left.push(Vec::from_slice(alloc, image)?)?,
        }
    }
    Ok(left)
}

/// The images of these bytes and of what was done since they were synced.
pub fn images_of(
    alloc: Global,
    synced: &[u8],
    events: &[DiskEvent],
) -> Result<Vec<Vec<u8>>, AllocError> {
    let mut images = Vec::new(alloc);
    images.push(Vec::from_slice(alloc, synced)?)?;
    for event in events {
        images = left(alloc, &images, event)?;
    }
    Ok(images)
}

/// What a read gives after these events.
pub fn replayed(alloc: Global, start: &[u8], events: &[DiskEvent]) -> Result<Vec<u8>, AllocError> {
    let mut seen = Vec::from_slice(alloc, start)?;
    for event in events {
        match event {
            DiskEvent::Write { at, bytes } => {
                seen = torn(alloc, &seen, *at, bytes, Tear::First(bytes.len()))?;
            }
            DiskEvent::Cut { len } => seen.truncate(*len),
            DiskEvent::Sync => {}
        }
    }
    Ok(seen)
}

/// How many of the events are synced.
pub fn synced(events: &[DiskEvent]) -> usize {
    let mut count = 0;
    for (place, event) in events.iter().enumerate() {
        if matches!(event, DiskEvent::Sync) {
            count = place + 1;
        }
    }
    count
}
