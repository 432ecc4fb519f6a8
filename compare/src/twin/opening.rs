//! A book, opened: its records are scanned, and what reading lines takes of it is kept. Lines are then read against the open book, as
//! many as are wanted.
use super::book::{scan_book, Scan};
use super::figures::limits::{MAX_ENTRIES, MAX_TARGETS, MAX_TYPES};
use super::keys::{thread_entries, NO_ENTRY, PLACES};
use super::names::{no_names, Names};
use super::order::close;

/// What opening a book gives: what its records come to, its basic types by name, the offsets of the records of its entries, these threaded
/// by their keys, its closed order, and its targets. Of a refused book only `scan` means anything.
pub struct Opening {
    pub scan: Scan,
    pub names: Names,
    pub entries: [u16; MAX_ENTRIES],
    pub alike: [u16; PLACES],
    pub order: [u64; MAX_TYPES],
    pub targets: [u8; MAX_TARGETS],
}

/// Opens a book: any bytes, of any length.
pub fn open_book(book: &[u8]) -> Opening {
    let mut names = no_names();
    let mut entries = [0u16; MAX_ENTRIES];
    let mut alike = [NO_ENTRY; PLACES];
    let mut order = [0u64; MAX_TYPES];
    let mut targets = [0u8; MAX_TARGETS];
    let scan = scan_book(book, &mut names, &mut entries, &mut order, &mut targets);
    if let Scan::Accepted {
        types,
        entries: count,
        ..
    } = scan
    {
        thread_entries(book, &entries[..count], &mut alike);
        order = close(&order, types).rows;
    }
    Opening {
        scan,
        names,
        entries,
        alike,
        order,
        targets,
    }
}
