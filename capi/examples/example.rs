//! The same as example.c, from Rust: `example FOLDER`, over a folder that `luddimpa store` made as it says there.

use std::process::exit;
use std::{env, fs};

const OK: u32 = 0;
const DELETED: u32 = 1;
const ABSENT: u32 = 2;
const LATEST: u64 = (1 << 56) - 1;
const FRAME: usize = 16;

#[repr(C)]
struct Found {
    status: u32,
    length: usize,
}

#[repr(C)]
struct CheckedTable {
    status: u32,
    fault: u32,
    entries: usize,
}

#[repr(C)]
struct CheckedEdits {
    status: u32,
    fault: u32,
    number: u64,
    flushed: u64,
    epoch: u64,
    next_file: u64,
    files: usize,
}

#[repr(C)]
struct MergedJob {
    status: u32,
    fault: u32,
    table: usize,
    length: usize,
}

mod c {
    use super::{CheckedEdits, CheckedTable, Found, MergedJob};

    #[rustfmt::skip]
    extern "C" {
        pub fn luddimpa_table_get(table: *const u8, table_length: usize, key: *const u8, key_length: usize, at: u64, out: *mut u8, out_length: usize) -> Found;
        pub fn luddimpa_table_check(table: *const u8, table_length: usize) -> CheckedTable;
        pub fn luddimpa_edits_check(edits: *const u8, edits_length: usize) -> CheckedEdits;
        pub fn luddimpa_merge(job: *const u8, job_length: usize, tables: *const u8, tables_length: usize, out: *mut u8, out_length: usize) -> MergedJob;
    }
}

fn fail<T>(what: &str, status: u32) -> T {
    eprintln!("{what}: {status}");
    exit(1)
}

/// The value of a key in a table's bytes.
fn get(table: &[u8], key: &[u8]) -> Option<Vec<u8>> {
    let mut value = vec![0; 65_536];
    let found = unsafe { c::luddimpa_table_get(table.as_ptr(), table.len(), key.as_ptr(), key.len(), LATEST, value.as_mut_ptr(), value.len()) };
    match found.status {
        OK => {
            value.truncate(found.length);
            Some(value)
        }
        DELETED | ABSENT => None,
        other => fail("table", other),
    }
}

/// The message of the result of a job: its length is asked for first.
fn merge(job: &[u8], tables: &[u8]) -> Vec<u8> {
    let mut result = Vec::new();
    loop {
        let merged = unsafe { c::luddimpa_merge(job.as_ptr(), job.len(), tables.as_ptr(), tables.len(), result.as_mut_ptr(), result.len()) };
        match merged.status {
            OK if merged.length <= result.len() => return result,
            OK => result.resize(merged.length, 0),
            other => fail(&format!("merge, fault {}, table {}", merged.fault, merged.table), other),
        }
    }
}

/// What each frame of a file holds.
fn frames(path: &str) -> Vec<Vec<u8>> {
    let file = fs::read(path).unwrap_or_else(|why| fail(&format!("{path}: {why}"), 0));
    let (mut rest, mut held) = (&file[..], Vec::new());
    while !rest.is_empty() {
        let length = u32::from_be_bytes(rest[..4].try_into().unwrap()) as usize;
        held.push(rest[FRAME..FRAME + length].to_vec());
        rest = &rest[FRAME + length..];
    }
    held
}

/// Byte strings, each behind its length.
fn list(elements: &[Vec<u8>]) -> Vec<u8> {
    elements.iter().flat_map(|it| [&(it.len() as u32).to_be_bytes()[..], it].concat()).collect()
}

/// The record of a table of level 0, whose keys are a and b.
fn input(file: u64, table: &[u8]) -> Vec<u8> {
    let checked = unsafe { c::luddimpa_table_check(table.as_ptr(), table.len()) };
    if checked.status != OK {
        fail("table, fault", checked.fault)
    }
    [&file.to_be_bytes()[..], b"\0", b"\0\x01a\0\x01b", &(table.len() as u32).to_be_bytes(), &(checked.entries as u32).to_be_bytes()].concat()
}

fn show(place: &str, table: &[u8], key: &str) {
    match get(table, key.as_bytes()) {
        Some(value) => println!("{key} in {place}: {}", String::from_utf8_lossy(&value)),
        None => println!("{key} in {place}: absent"),
    }
}

fn main() {
    let folder = env::args().nth(1).unwrap_or_else(|| fail("usage: example FOLDER", 1));
    let edits = list(&frames(&format!("{folder}/edits")));
    let version = unsafe { c::luddimpa_edits_check(edits.as_ptr(), edits.len()) };
    if version.status != OK {
        fail(&format!("edits, fault {}, epoch {}, next file {}", version.fault, version.epoch, version.next_file), version.status)
    }
    println!("version {}: {} files, flushed {}", version.number, version.files, version.flushed);

    let tables: Vec<Vec<u8>> = (1..3).map(|file| frames(&format!("{folder}/{file:020}.table")).remove(0)).collect();
    show("table 1", &tables[0], "a");

    // A job from the coordinator to worker 1: its epoch and number, from level 0 on, the block target, no snapshots, two inputs, no
    // keys in deeper levels.
    let job = [
        &b"LSMM\x01\x01\0\0\x01\x01"[..],
        &1u64.to_be_bytes(),
        &1u64.to_be_bytes(),
        b"\0",
        &4096u32.to_be_bytes(),
        b"\0",
        &2u16.to_be_bytes(),
        &input(1, &tables[0]),
        &input(2, &tables[1]),
        &0u32.to_be_bytes(),
    ]
    .concat();
    let result = merge(&job, &list(&tables));
    // The result: ten bytes as above, the job's name, the count of tables, and each behind its length.
    assert_eq!(result[26..30], 1u32.to_be_bytes());
    assert_eq!(result[30..34], (result.len() as u32 - 34).to_be_bytes());
    show("the merged table", &result[34..], "a");
    show("the merged table", &result[34..], "b");
}
