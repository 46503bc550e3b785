//! The wrapper passes calls on by the rules, and its structs are the library's.
use nogcuvema::{raw, Area, Errno, Failure, Frame, Limits, Machine, Piece, Process, Segment, SegmentPages, ShownPage, State, Usage};
use nogcuvema::{rules, CREAT, EXCL, EXEC, HUGETLB, LOCKED, NORESERVE, PAGE_BYTES, PRIVATE, RDONLY, REMAP};
use std::mem::size_of;

fn machine() -> Machine {
    let processes = [Process::live(1, 100, 200), Process::live(2, 0, 0), Process::child(3)];
    Machine::open(&Limits::default(), &[Area::ram(64), Area::sparse(8)], &processes).expect("such a machine opens")
}

fn layout(which: u32, field: u32) -> Option<usize> {
    let mut value = 0;
    // SAFETY: `value` is a place for a number.
    (unsafe { raw::nog_layout(which, field, &mut value) } == 0).then_some(value)
}

macro_rules! offset_of {
    ($kind:ty, $field:ident) => {{
        let it = std::mem::MaybeUninit::<$kind>::uninit();
        let start = it.as_ptr();
        // SAFETY: the address of a field is made, and nothing is read.
        unsafe { std::ptr::addr_of!((*start).$field) as usize - start as usize }
    }};
}

macro_rules! same {
    ($which:literal, $kind:ty, $($field:ident)*) => {{
        assert_eq!(layout($which, 0), Some(size_of::<$kind>()), stringify!($kind));
        let offsets = [$((stringify!($field), offset_of!($kind, $field))),*];
        for (place, (name, offset)) in (1..).zip(offsets) {
            assert_eq!(layout($which, place), Some(offset), "{}.{name}", stringify!($kind));
        }
        assert_eq!(layout($which, offsets.len() as u32 + 1), None, "more fields of {}", stringify!($kind));
    }};
}

#[test]
fn the_structs_are_the_librarys() {
    same!(0, raw::Handle, is_open kept);
    same!(1, raw::Limits, shmmax shmmni shmall frames memlock most_pieces most_processes most_slots rules);
    same!(2, raw::Area, kind slots);
    same!(3, raw::Failure, area side is_write unused call);
    same!(4, raw::Process, pid is_born uid gid);
    same!(5, raw::Segment, size atime dtime ctime id key uid gid cuid cgid mode status cpid lpid nattch index);
    same!(6, raw::Tally, events segments reserved locked frames resident dirty slots used ins outs failures);
    same!(7, raw::Flushed, written failed);
    same!(8, raw::Usage, used_ids pages resident swapped highest);
    same!(9, raw::Piece, base segment first_page pages is_writable may_write unused);
    same!(10, raw::Frame, id page is_referenced is_dirty is_lent is_locked);
    assert_eq!(layout(11, 0), None, "one more struct");
}

#[test]
fn a_segment_has_what_it_was_made_with() {
    let mut machine = machine();
    let id = machine.get(1, 77, 5000, 0o640, CREAT).unwrap();
    let at = machine.attach(1, id, 0, 0).unwrap();
    assert_eq!(at, 0x4000_0000);
    assert_eq!(machine.attach(1, id, 0x5000_0000, RDONLY), Ok(0x5000_0000));
    assert_eq!(machine.fork(1, 3), Ok(()));
    assert_eq!(machine.lock(1, id), Err(Errno::ENOMEM));
    let is = Segment {
        size: 5000,
        atime: 3,
        dtime: 0,
        ctime: 1,
        id,
        key: 77,
        uid: 100,
        gid: 200,
        cuid: 100,
        cgid: 200,
        mode: 0o640,
        status: 0,
        cpid: 1,
        lpid: 1,
        nattch: 4,
        index: 0,
    };
    assert_eq!(machine.stat(1, id), Ok(is));
    assert_eq!(machine.segments(), [is]);
    assert_eq!(machine.calls(), 6);
}

#[test]
fn a_lock_is_shown() {
    let mut machine = machine();
    let id = machine.get(1, PRIVATE, 4096, 0o600, 0).unwrap();
    assert_eq!(machine.lock(1, id), Ok(()));
    assert_eq!(machine.stat(1, id).unwrap().status, LOCKED);
    assert_eq!(machine.tally().locked, 1);
    assert_eq!(machine.unlock(1, id), Ok(()));
    assert_eq!(machine.set(1, id, 5, 6, 0o444), Ok(()));
    let is = machine.stat(2, id).unwrap();
    assert_eq!((is.uid, is.gid, is.mode, is.status, is.ctime), (5, 6, 0o444, 0, 5));
}

#[test]
fn bytes_are_those_that_were_stored() {
    let mut machine = machine();
    let id = machine.get(1, PRIVATE, 8192, 0o600, 0).unwrap();
    let at = machine.attach(1, id, 0, 0).unwrap();
    machine.write(1, at + 4000, &[7; 200]).unwrap();
    let mut bytes = [1; 202];
    machine.read(1, at + 3999, &mut bytes).unwrap();
    assert_eq!((bytes[0], bytes[1], bytes[200], bytes[201]), (0, 7, 7, 0));
    assert_eq!(machine.add(1, at, 258), Ok(0));
    let mut number = [9; 3];
    machine.load(1, at, &mut number).unwrap();
    assert_eq!(number, [2, 1, 0]);
    machine.store(1, at + 1, &[0xff]).unwrap();
    assert_eq!(machine.add(1, at, 0), Ok(0xff02));
    let stopped = machine.write(1, at + 8192 - 70, &[1; 100]).unwrap_err();
    assert_eq!((stopped.errno, stopped.done), (Errno::SIGSEGV, 70));
    assert_eq!(machine.load(1, at, &mut [0; 65]), Err(Errno::OUT_OF_RANGE));
}

#[test]
fn refusals_are_named() {
    let mut machine = machine();
    assert_eq!(machine.get(9, PRIVATE, 1, 0o600, 0), Err(Errno::ESRCH));
    assert_eq!(machine.get(1, 5, 1, 0o600, 0), Err(Errno::ENOENT));
    let id = machine.get(1, 5, 1, 0o600, CREAT).unwrap();
    assert_eq!(machine.get(1, 5, 1, 0o600, CREAT | EXCL), Err(Errno::EEXIST));
    assert_eq!(machine.remove(1, id), Ok(()));
    assert_eq!(machine.attach(1, id, 0, 0), Err(Errno::EIDRM));
    assert_eq!(machine.detach(1, 4096), Err(Errno::EINVAL));
    assert_eq!(machine.swapoff(1, 0), Err(Errno::EPERM));
    assert_eq!(machine.swapoff(2, 1), Ok(()));
    assert_eq!(machine.swapoff(2, 1), Err(Errno::EINVAL));
    assert_eq!(machine.exit(1), Ok(()));
    assert_eq!(machine.exec(1), Err(Errno::ESRCH));
    assert_eq!(Errno::EIDRM.to_string(), "EIDRM");
    assert_eq!(format!("{:?}", Errno::SIGBUS), "Errno(1007, SIGBUS)");
}

#[test]
fn an_area_fails_where_it_was_told_to() {
    let failing = Area::ram(16).failing(Failure {
        call: 1,
        is_write: false,
        side: 0,
    });
    let limits = Limits {
        frames: 2,
        memlock: 0,
        ..Limits::default()
    };
    let mut machine = Machine::open(&limits, &[failing], &[Process::live(1, 0, 0)]).unwrap();
    let id = machine.get(1, PRIVATE, 3 * 4096, 0o600, 0).unwrap();
    let at = machine.attach(1, id, 0, 0).unwrap();
    for page in 0..3 {
        machine.store(1, at + page * 4096, &[1 + page as u8]).unwrap();
    }
    let mut byte = [0];
    assert_eq!(machine.load(1, at, &mut byte), Err(Errno::SIGBUS));
    assert_eq!(machine.load(1, at, &mut byte), Ok(()));
    assert_eq!(byte, [1]);
    assert_eq!(machine.tally().failures, 1);
    assert_eq!(machine.flush(9).failed, 0);
}

#[test]
fn what_does_not_open_says_why() {
    let open = |limits: &Limits, areas: &[Area], processes: &[Process]| Machine::open(limits, areas, processes).err().map(|e| e.0);
    let usual = Limits::default();
    let area = [Area::ram(1)];
    let bad = [
        (Limits { shmmax: 0, ..usual }, 2011),
        (Limits { shmmni: 0, ..usual }, 2012),
        (Limits { shmall: 0, ..usual }, 2013),
        (Limits { frames: 1, ..usual }, 2014),
        (Limits { memlock: 15, ..usual }, 2015),
        (Limits { most_slots: 1, ..usual }, 2016),
        (Limits { most_pieces: 1, ..usual }, 2017),
        (Limits { most_pieces: 1, most_processes: 1, ..usual }, 2018),
        (Limits { rules: 2048, ..usual }, 2019),
        (Limits { rules: 1 << 63, ..usual }, 2019),
        (Limits { shmmax: (1 << 24) + 1, rules: rules::LINUX, ..usual }, 2011),
    ];
    for (limits, code) in bad {
        assert_eq!(open(&limits, &area, &[]), Some(code));
    }
    assert_eq!(open(&usual, &[], &[]), Some(2021));
    assert_eq!(open(&usual, &[Area::mirror(0)], &[]), Some(2022));
    let two = [Process::live(1, 0, 0), Process::child(1)];
    assert_eq!(open(&usual, &area, &two), Some(2024));
    assert_eq!(open(&Limits { most_pieces: 1, most_processes: 1, most_slots: 1, ..usual }, &area, &two), Some(2023));
    assert_eq!(open(&usual, &area, &two[1..]), None);
}

#[test]
fn the_version_is_the_librarys() {
    let numbers = env!("CARGO_PKG_VERSION").split('.').map(|number| number.parse::<u32>().expect("a number"));
    assert_eq!(nogcuvema::version(), numbers.fold(0, |sum, number| 100 * sum + number));
}

#[test]
fn processes_come_and_go() {
    let mut machine = machine();
    assert_eq!(machine.admit(Process::live(0, 1, 1)), Err(Errno::ADMIT_BAD_PID));
    assert_eq!(machine.admit(Process::child(1)), Err(Errno::ADMIT_TAKEN));
    assert_eq!(machine.dismiss(1), Err(Errno::DISMISS_LIVE));
    assert_eq!(machine.dismiss(4), Err(Errno::DISMISS_NONE));
    assert_eq!(machine.admit(Process::live(4, 300, 301)), Ok(()));
    machine.set_time(1_700_000_000);
    let id = machine.get(4, PRIVATE, 1, 0o600, 0).unwrap();
    let is = machine.stat(4, id).unwrap();
    assert_eq!((is.uid, is.gid, is.ctime), (300, 301, 1_700_000_000));
    assert_eq!(machine.stat(1, id), Err(Errno::EACCES));
    assert_eq!(machine.set_user(1, 300, 200), Ok(()));
    assert_eq!(machine.stat(1, id), Ok(is));
    assert_eq!(machine.set_user(9, 300, 200), Err(Errno::ESRCH));
    assert_eq!(machine.exit(4), Ok(()));
    assert_eq!(machine.dismiss(4), Ok(()));
    assert_eq!(machine.calls(), 7);
}

const PAGE: u64 = 4096;

#[test]
fn a_range_is_reserved() {
    let mut machine = machine();
    let first = 0x4000_0000;
    let id = machine.get(1, PRIVATE, 2 * PAGE, 0o600, 0).unwrap();
    assert_eq!(machine.reserve(1, first + PAGE, PAGE), Ok(()));
    assert_eq!(machine.attach(1, id, 0, 0), Ok(first + 2 * PAGE));
    assert_eq!(machine.attach(1, id, first + PAGE, 0), Err(Errno::EINVAL));
    assert_eq!(machine.attach(1, id, first, REMAP), Ok(first));
    assert_eq!(machine.reserve(1, first + PAGE, PAGE), Err(Errno::EEXIST));
    assert_eq!(machine.reserve(1, first + 3 * PAGE, PAGE), Err(Errno::EEXIST));
    assert_eq!(machine.reserve(9, first + PAGE, PAGE), Ok(()));
    for (addr, len) in [(first, 0), (first + 1, PAGE), (0, PAGE), (first, 0u64.wrapping_sub(PAGE))] {
        assert_eq!(machine.reserve(1, addr, len), Err(Errno::OUT_OF_RANGE));
    }
    assert_eq!(machine.release(1, first + PAGE, 2 * PAGE), Err(Errno::ENOENT));
    assert_eq!(machine.release(1, first + PAGE, PAGE), Ok(()));
    assert_eq!(machine.release(1, first + PAGE, PAGE), Err(Errno::ENOENT));
    assert_eq!(machine.detach(1, first), Ok(()));
    assert_eq!(machine.attach(1, id, 0, 0), Ok(first));
}

/// A machine in which process 1 has eight pages of a segment attached.
fn attached() -> (Machine, i32, u64) {
    let mut machine = machine();
    let id = machine.get(1, PRIVATE, 8 * PAGE, 0o600, 0).unwrap();
    let at = machine.attach(1, id, 0, 0).unwrap();
    (machine, id, at)
}

#[test]
fn a_range_is_unmapped() {
    let (mut machine, id, at) = attached();
    machine.set_time(500);
    assert_eq!(machine.unmap(1, at + PAGE, PAGE + 1), Ok(()));
    let is = machine.stat(1, id).unwrap();
    assert_eq!((is.nattch, is.dtime, is.lpid), (2, 500, 1));
    assert_eq!(machine.load(1, at + 2 * PAGE, &mut [0]), Err(Errno::SIGSEGV));
    assert_eq!(machine.load(1, at + 3 * PAGE, &mut [0]), Ok(()));
    assert_eq!(machine.unmap(1, at + 1, PAGE), Err(Errno::EINVAL));
    assert_eq!(machine.unmap(1, at, 0), Err(Errno::EINVAL));
    assert_eq!(machine.unmap(3, at, PAGE), Err(Errno::ESRCH));
    assert_eq!(machine.remove(1, id), Ok(()));
    assert_eq!(machine.unmap(1, at, 8 * PAGE), Ok(()));
    assert_eq!(machine.segments(), []);
}

#[test]
fn bytes_are_exchanged_and_copied() {
    let (mut machine, _, at) = attached();
    let mut before = [0; 4];
    assert_eq!(machine.store(1, at, b"abcdefgh"), Ok(()));
    assert_eq!(machine.exchange(1, at + 2, b"wxyz", &mut before), Ok(()));
    assert_eq!(&before, b"cdef");
    assert_eq!(machine.compare_exchange(1, at, b"abwx", b"0123", &mut before), Ok(()));
    assert_eq!(&before, b"abwx");
    assert_eq!(machine.compare_exchange(1, at, b"abwx", b"4567", &mut before), Ok(()));
    assert_eq!(&before, b"0123");
    assert_eq!(machine.exchange(1, at, b"abc", &mut before), Err(Errno::OUT_OF_RANGE));
    assert_eq!(machine.exchange(1, at + 8 * PAGE, b"abcd", &mut before), Err(Errno::SIGSEGV));
    assert_eq!(&before, b"0123");
    assert_eq!(machine.copy(1, at, 1, at + 2, 6), Ok(()));
    let mut found = [0; 8];
    assert_eq!(machine.load(1, at, &mut found), Ok(()));
    assert_eq!(&found, b"010123yz");
    assert_eq!(machine.absent_at(1, at, 2 * PAGE), Some(at + PAGE));
    assert_eq!(machine.absent_at(1, at, PAGE), None);
}

#[test]
fn bytes_are_copied_from_one_process_to_another() {
    let (mut machine, _, at) = attached();
    assert_eq!(machine.store(1, at, b"abcdefgh"), Ok(()));
    let id = machine.get(2, PRIVATE, PAGE, 0o600, 0).unwrap();
    let other = machine.attach(2, id, 0x5000_0000, 0).unwrap();
    let mut found = [0; 8];
    assert_eq!(machine.copy(1, at, 2, other, 6), Ok(()));
    assert_eq!(machine.load(2, other, &mut found), Ok(()));
    assert_eq!(&found, b"abcdef\0\0");
    assert_eq!(machine.copy(2, other + 3, 1, at, 2), Ok(()));
    assert_eq!(machine.load(1, at, &mut found), Ok(()));
    assert_eq!(&found, b"decdefgh");
}

// The numbers are those of Linux on x86-64, in asm-generic/errno-base.h and errno.h.
#[test]
fn each_errno_has_linuxs_number() {
    let numbers = [
        (Errno::EPERM, 1, "EPERM"),
        (Errno::ENOENT, 2, "ENOENT"),
        (Errno::ESRCH, 3, "ESRCH"),
        (Errno::EIO, 5, "EIO"),
        (Errno::EAGAIN, 11, "EAGAIN"),
        (Errno::ENOMEM, 12, "ENOMEM"),
        (Errno::EACCES, 13, "EACCES"),
        (Errno::EEXIST, 17, "EEXIST"),
        (Errno::EINVAL, 22, "EINVAL"),
        (Errno::EMFILE, 24, "EMFILE"),
        (Errno::ENOSPC, 28, "ENOSPC"),
        (Errno::EIDRM, 43, "EIDRM"),
    ];
    for (errno, number, name) in numbers {
        assert_eq!((errno.0, errno.text().as_str()), (number, name));
    }
    assert_eq!((Errno::LENT.0, Errno::LENT.text().as_str()), (2005, "a page on loan is in the way"));
}

#[test]
fn the_second_area_fails_where_it_was_told_to() {
    let failing = Area::ram(16).failing(Failure {
        call: 1,
        is_write: true,
        side: 0,
    });
    let mut machine = Machine::open(&Limits::default(), &[Area::ram(1), failing], &[Process::live(1, 0, 0)]).unwrap();
    let id = machine.get(1, PRIVATE, 3 * 4096, 0o600, 0).unwrap();
    let at = machine.attach(1, id, 0, 0).unwrap();
    for page in 0..3 {
        machine.store(1, at + page * 4096, &[1]).unwrap();
    }
    // the only slot of the first area takes one page; the second area fails at its first write
    let counts = [machine.flush(1), machine.flush(1), machine.flush(2)].map(|it| (it.written, it.failed));
    assert_eq!(counts, [(1, 0), (0, 1), (2, 0)]);
}

// Resident memory of this process in bytes: the second number of /proc/self/statm, in pages.
fn resident() -> usize {
    let said = std::fs::read_to_string("/proc/self/statm").expect("Linux has this file");
    4096 * said.split(' ').nth(1).and_then(|word| word.parse::<usize>().ok()).expect("a number")
}

#[test]
fn a_machine_that_is_dropped_leaves_no_memory() {
    let open = || Machine::open(&Limits::default(), &[Area::ram(512)], &[Process::live(1, 0, 0)]).expect("such a machine opens");
    drop(open());
    let before = resident();
    // each has an area of 2 MB
    for _ in 0..500 {
        drop(open());
    }
    let after = resident();
    assert!(after < before + 200_000_000, "{before} bytes before, {after} after");
}

#[test]
fn a_range_is_protected() {
    let (mut machine, id, at) = attached();
    assert_eq!(machine.protect(1, at + PAGE, PAGE, false), Ok(()));
    assert_eq!(machine.stat(1, id).unwrap().nattch, 3);
    assert_eq!(machine.store(1, at + PAGE, &[1]), Err(Errno::SIGSEGV));
    assert_eq!(machine.failed_at(1, at + PAGE - 4, 8, true), Some(at + PAGE));
    assert_eq!(machine.failed_at(1, at + PAGE - 4, 8, false), None);
    assert_eq!(machine.failed_at(1, at, 9 * PAGE, false), Some(at + 8 * PAGE));
    assert_eq!(machine.absent_at(1, at + 9 * PAGE, 1), None);
    assert_eq!(machine.protect(1, at + PAGE, PAGE, true), Ok(()));
    assert_eq!(machine.store(1, at + PAGE, &[1]), Ok(()));
    let other = machine.attach(1, id, 0, RDONLY).unwrap();
    assert_eq!(machine.protect(1, other, PAGE, true), Err(Errno::EACCES));
    assert_eq!(machine.protect(1, other + 8 * PAGE, PAGE, false), Err(Errno::ENOMEM));
    assert_eq!(machine.protect(1, other + 1, PAGE, false), Err(Errno::EINVAL));
    assert_eq!(machine.protect(3, other, PAGE, false), Err(Errno::ESRCH));
}

#[test]
fn pieces_and_processes_are_listed() {
    let (mut machine, id, at) = attached();
    machine.attach(1, id, 0x20000, RDONLY).unwrap();
    machine.protect(1, at, PAGE, false).unwrap();
    let piece = |base, first_page, pages, is_writable, may_write| Piece {
        base,
        segment: id,
        first_page,
        pages,
        is_writable,
        may_write,
    };
    let all = [piece(0x20000, 0, 8, false, false), piece(at, 0, 1, false, true), piece(at + PAGE, 1, 7, true, true)];
    assert_eq!(machine.pieces(1).unwrap(), all);
    assert_eq!(machine.pieces(2), Ok(vec![]));
    assert_eq!(machine.pieces(3), Err(Errno::ESRCH));
    machine.exit(2).unwrap();
    assert_eq!(machine.processes(), [(1, State::Live { uid: 100, gid: 200 }), (2, State::Ended), (3, State::Unborn)]);
}

#[test]
fn sums_and_what_a_process_may_see() {
    let (mut machine, id, at) = attached();
    let other = machine.get(2, PRIVATE, 1, 0o600, 0).unwrap();
    machine.write(1, at, &[1; 2 * PAGE as usize]).unwrap();
    let calls = machine.calls();
    let sums = Usage { used_ids: 2, pages: 9, resident: 2, swapped: 0, highest: 1 };
    assert_eq!(machine.info(), sums);
    assert_eq!(machine.stat_at(1, 0).unwrap().id, id);
    assert_eq!(machine.stat_at(1, 1), Err(Errno::EACCES));
    assert_eq!(machine.stat_at(2, 1).unwrap().id, other);
    assert_eq!(machine.stat_at(1, 2), Err(Errno::EINVAL));
    assert_eq!(machine.stat_at(3, 0), Err(Errno::ESRCH));
    assert_eq!(machine.calls(), calls);
}

#[test]
fn a_snapshot_goes_on_alone() {
    let (mut machine, id, at) = attached();
    machine.store(1, at, b"before").unwrap();
    let mut saved = machine.snapshot().unwrap();
    assert_eq!((saved.tally(), saved.segments(), saved.calls()), (machine.tally(), machine.segments(), machine.calls()));
    machine.store(1, at, b"behind").unwrap();
    machine.exit(1).unwrap();
    assert_eq!((machine.stat(2, id).unwrap().nattch, saved.stat(2, id).unwrap().nattch), (0, 1));
    drop(machine);
    let mut bytes = [0; 6];
    saved.load(1, at, &mut bytes).unwrap();
    assert_eq!(&bytes, b"before");
}

// A machine of two frames, a segment of four pages that process 1 has attached, and its first bytes.
fn with_two_frames(area: Area) -> (Machine, i32, u64) {
    let limits = Limits {
        frames: 2,
        memlock: 0,
        ..Limits::default()
    };
    let mut machine = Machine::open(&limits, &[area], &[Process::live(1, 100, 200)]).expect("such a machine opens");
    let id = machine.get(1, PRIVATE, 4 * PAGE_BYTES as u64, 0o600, 0).expect("a segment");
    let at = machine.attach(1, id, 0, 0).expect("an attachment");
    machine.store(1, at, b"before").expect("a store");
    (machine, id, at)
}

fn first_bytes(machine: &mut Machine, at: u64) -> [u8; 6] {
    let mut bytes = [0; 6];
    machine.load(1, at, &mut bytes).expect("a load");
    bytes
}

#[test]
fn a_page_on_loan_comes_back_with_its_bytes() {
    let (mut machine, id, at) = with_two_frames(Area::ram(64));
    let (mut bytes, calls) = ([9; PAGE_BYTES], machine.calls());
    let loan = machine.lend(id, 0, &mut bytes).expect("a loan");
    assert_eq!((&bytes[..7], &bytes[7..], loan.segment(), loan.page()), (&b"before\0"[..], &[0; PAGE_BYTES - 7][..], id, 0));
    assert_eq!(machine.load(1, at, &mut [0]), Err(Errno::LENT));
    assert_eq!(machine.lend(id, 0, &mut [0; PAGE_BYTES]).err(), Some(Errno::LENT));
    assert_eq!(machine.snapshot().err(), Some(Errno::LENT));
    bytes[..6].copy_from_slice(b"behind");
    assert_eq!(loan.give_back(&mut machine, &bytes), Ok(()));
    assert_eq!((machine.calls(), machine.tally().dirty), (calls, 1));
    assert_eq!(&first_bytes(&mut machine, at), b"behind");
    assert!(machine.snapshot().is_ok());
}

#[test]
fn a_loan_that_is_dropped_gives_back_what_was_lent() {
    let (mut machine, id, at) = with_two_frames(Area::ram(64));
    machine.flush(2);
    let mut bytes = [0; PAGE_BYTES];
    let loan = machine.lend(id, 0, &mut bytes).expect("a loan");
    assert_eq!(machine.frame_at(0).map(|it| it.is_lent), Some(true));
    bytes[0] = 1;
    drop(loan);
    assert_eq!(machine.frame_at(0).map(|it| (it.is_lent, it.is_dirty)), Some((false, false)));
    assert_eq!(&first_bytes(&mut machine, at), b"before");
    // also on another thread, and after its machine
    let loan = machine.lend(id, 0, &mut bytes).expect("a loan");
    std::thread::spawn(move || drop(loan)).join().expect("the thread ends");
    let loan = machine.lend(id, 0, &mut bytes).expect("it is back");
    drop(machine);
    drop(loan);
}

#[test]
fn the_leaver_comes_back_and_leaves() {
    let (mut machine, id, _) = with_two_frames(Area::ram(64));
    let mut bytes = [0; PAGE_BYTES];
    assert_eq!(machine.leaver(), None);
    let first = machine.lend(id, 0, &mut bytes).expect("a loan");
    let second = machine.lend(id, 1, &mut bytes).expect("a loan");
    let frame = |page, is_referenced, is_dirty| Frame {
        segment: id,
        page,
        is_referenced,
        is_dirty,
        is_lent: true,
        is_locked: false,
    };
    assert_eq!(machine.leaver(), Some(frame(0, true, true)));
    assert_eq!(machine.lend(id, 2, &mut bytes).err(), Some(Errno::LENT));
    drop(first);
    let third = machine.lend(id, 2, &mut bytes).expect("a loan");
    let shown: Vec<_> = (0..3).map(|place| machine.frame_at(place)).collect();
    assert_eq!(shown, [Some(frame(1, false, false)), Some(frame(2, true, false)), None]);
    drop((second, third));
}

#[test]
fn loans_that_are_refused() {
    let (mut machine, id, at) = with_two_frames(Area::ram(64));
    let (mut other, _, _) = with_two_frames(Area::ram(64));
    let mut bytes = [0; PAGE_BYTES];
    assert_eq!(machine.lend(99, 0, &mut bytes).err(), Some(Errno::EINVAL));
    assert_eq!(machine.lend(-1, 0, &mut bytes).err(), Some(Errno::EINVAL));
    assert_eq!(machine.lend(id, 4, &mut bytes).err(), Some(Errno::OUT_OF_RANGE));
    assert_eq!(machine.bad_number().map(ToString::to_string).as_deref(), Some("page 4 is not from 0 to 3"));
    // a loan of another machine goes home unchanged
    let loan = machine.lend(id, 0, &mut bytes).expect("a loan");
    assert_eq!(loan.give_back(&mut other, &[7; PAGE_BYTES]), Err(Errno::EINVAL));
    assert_eq!(&first_bytes(&mut machine, at), b"before");
    // the end of a segment ends its loans
    let (first, second) = (machine.lend(id, 0, &mut bytes).expect("a loan"), machine.lend(id, 1, &mut bytes).expect("a loan"));
    machine.remove(1, id).expect("it is marked");
    machine.detach(1, at).expect("it is destroyed");
    assert_eq!(first.give_back(&mut machine, &bytes), Err(Errno::EINVAL));
    drop(second);
    assert!(machine.snapshot().is_ok());
    // a swap area fails
    let (mut machine, id, at) = with_two_frames(Area::ram(64).failing(Failure {
        call: 1,
        is_write: false,
        side: 0,
    }));
    for page in 1..3 {
        machine.store(1, at + page * PAGE_BYTES as u64, b"x").expect("a store");
    }
    assert_eq!(machine.lend(id, 0, &mut bytes).err(), Some(Errno::SIGBUS));
    assert!(machine.lend(id, 0, &mut bytes).is_ok());
    assert_eq!(&bytes[..6], b"before");
}

#[test]
fn an_address_shows_a_page() {
    let (mut machine, id, at) = with_two_frames(Area::ram(64));
    let page = PAGE_BYTES as u64;
    machine.protect(1, at + page, page, false).expect("it is protected");
    let shown = |page, is_writable| ShownPage {
        segment: id,
        page,
        is_writable,
    };
    assert_eq!(machine.page_at(1, at), Ok(shown(0, true)));
    assert_eq!(machine.page_at(1, at + 2 * page - 1), Ok(shown(1, false)));
    assert_eq!(machine.page_at(1, at + 4 * page), Err(Errno::SIGSEGV));
    assert_eq!(machine.page_at(2, at), Err(Errno::ESRCH));
}

#[test]
fn questions_about_pieces_and_segments() {
    let (mut machine, id, at) = with_two_frames(Area::ram(64));
    let (page, calls) = (PAGE_BYTES as u64, machine.calls());
    machine.protect(1, at + page, page, false).expect("it is protected");
    let pieces = machine.pieces(1).expect("the pieces");
    assert_eq!((machine.piece_of(1, at + page - 1), machine.piece_of(1, at + page)), (Ok(pieces[0]), Ok(pieces[1])));
    assert_eq!(machine.piece_of(1, at + 4 * page), Err(Errno::SIGSEGV));
    assert_eq!(machine.piece_of(2, at), Err(Errno::ESRCH));
    machine.store(1, at + 2 * page, b"x").expect("a store");
    machine.store(1, at + 3 * page, b"x").expect("a store");
    assert_eq!(machine.pages_of(id), Ok(SegmentPages { resident: 2, swapped: 1 }));
    assert_eq!(machine.pages_of(id + 1), Err(Errno::EINVAL));
    assert_eq!(machine.segment_of(id), Ok(machine.segments()[0]));
    assert_eq!(machine.segment_of(id + 1), Err(Errno::EINVAL));
    let loan = machine.lend(id, 3, &mut [0; PAGE_BYTES]).expect("a loan");
    assert_eq!(machine.loans(), 1);
    drop(loan);
    assert_eq!((machine.loans(), machine.calls()), (0, calls + 3));
}

#[test]
fn destroyed_segments_are_named_once() {
    let (mut machine, id, at) = with_two_frames(Area::ram(64));
    let made: Vec<_> = (0..3).map(|_| machine.get(1, PRIVATE, 1, 0o600, 0).expect("a segment")).collect();
    assert_eq!(machine.gone(), []);
    for segment in [made[2], made[0], id] {
        machine.remove(1, segment).expect("it is removed");
    }
    assert_eq!(machine.gone(), [made[0], made[2]]);
    assert_eq!(machine.segment_of(made[2]), Err(Errno::EIDRM));
    let mut copy = machine.snapshot().expect("a snapshot");
    machine.detach(1, at).expect("it is destroyed");
    assert_eq!((machine.gone(), machine.gone(), copy.gone()), (vec![id], vec![], vec![]));
}

#[test]
fn changes_of_pieces_are_counted() {
    let (mut machine, _, at) = with_two_frames(Area::ram(64));
    let (count, other) = (machine.changes(1), machine.changes(2));
    machine.store(1, at, b"x").expect("a store");
    assert_eq!(machine.changes(1), count);
    machine.protect(1, at, PAGE_BYTES as u64, false).expect("it is protected");
    machine.detach(1, at).expect("it is detached");
    assert_eq!((machine.changes(1), machine.changes(2)), (count + 2, other));
}

#[test]
fn a_swap_area_is_added() {
    let (mut machine, _, _) = with_two_frames(Area::ram(64));
    machine.swapon(&Area::ram(7)).expect("it is added");
    assert_eq!(machine.tally().slots, 71);
    assert!(machine.swapon(&Area::ram(0)).is_err());
}

// Loads of four pages, for which there are two frames; how many of them end in SIGBUS.
fn failed_loads(machine: &mut Machine, at: u64) -> usize {
    (0..4)
        .filter(|page| machine.load(1, at + page * PAGE_BYTES as u64, &mut [0]) == Err(Errno::SIGBUS))
        .count()
}

#[test]
fn a_running_area_fails() {
    let (mut machine, id, at) = with_two_frames(Area::ram(64));
    for page in 0..4 {
        machine.store(1, at + page * PAGE_BYTES as u64, b"x").expect("a store");
    }
    machine.flush(4);
    let next = Failure {
        call: 1,
        is_write: false,
        side: 0,
    };
    machine.fail(0, &next, false).expect("it is added");
    assert_eq!((failed_loads(&mut machine, at), failed_loads(&mut machine, at)), (1, 0));
    for (area, failure) in [(1, next), (0, Failure { side: 1, ..next }), (0, Failure { call: 0, ..next })] {
        assert_eq!(machine.fail(area, &failure, false), Err(Errno::OUT_OF_RANGE));
    }
    machine.fail_page(id, 0).expect("the page has a slot");
    let fresh = machine.get(1, PRIVATE, 1, 0o600, 0).expect("a segment");
    assert_eq!(machine.fail_page(fresh, 0), Err(Errno::ENOENT));
    assert_eq!(machine.fail_page(id, 4), Err(Errno::OUT_OF_RANGE));
    assert_eq!(machine.fail_page(-1, 0), Err(Errno::EINVAL));
    machine.fail(0, &next, true).expect("it is added");
    // The first failure left a frame free.
    assert_eq!((failed_loads(&mut machine, at), failed_loads(&mut machine, at)), (3, 3));
}

#[test]
fn limits_change_while_the_machine_runs() {
    let (mut machine, _, _) = with_two_frames(Area::ram(64));
    let before = machine.limits();
    assert_eq!((before.frames, before.most_pieces, before.most_slots), (2, 256, 65536));
    assert_eq!(machine.set_limits(4096, 1, 4, 0), Ok(()));
    let wanted = Limits {
        shmmax: 4096,
        shmmni: 1,
        shmall: 4,
        memlock: 0,
        ..before
    };
    assert_eq!(machine.limits(), wanted);
    assert_eq!(machine.get(1, PRIVATE, 4097, 0o600, 0), Err(Errno::EINVAL));
    assert_eq!(machine.get(1, PRIVATE, 1, 0o600, 0), Err(Errno::ENOSPC));
    assert_eq!(machine.set_limits(0, 0, 0, 9), Err(Errno(2011)));
    assert_eq!(machine.set_limits(1, 1, 3, 9), Err(Errno(2015)));
    assert_eq!(machine.set_limits(1, 1, 3, 0), Err(Errno(2013)));
    assert_eq!(machine.limits(), wanted);
}

fn machine_by(rules: u64) -> Machine {
    let limits = Limits { rules, ..Limits::default() };
    let processes = [Process::live(1, 100, 200), Process::live(2, 0, 0), Process::child(3), Process::live(4, 300, 300)];
    Machine::open(&limits, &[Area::ram(64)], &processes).expect("such a machine opens")
}

/// In the profile, by one rule, and by all.
fn each(rule: u64) -> [(Machine, bool); 3] {
    [0, rule, rules::LINUX].map(|number| (machine_by(number), number != 0))
}

fn by<T>(holds: bool, rule: T, profile: T) -> T {
    if holds {
        rule
    } else {
        profile
    }
}

#[test]
fn a_destroyed_segment_is_invalid() {
    for (mut machine, holds) in each(rules::REMOVED_IS_INVALID) {
        let id = machine.get(1, PRIVATE, 1, 0o600, 0).unwrap();
        machine.remove(1, id).unwrap();
        assert_eq!(machine.stat(1, id), Err(by(holds, Errno::EINVAL, Errno::EIDRM)));
    }
}

#[test]
fn execution_is_asked_for() {
    for (mut machine, holds) in each(rules::EXECUTE_IS_ASKED | rules::EXEC_IS_ASKED) {
        let id = machine.get(1, 7, 1, 0o600, CREAT).unwrap();
        assert_eq!(machine.get(1, 7, 1, 0o100, 0), by(holds, Err(Errno::EACCES), Ok(id)));
        assert_eq!(machine.attach(1, id, 0, EXEC), by(holds, Err(Errno::EACCES), Ok(0x4000_0000)));
        assert_eq!(machine.attach(2, id, 0, EXEC), Ok(0x4000_0000));
    }
}

#[test]
fn huge_pages_are_refused() {
    for (mut machine, holds) in each(rules::HUGE_IS_REFUSED) {
        assert_eq!(machine.get(1, PRIVATE, 1, 0o600, HUGETLB), by(holds, Err(Errno::EPERM), Ok(0)));
        assert_eq!(machine.get(2, PRIVATE, 1, 0o600, HUGETLB), by(holds, Err(Errno::ENOMEM), Ok(1)));
        assert_eq!(machine.get(2, PRIVATE, 1, 0o600, HUGETLB | NORESERVE), Ok(by(holds, 0, 2)));
    }
}

#[test]
fn addresses_out_of_range_are_named() {
    for (mut machine, holds) in each(rules::LOW_IS_EPERM | rules::END_IS_ENOMEM) {
        let id = machine.get(1, PRIVATE, 1, 0o600, 0).unwrap();
        assert_eq!(machine.attach(1, id, 0x1000, 0), Err(by(holds, Errno::EPERM, Errno::EINVAL)));
        assert_eq!(machine.attach(1, id, 0x7fff_ffff_f000, 0), Err(by(holds, Errno::ENOMEM, Errno::EINVAL)));
    }
}

#[test]
fn the_last_user_owns_nothing() {
    for (mut machine, holds) in each(rules::NO_LAST_USER) {
        let id = machine.get(1, PRIVATE, 1, 0o600, 0).unwrap();
        assert_eq!(machine.set(1, id, u32::MAX, 100, 0o600), by(holds, Err(Errno::EINVAL), Ok(())));
    }
}

#[test]
fn each_user_has_a_limit_of_locks() {
    for (mut machine, holds) in each(rules::LOCKS_BY_USER) {
        let id = machine.get(1, PRIVATE, 1, 0o600, 0).unwrap();
        let other = machine.get(4, PRIVATE, 1, 0o600, 0).unwrap();
        assert_eq!(machine.lock(1, id), Ok(()));
        assert_eq!(machine.lock(4, other), by(holds, Ok(()), Err(Errno::ENOMEM)));
    }
}

#[test]
fn too_many_pieces_are_no_memory() {
    for (mut machine, holds) in each(rules::PIECES_ARE_ENOMEM) {
        let id = machine.get(1, PRIVATE, 1, 0o600, 0).unwrap();
        for _ in 0..256 {
            machine.attach(1, id, 0, 0).unwrap();
        }
        assert_eq!(machine.attach(1, id, 0, 0), Err(by(holds, Errno::ENOMEM, Errno::EMFILE)));
    }
}

#[test]
fn a_fork_and_a_cut_attach_anew() {
    for (mut machine, holds) in each(rules::FORK_MARKS | rules::REST_IS_ATTACHED) {
        let id = machine.get(1, PRIVATE, 2 * PAGE, 0o600, 0).unwrap();
        let at = machine.attach(1, id, 0, 0).unwrap();
        machine.fork(1, 3).unwrap();
        assert_eq!(machine.stat(1, id).unwrap().atime, by(holds, 3, 2));
        machine.protect(1, at, PAGE, false).unwrap();
        assert_eq!(machine.stat(1, id).unwrap().atime, by(holds, 5, 2));
        machine.unmap(3, at, PAGE).unwrap();
        assert_eq!(machine.stat(1, id).unwrap().atime, by(holds, 7, 2));
    }
}

#[test]
fn a_number_of_an_opening_is_named_with_its_range() {
    let usual = Limits::default();
    let larger = Limits { most_pieces: 1, most_processes: 2, most_slots: 3, ..usual };
    let area = [Area::ram(1)];
    let told = |limits: &Limits, areas: &[Area], processes: &[Process]| {
        // the code is that of the plain opening
        let (plain, named) = (Machine::open(limits, areas, processes).err(), Machine::open_explained(limits, areas, processes).err());
        assert_eq!(plain, named.as_ref().map(|it| it.errno));
        named.map(|it| it.to_string())
    };
    let limits = [
        (Limits { shmmax: 0, ..usual }, "bad limits: SHMMAX: shmmax 0 is not from 1 to 16777216"),
        (Limits { shmmax: (1 << 40) + 1, ..larger }, "bad limits: SHMMAX: shmmax 1099511627777 is not from 1 to 1099511627776"),
        (Limits { shmmni: 4097, ..usual }, "bad limits: SHMMNI: shmmni 4097 is not from 1 to 4096"),
        (Limits { shmmni: 32769, ..larger }, "bad limits: SHMMNI: shmmni 32769 is not from 1 to 32768"),
        (Limits { shmall: 65537, ..usual }, "bad limits: SHMALL: shmall 65537 is not from 1 to 65536"),
        (Limits { shmall: (1 << 28) + 1, ..larger }, "bad limits: SHMALL: shmall 268435457 is not from 1 to 268435456"),
        (Limits { frames: 1, ..usual }, "bad limits: frames: frames 1 is not from 2 to 4096"),
        (Limits { frames: (1 << 24) + 1, ..larger }, "bad limits: frames: frames 16777217 is not from 2 to 16777216"),
        (Limits { frames: 7, memlock: 6, ..usual }, "bad limits: MEMLOCK: memlock 6 is not from 0 to 5"),
        (Limits { most_pieces: 65531, ..larger }, "bad limits: the most pieces of a process: most_pieces 65531 is not from 1 to 65530"),
        (Limits { most_processes: 0, ..larger }, "bad limits: the most processes: most_processes 0 is not from 1 to 32768"),
        (Limits { most_slots: (1 << 28) + 1, ..larger }, "bad limits: the most slots of a swap area: most_slots 268435457 is not from 1 to 268435456"),
        (Limits { rules: 2048, ..usual }, "bad limits: the rules: rules 2048 is not from 0 to 2047"),
    ];
    for (limits, wanted) in limits {
        assert_eq!(told(&limits, &area, &[]).as_deref(), Some(wanted));
    }
    let read = |call, side| Failure { call, is_write: false, side };
    let areas: [(&Limits, Vec<Area>, &str); 8] = [
        (&usual, vec![], "start refused: not 1 to 8 swap areas: the number of areas 0 is not from 1 to 8"),
        (&usual, vec![Area::ram(1); 9], "start refused: not 1 to 8 swap areas: the number of areas 9 is not from 1 to 8"),
        (&usual, vec![Area::ram(1), Area::ram(0)], "start refused: a swap area without slots, or with too many: areas[1]: slots 0 is not from 1 to 65536"),
        (&usual, vec![Area::ram(65537)], "start refused: a swap area without slots, or with too many: areas[0]: slots 65537 is not from 1 to 65536"),
        (&larger, vec![Area::ram(4)], "start refused: a swap area without slots, or with too many: areas[0]: slots 4 is not from 1 to 3"),
        (&usual, vec![Area::ram(1).failing(read(1, 0)).failing(read(0, 0))],
         "a number that no call can carry: areas[0]: failures[1]: call 0 is not from 1 to 18446744073709551615"),
        (&usual, vec![Area::ram(1).failing(read(1, 1))], "a number that no call can carry: areas[0]: failures[0]: side 1 is not from 0 to 0"),
        (&usual, vec![Area::ram(1), Area::mirror(1).failing(read(1, 2))],
         "a number that no call can carry: areas[1]: failures[0]: side 2 is not from 0 to 1"),
    ];
    for (limits, areas, wanted) in areas {
        assert_eq!(told(limits, &areas, &[]).as_deref(), Some(wanted));
    }
    let many: Vec<Process> = (1..=65).map(|pid| Process::live(pid, 0, 0)).collect();
    let processes: [(&Limits, &[Process], &str); 5] = [
        (&usual, &many, "start refused: too many processes: the number of processes 65 is not from 0 to 64"),
        (&larger, &many[..3], "start refused: too many processes: the number of processes 3 is not from 0 to 2"),
        (&usual, &[Process::child(0)], "start refused: a pid out of range, or twice: pid 0 is not from 1 to 2147483647"),
        (&usual, &[Process::live(1 << 31, 0, 0)], "start refused: a pid out of range, or twice: pid 2147483648 is not from 1 to 2147483647"),
        (&usual, &[Process::child(7), Process::live(7, 0, 0)], "start refused: a pid out of range, or twice"),
    ];
    for (limits, processes, wanted) in processes {
        assert_eq!(told(limits, &area, processes).as_deref(), Some(wanted));
    }
    // the error of an opening can be used as that of a call
    let as_call = || -> Result<Machine, Errno> { Ok(Machine::open_explained(&Limits { frames: 1, ..usual }, &area, &[])?) };
    assert_eq!(as_call().err(), Some(Errno(2014)));
}

#[test]
fn a_number_of_a_call_is_named_with_its_range() {
    let mut machine = machine();
    let id = machine.get(1, PRIVATE, 4096, 0o600, 0).unwrap();
    let at = machine.attach(1, id, 0, 0).unwrap();
    let before = machine.calls();
    assert_eq!(machine.bad_number(), None);
    type Call = fn(&mut Machine, u64) -> Result<(), Errno>;
    let calls: [(Call, &str); 11] = [
        (|m, _| m.get(1, PRIVATE, 1, 0o1000, 0).map(drop), "mode 0o1000 is not from 0o0 to 0o777"),
        (|m, _| m.get(1, PRIVATE, 1, 0o600, 65536).map(drop), "flags 65536 is not from 0 to 65535"),
        (|m, _| m.attach(1, 0, 0, 65536).map(drop), "flags 65536 is not from 0 to 65535"),
        (|m, _| m.set(1, 0, 0, 0, 65536), "mode 0o200000 is not from 0o0 to 0o177777"),
        (|m, at| m.load(1, at, &mut []), "length 0 is not from 1 to 64"),
        (|m, at| m.load(1, at, &mut [0; 65]), "length 65 is not from 1 to 64"),
        (|m, at| m.store(1, at, &[0; 65]), "length 65 is not from 1 to 64"),
        (|m, at| m.exchange(1, at, &[], &mut []), "length 0 is not from 1 to 64"),
        (|m, at| m.exchange(1, at, b"abc", &mut [0; 2]), "length of before 2 is not from 3 to 3"),
        (|m, at| m.compare_exchange(1, at, b"ab", b"abc", &mut [0; 3]), "length of expected 2 is not from 3 to 3"),
        (|m, at| m.compare_exchange(1, at, b"abc", b"abc", &mut [0; 4]), "length of before 4 is not from 3 to 3"),
    ];
    for (call, wanted) in calls {
        assert_eq!(call(&mut machine, at), Err(Errno::OUT_OF_RANGE), "{wanted}");
        assert_eq!(machine.bad_number().map(|it| it.to_string()).as_deref(), Some(wanted));
    }
    assert_eq!(machine.calls(), before);
    // the largest that are taken
    assert!(machine.get(1, PRIVATE, 1, 0o777, 65535 & !HUGETLB).is_ok());
    assert!(machine.store(1, at, &[0; 64]).is_ok());
}
