//! System V shared memory as a library: `shmget`, `shmat`, `shmdt` and `shmctl` over simulated processes, page frames and
//! swap areas, each call with the exact reply of POSIX.1-2017 and the Linux manual pages.
//!
//! This crate wraps the C library, whose functions are proved. The wrapper itself is tested, not proved.
//!
//! ```no_run
//! use nogcuvema::{Area, Limits, Machine, Process};
//!
//! let mut machine = Machine::open(&Limits::default(), &[Area::ram(64)], &[Process::live(1, 100, 100)])?;
//! let id = machine.get(1, nogcuvema::PRIVATE, 8192, 0o600, 0)?;
//! let at = machine.attach(1, id, 0, 0)?;
//! machine.store(1, at + 4094, b"seam")?;
//! # Ok::<(), nogcuvema::Error>(())
//! ```
#![warn(missing_docs)]
pub mod raw;

use std::fmt;
use std::marker::PhantomData;
use std::ops::Deref;
use std::ptr::{null, null_mut};
use std::sync::atomic::{AtomicBool, Ordering};
use std::sync::{Arc, Mutex, PoisonError};

pub use raw::{Flushed, Segment, Tally, Usage};

/// The bytes of a page.
pub const PAGE_BYTES: usize = 4096;
const MOST_FLAGS: u64 = 65535;
const INDEXES: i32 = 32768;
const MOST_BYTES: u64 = 64;
const MIRROR: u32 = 3;

/// `IPC_PRIVATE`: [`Machine::get`] always makes a segment.
pub const PRIVATE: u32 = 0;
/// `IPC_CREAT`, for [`Machine::get`].
pub const CREAT: u32 = 512;
/// `IPC_EXCL`, for [`Machine::get`].
pub const EXCL: u32 = 1024;
/// `SHM_HUGETLB`, for [`Machine::get`]: it has an effect only under [`rules::HUGE_IS_REFUSED`].
pub const HUGETLB: u32 = 2048;
/// `SHM_NORESERVE`, for [`Machine::get`]: it has an effect only with [`HUGETLB`].
pub const NORESERVE: u32 = 4096;
/// `SHM_RDONLY`, for [`Machine::attach`].
pub const RDONLY: u32 = 4096;
/// `SHM_RND`, for [`Machine::attach`].
pub const RND: u32 = 8192;
/// `SHM_REMAP`, for [`Machine::attach`].
pub const REMAP: u32 = 16384;
/// `SHM_EXEC`, for [`Machine::attach`]: it has an effect only under [`rules::EXEC_IS_ASKED`].
pub const EXEC: u32 = 32768;
/// In [`Segment::status`]: the segment is marked for removal, and its last detach destroys it.
pub const DEST: u32 = 512;
/// In [`Segment::status`]: the segment's pages stay in their frames.
pub const LOCKED: u32 = 1024;

/// Rules of Linux that differ from this project's profile, for [`Limits::rules`]. `docs/MACHINE.md` describes each.
pub mod rules {
    /// EINVAL instead of EIDRM.
    pub const REMOVED_IS_INVALID: u64 = 1;
    /// [`get`](crate::Machine::get) of an existing segment: an execute bit of the mode needs execute permission,
    /// otherwise EACCES.
    pub const EXECUTE_IS_ASKED: u64 = 2;
    /// A fork sets the attach time and the last pid of each segment that the child inherits.
    pub const FORK_MARKS: u64 = 4;
    /// The rest of a piece that is cut, and a part with another protection, get an attach time.
    pub const REST_IS_ATTACHED: u64 = 8;
    /// [`attach`](crate::Machine::attach): ENOMEM for a range that ends above `0x7ffffffff000`.
    pub const END_IS_ENOMEM: u64 = 16;
    /// [`attach`](crate::Machine::attach): EPERM below `0x10000` for all but user 0.
    pub const LOW_IS_EPERM: u64 = 32;
    /// [`set`](crate::Machine::set): EINVAL for user or group 2^32 - 1.
    pub const NO_LAST_USER: u64 = 64;
    /// [`attach`](crate::Machine::attach): ENOMEM instead of EMFILE, and whenever a process has as many pieces as are allowed.
    pub const PIECES_ARE_ENOMEM: u64 = 128;
    /// [`lock`](crate::Machine::lock): `memlock` is a limit for each user except 0; EPERM if it is 0.
    pub const LOCKS_BY_USER: u64 = 256;
    /// [`attach`](crate::Machine::attach): [`EXEC`](crate::EXEC) needs execute permission, otherwise EACCES.
    pub const EXEC_IS_ASKED: u64 = 512;
    /// [`get`](crate::Machine::get): with [`HUGETLB`](crate::HUGETLB) EPERM, or ENOMEM for user 0 and group 0.
    pub const HUGE_IS_REFUSED: u64 = 1024;
    /// All of them.
    pub const LINUX: u64 = 2047;
}

/// Why a call failed. The number is that of the C header: Linux's number of an errno, 1007 for SIGBUS, 1011 for SIGSEGV,
/// and from 2001 on the codes that are not for a guest.
#[derive(Clone, Copy, PartialEq, Eq, Hash)]
pub struct Errno(pub u32);

/// The same type, under the usual name in Rust.
pub type Error = Errno;

macro_rules! codes {
    ($($(#[$about:meta])* $name:ident = $number:literal;)*) => {
        impl Errno {
            $($(#[$about])* pub const $name: Errno = Errno($number);)*
        }
    };
}

codes! {
    /// The caller may not do this.
    EPERM = 1;
    /// No segment has the key.
    ENOENT = 2;
    /// The caller is not a live process.
    ESRCH = 3;
    /// A swap area failed at [`Machine::swapoff`].
    EIO = 5;
    /// No unborn child has the pid.
    EAGAIN = 11;
    /// There is no room for the pages, or for the lock.
    ENOMEM = 12;
    /// The permission bits do not allow it.
    EACCES = 13;
    /// A segment with the key already exists.
    EEXIST = 17;
    /// An argument is not valid for the call.
    EINVAL = 22;
    /// The process has too many attachments, or parts of them.
    EMFILE = 24;
    /// There are too many segments, or pages.
    ENOSPC = 28;
    /// The segment was removed.
    EIDRM = 43;
    /// A swap area failed while a page was brought in.
    SIGBUS = 1007;
    /// Nothing is attached there, or it may not be written.
    SIGSEGV = 1011;
    /// The program is out of memory.
    NO_MEMORY = 2001;
    /// A number that does not fit the call's parameter.
    OUT_OF_RANGE = 2003;
    /// 2^64 - 1 calls were counted.
    SPENT = 2004;
    /// A page on loan is in the way: the one that is needed, or the one that would have to leave its frame.
    LENT = 2005;
    /// [`Machine::admit`]: the pid is 0, or above 2147483647.
    ADMIT_BAD_PID = 2031;
    /// [`Machine::admit`]: the pid is that of a live process, or of a child that is not born.
    ADMIT_TAKEN = 2032;
    /// [`Machine::admit`]: there are as many processes as the limits allow.
    ADMIT_MANY = 2033;
    /// [`Machine::dismiss`]: no process has the pid.
    DISMISS_NONE = 2041;
    /// [`Machine::dismiss`]: the process is live.
    DISMISS_LIVE = 2042;
}

impl Errno {
    /// The text of the code, for example `EINVAL`.
    pub fn text(self) -> String {
        let mut bytes = [0_u8; 128];
        let mut len = 0;
        // SAFETY: the buffer has the length that is passed, and `len` is a place for a number.
        match unsafe { raw::nog_text(self.0, bytes.as_mut_ptr(), bytes.len(), &mut len) } {
            0 => String::from_utf8_lossy(&bytes[..len.min(bytes.len() - 1)]).into_owned(),
            _ => format!("code {}", self.0),
        }
    }
}

impl fmt::Display for Errno {
    fn fmt(&self, out: &mut fmt::Formatter<'_>) -> fmt::Result {
        out.write_str(&self.text())
    }
}

impl fmt::Debug for Errno {
    fn fmt(&self, out: &mut fmt::Formatter<'_>) -> fmt::Result {
        write!(out, "Errno({}, {})", self.0, self.text())
    }
}

impl std::error::Error for Errno {}

/// A number that can't be taken, with the range that it must have.
#[derive(Clone, Debug, PartialEq, Eq)]
pub struct BadNumber {
    /// What it is, for example `shmmax`, `flags` or `areas[1]: slots`.
    pub name: String,
    /// The number.
    pub value: u64,
    /// The least number that can be taken.
    pub least: u64,
    /// The most.
    pub most: u64,
}

impl BadNumber {
    fn of(name: impl Into<String>, value: u64, least: u64, most: u64) -> BadNumber {
        BadNumber {
            name: name.into(),
            value,
            least,
            most,
        }
    }
}

impl fmt::Display for BadNumber {
    fn fmt(&self, out: &mut fmt::Formatter<'_>) -> fmt::Result {
        let BadNumber { name, value, least, most } = self;
        if name == "mode" {
            return write!(out, "mode 0o{value:o} is not from 0o{least:o} to 0o{most:o}");
        }
        write!(out, "{name} {value} is not from {least} to {most}")
    }
}

impl std::error::Error for BadNumber {}

/// Why [`Machine::open_explained`] opened no machine: the code, and the number that is wrong, with its range. It can be used as an [`Errno`].
#[derive(Clone, Debug, PartialEq, Eq)]
pub struct Unopened {
    /// The code of the C header: 2011 to 2019, 2021 to 2024, [`Errno::OUT_OF_RANGE`] or [`Errno::NO_MEMORY`].
    pub errno: Errno,
    /// The number that is wrong; none if a pid is given twice, or there was no memory.
    pub number: Option<BadNumber>,
}

impl fmt::Display for Unopened {
    fn fmt(&self, out: &mut fmt::Formatter<'_>) -> fmt::Result {
        match &self.number {
            Some(number) => write!(out, "{}: {number}", self.errno),
            None => write!(out, "{}", self.errno),
        }
    }
}

impl std::error::Error for Unopened {}

impl From<Unopened> for Errno {
    fn from(unopened: Unopened) -> Errno {
        unopened.errno
    }
}

impl Deref for Unopened {
    type Target = Errno;

    fn deref(&self) -> &Errno {
        &self.errno
    }
}

impl PartialEq<Errno> for Unopened {
    fn eq(&self, other: &Errno) -> bool {
        self.errno == *other
    }
}

/// The result of a call, or why it failed.
pub type Answer<T> = Result<T, Errno>;

fn done(code: u32) -> Answer<()> {
    match code {
        0 => Ok(()),
        code => Err(Errno(code)),
    }
}

/// The limits of a machine; a page has 4096 bytes. If the last three are 0, the machine has the profile's limits: 256, 64 and
/// 65536 in their place, and the first five have the narrower of the ranges below. Otherwise each has the wider range.
#[derive(Clone, Copy, Debug, PartialEq, Eq)]
pub struct Limits {
    /// The most bytes of a segment, 1 to 2^24, or to 2^40.
    pub shmmax: u64,
    /// The most segments, 1 to 4096, or to 32768.
    pub shmmni: u64,
    /// The most pages of all segments together, 1 to 65536, or to 2^28.
    pub shmall: u64,
    /// Page frames, 2 to 4096, or to 2^24: the most pages in memory at once.
    pub frames: u64,
    /// The most pages of locked segments, 0 to `frames` - 2.
    pub memlock: u64,
    /// The most pieces of a process, 1 to 65530.
    pub most_pieces: u64,
    /// The most processes, 1 to 32768.
    pub most_processes: u64,
    /// The most slots of a swap area, 1 to 2^28.
    pub most_slots: u64,
    /// The rules of Linux that hold, a sum of [`rules`]; 0 for the profile's rules.
    pub rules: u64,
}

impl Default for Limits {
    /// A small machine of the profile: 16 segments, 64 pages, 16 frames.
    fn default() -> Limits {
        Limits {
            shmmax: 65536,
            shmmni: 16,
            shmall: 64,
            frames: 16,
            memlock: 1,
            most_pieces: 0,
            most_processes: 0,
            most_slots: 0,
            rules: 0,
        }
    }
}

impl Limits {
    fn of(it: &raw::Limits) -> Limits {
        Limits {
            shmmax: it.shmmax,
            shmmni: it.shmmni,
            shmall: it.shmall,
            frames: it.frames,
            memlock: it.memlock,
            most_pieces: it.most_pieces,
            most_processes: it.most_processes,
            most_slots: it.most_slots,
            rules: it.rules,
        }
    }

    /// Whether one of the last three sizes is given: then the machine is not one of the profile.
    fn is_larger(&self) -> bool {
        self.most_pieces != 0 || self.most_processes != 0 || self.most_slots != 0
    }

    /// A limit by the last digit of its code, with its range.
    fn named(&self, code: u32) -> Option<BadNumber> {
        let larger = |most: u64, profile: u64| if self.is_larger() { most } else { profile };
        let (name, value, least, most) = match code {
            2011 => ("shmmax", self.shmmax, 1, larger(1 << 40, 1 << 24)),
            2012 => ("shmmni", self.shmmni, 1, larger(32768, 4096)),
            2013 => ("shmall", self.shmall, 1, larger(1 << 28, 65536)),
            2014 => ("frames", self.frames, 2, larger(1 << 24, 4096)),
            2015 => ("memlock", self.memlock, 0, self.frames.saturating_sub(2)),
            2016 => ("most_pieces", self.most_pieces, 1, 65530),
            2017 => ("most_processes", self.most_processes, 1, 32768),
            2018 => ("most_slots", self.most_slots, 1, 1 << 28),
            2019 => ("rules", self.rules, 0, rules::LINUX),
            _ => return None,
        };
        Some(BadNumber::of(name, value, least, most))
    }
}

/// A read or a write of a swap area that fails.
#[derive(Clone, Copy, Debug, PartialEq, Eq)]
pub struct Failure {
    /// Its number among the reads, or the writes, from 1.
    pub call: u64,
    /// Whether it is a write.
    pub is_write: bool,
    /// 1 for a mirror's right side, else 0.
    pub side: u32,
}

impl Failure {
    fn of_area(&self, area: u32) -> raw::Failure {
        raw::Failure {
            area,
            side: self.side,
            is_write: u32::from(self.is_write),
            unused: 0,
            call: self.call,
        }
    }
}

/// A swap area.
#[derive(Clone, Debug, PartialEq, Eq)]
pub struct Area {
    kind: u32,
    slots: u32,
    failures: Vec<Failure>,
}

impl Area {
    fn of(kind: u32, slots: u32) -> Area {
        Area {
            kind,
            slots,
            failures: Vec::new(),
        }
    }

    /// A page of memory for each slot.
    pub fn ram(slots: u32) -> Area {
        Area::of(1, slots)
    }

    /// Memory only for slots with a byte that is not zero.
    pub fn sparse(slots: u32) -> Area {
        Area::of(2, slots)
    }

    /// Two sides in memory with the same pages. A page is read from the left side, or from the right one if that fails.
    pub fn mirror(slots: u32) -> Area {
        Area::of(3, slots)
    }

    /// The same, with one more read or write that fails.
    pub fn failing(mut self, failure: Failure) -> Area {
        self.failures.push(failure);
        self
    }
}

/// A process that a machine may have.
#[derive(Clone, Copy, Debug, PartialEq, Eq)]
pub struct Process {
    pid: u32,
    born: Option<(u32, u32)>,
}

impl Process {
    /// A process that is live from the beginning, with its effective user and group. User 0 passes every permission check.
    pub fn live(pid: u32, uid: u32, gid: u32) -> Process {
        Process {
            pid,
            born: Some((uid, gid)),
        }
    }

    /// A child that a fork may begin.
    pub fn child(pid: u32) -> Process {
        Process { pid, born: None }
    }

    fn raw(&self) -> raw::Process {
        let (uid, gid) = self.born.unwrap_or((0, 0));
        raw::Process {
            pid: self.pid,
            is_born: u32::from(self.born.is_some()),
            uid,
            gid,
        }
    }
}

/// The state of a process.
#[derive(Clone, Copy, Debug, PartialEq, Eq)]
pub enum State {
    /// A child that a fork may begin.
    Unborn,
    /// A live process, with its effective user and group.
    Live {
        /// The effective user.
        uid: u32,
        /// The effective group.
        gid: u32,
    },
    /// It has ended, and was not dismissed.
    Ended,
}

/// A range of addresses of a process with pages of a segment, as a line of `/proc/PID/maps` shows a mapping.
#[derive(Clone, Copy, Debug, PartialEq, Eq)]
pub struct Piece {
    /// Its address.
    pub base: u64,
    /// The identifier of its segment.
    pub segment: i32,
    /// The page of the segment that lies at the address.
    pub first_page: u32,
    /// How many pages it has.
    pub pages: u32,
    /// Whether it may be written now.
    pub is_writable: bool,
    /// Whether [`Machine::protect`] can make it writable: it was not attached with [`RDONLY`].
    pub may_write: bool,
}

impl Piece {
    fn of(it: &raw::Piece) -> Piece {
        Piece {
            base: it.base,
            // an identifier is at most 2^31 - 1
            segment: it.segment as i32,
            first_page: it.first_page,
            pages: it.pages,
            is_writable: it.is_writable != 0,
            may_write: it.may_write != 0,
        }
    }
}

/// Where the pages of a segment are. Those that were never touched are in no frame and in no slot.
#[derive(Clone, Copy, Debug, PartialEq, Eq)]
pub struct SegmentPages {
    /// Pages in frames.
    pub resident: u64,
    /// Pages only in slots.
    pub swapped: u64,
}

/// An access that failed, and how many bytes were read or written before.
#[derive(Clone, Copy, Debug, PartialEq, Eq)]
pub struct Stopped {
    /// Why it failed.
    pub errno: Errno,
    /// How many bytes were read or written.
    pub done: u64,
}

impl fmt::Display for Stopped {
    fn fmt(&self, out: &mut fmt::Formatter<'_>) -> fmt::Result {
        write!(out, "{} after {} bytes", self.errno, self.done)
    }
}

impl std::error::Error for Stopped {}

/// A page frame that has a page.
#[derive(Clone, Copy, Debug, PartialEq, Eq)]
pub struct Frame {
    /// The identifier of the page's segment.
    pub segment: i32,
    /// The page of the segment, from 0.
    pub page: u32,
    /// The page was used since the clock's hand passed.
    pub is_referenced: bool,
    /// Its bytes may differ from those in its slot.
    pub is_dirty: bool,
    /// It is on loan.
    pub is_lent: bool,
    /// Its segment is locked, so the page never leaves.
    pub is_locked: bool,
}

impl Frame {
    fn of(it: &raw::Frame) -> Frame {
        Frame {
            segment: it.id,
            page: it.page,
            is_referenced: it.is_referenced != 0,
            is_dirty: it.is_dirty != 0,
            is_lent: it.is_lent != 0,
            is_locked: it.is_locked != 0,
        }
    }
}

/// The page that an address of a process shows.
#[derive(Clone, Copy, Debug, PartialEq, Eq)]
pub struct ShownPage {
    /// The identifier of its segment.
    pub segment: i32,
    /// The page of the segment.
    pub page: u32,
    /// Whether the process may write there.
    pub is_writable: bool,
}

// The pages of loans that were dropped; their machine takes them back before its next call.
#[derive(Default)]
struct Dropped {
    is_any: AtomicBool,
    pages: Mutex<Vec<(i32, u32)>>,
}

/// A page on loan, from [`Machine::lend`]. A loan that is dropped gives the page back with the bytes that it had when it was
/// lent, before the machine does anything else.
#[must_use = "a loan that is dropped gives its page back"]
pub struct Loan {
    segment: i32,
    page: u32,
    // none once it is given back
    home: Option<Arc<Dropped>>,
}

impl Loan {
    /// The identifier of the page's segment.
    pub fn segment(&self) -> i32 {
        self.segment
    }

    /// The page of the segment.
    pub fn page(&self) -> u32 {
        self.page
    }

    /// Gives the page back to its machine, with the bytes that it has now.
    ///
    /// # Errors
    /// EINVAL if the segment was destroyed, which ended the loan, or if the page is another machine's.
    pub fn give_back(mut self, machine: &mut Machine, bytes: &[u8; PAGE_BYTES]) -> Answer<()> {
        match &self.home {
            Some(home) if Arc::ptr_eq(home, &machine.dropped) => self.home = None,
            _ => return Err(Errno::EINVAL),
        }
        // SAFETY: the handle is open, and the bytes are as many as is said.
        done(unsafe { raw::nog_give_back(machine.handle(), self.segment, self.page, bytes.as_ptr(), bytes.len()) })
    }
}

impl Drop for Loan {
    fn drop(&mut self) {
        if let Some(home) = self.home.take() {
            home.pages.lock().unwrap_or_else(PoisonError::into_inner).push((self.segment, self.page));
            home.is_any.store(true, Ordering::Release);
        }
    }
}

/// The processes, segments, page frames and swap areas of one guest system. It may move to another thread; only one thread at
/// a time may use it.
pub struct Machine {
    handle: raw::Handle,
    // the handle's memory is this machine's own
    owns: PhantomData<Box<[u8]>>,
    bad: Option<BadNumber>,
    dropped: Arc<Dropped>,
    // how many destroyed segments of each index were named
    told: Vec<u32>,
}

// SAFETY: the library has no state but its machines, and a machine is used by one thread at a time.
unsafe impl Send for Machine {}

impl Drop for Machine {
    fn drop(&mut self) {
        // SAFETY: the handle is open, and is not used again.
        unsafe { raw::nog_close(&mut self.handle) };
    }
}

// The number for which a machine was not opened: the first that the code is about.
fn bad_opening(code: u32, limits: &Limits, areas: &[Area], processes: &[Process]) -> Option<BadNumber> {
    let larger = |most: u64, profile: u64| if limits.is_larger() { most } else { profile };
    let slots = larger(limits.most_slots, 65536);
    match code {
        2003 => areas.iter().enumerate().find_map(|(place, area)| {
            let side = u32::from(area.kind == MIRROR);
            area.failures.iter().enumerate().find_map(|(number, it)| {
                let of = |name, value, least, most| {
                    (value < least || value > most)
                        .then(|| BadNumber::of(format!("areas[{place}]: failures[{number}]: {name}"), value, least, most))
                };
                of("call", it.call, 1, u64::MAX).or_else(|| of("side", it.side.into(), 0, side.into()))
            })
        }),
        2021 => Some(BadNumber::of("the number of areas", areas.len() as u64, 1, 8)),
        2022 => areas
            .iter()
            .enumerate()
            .find(|(_, area)| area.slots == 0 || u64::from(area.slots) > slots)
            .map(|(place, area)| BadNumber::of(format!("areas[{place}]: slots"), area.slots.into(), 1, slots)),
        2023 => {
            let most = larger(limits.most_processes, 64);
            Some(BadNumber::of("the number of processes", processes.len() as u64, 0, most))
        }
        2024 => processes
            .iter()
            .find(|it| it.pid == 0 || it.pid > i32::MAX as u32)
            .map(|it| BadNumber::of("pid", it.pid.into(), 1, i32::MAX as u64)),
        _ => limits.named(code),
    }
}

fn stopped(code: u32, done_bytes: u64) -> Result<(), Stopped> {
    done(code).map_err(|errno| Stopped {
        errno,
        done: done_bytes,
    })
}

// SAFETY of each call below: the handle is open and borrowed for writing, every pointer is to a place or a slice that lives
// through the call, with the slice's length next to it, and no two overlap.
impl Machine {
    /// Opens a machine with 1 to 8 swap areas. Its processes are declared here, children included.
    ///
    /// # Errors
    /// 2011 to 2019 for the first limit that is out of its range; [`Errno::OUT_OF_RANGE`] for a failure of a side that the area
    /// does not have, or of call 0; 2021 to 2024 for areas and processes, as the C header says; [`Errno::NO_MEMORY`].
    /// [`Machine::open_explained`] also names the number that is wrong, and its range.
    pub fn open(limits: &Limits, areas: &[Area], processes: &[Process]) -> Answer<Machine> {
        let limits = raw::Limits {
            shmmax: limits.shmmax,
            shmmni: limits.shmmni,
            shmall: limits.shmall,
            frames: limits.frames,
            memlock: limits.memlock,
            most_pieces: limits.most_pieces,
            most_processes: limits.most_processes,
            most_slots: limits.most_slots,
            rules: limits.rules,
        };
        let failures: Vec<raw::Failure> = (0_u32..)
            .zip(areas)
            .flat_map(|(area, it)| it.failures.iter().map(move |failure| (area, failure)))
            .map(|(area, failure)| failure.of_area(area))
            .collect();
        let areas: Vec<raw::Area> = areas
            .iter()
            .map(|area| raw::Area {
                kind: area.kind,
                slots: area.slots,
            })
            .collect();
        let processes: Vec<raw::Process> = processes.iter().map(Process::raw).collect();
        let mut handle = raw::Handle {
            is_open: 0,
            kept: null_mut(),
        };
        // SAFETY: the handle is closed; each list is as long as is said.
        done(unsafe {
            raw::nog_open(
                &mut handle,
                &limits,
                areas.as_ptr(),
                areas.len(),
                failures.as_ptr(),
                failures.len(),
                processes.as_ptr(),
                processes.len(),
            )
        })?;
        Ok(Machine {
            handle,
            owns: PhantomData,
            bad: None,
            dropped: Arc::default(),
            told: Vec::new(),
        })
    }

    /// The same as [`Machine::open`], with an error that names the number that is wrong, and its range.
    ///
    /// # Errors
    /// As [`Machine::open`].
    pub fn open_explained(limits: &Limits, areas: &[Area], processes: &[Process]) -> Result<Machine, Unopened> {
        Machine::open(limits, areas, processes).map_err(|errno| Unopened {
            errno,
            number: bad_opening(errno.0, limits, areas, processes),
        })
    }

    // The handle for a call, after the pages of dropped loans came back.
    fn handle(&mut self) -> &mut raw::Handle {
        if self.dropped.is_any.load(Ordering::Acquire) {
            self.take_back();
        }
        &mut self.handle
    }

    #[cold]
    fn take_back(&mut self) {
        let mut pages = self.dropped.pages.lock().unwrap_or_else(PoisonError::into_inner);
        self.dropped.is_any.store(false, Ordering::Release);
        for (segment, page) in pages.drain(..) {
            // If the segment was destroyed, its loans have ended.
            unsafe { raw::nog_give_back(&mut self.handle, segment, page, null(), 0) };
        }
    }

    // Refuses a number that is out of its range, before the call.
    fn within(&mut self, name: &str, value: u64, least: u64, most: u64) -> Answer<()> {
        if (least..=most).contains(&value) {
            return Ok(());
        }
        self.bad = Some(BadNumber::of(name, value, least, most));
        Err(Errno::OUT_OF_RANGE)
    }

    /// The wrong number of the last call that failed with [`Errno::OUT_OF_RANGE`], with its range.
    pub fn bad_number(&self) -> Option<&BadNumber> {
        self.bad.as_ref()
    }

    /// shmget(2): the identifier of the segment with this key, or of a new one.
    ///
    /// # Errors
    /// OUT_OF_RANGE for a mode above 0777 or flags above 65535; [`Machine::bad_number`] names it. EEXIST, EINVAL, EACCES, ENOENT, ENOSPC, ENOMEM, ESRCH, and EPERM under [`rules::HUGE_IS_REFUSED`].
    pub fn get(&mut self, pid: u32, key: u32, size: u64, mode: u32, flags: u32) -> Answer<i32> {
        self.within("mode", mode.into(), 0, 0o777)?;
        self.within("flags", flags.into(), 0, MOST_FLAGS)?;
        let mut id = 0;
        done(unsafe { raw::nog_get(self.handle(), pid, key, size, mode, flags, &mut id) })?;
        Ok(id)
    }

    /// shmat(2): the address at which the segment is attached; if `addr` is 0, the machine chooses it.
    ///
    /// # Errors
    /// EINVAL, EIDRM, EACCES, ENOMEM, EMFILE, ESRCH, and EPERM under [`rules::LOW_IS_EPERM`].
    pub fn attach(&mut self, pid: u32, id: i32, addr: u64, flags: u32) -> Answer<u64> {
        self.within("flags", flags.into(), 0, MOST_FLAGS)?;
        let mut at = 0;
        done(unsafe { raw::nog_attach(self.handle(), pid, id, addr, flags, &mut at) })?;
        Ok(at)
    }

    /// shmdt(2): detaches the segment that was attached at the address.
    ///
    /// # Errors
    /// EINVAL, ESRCH.
    pub fn detach(&mut self, pid: u32, addr: u64) -> Answer<()> {
        done(unsafe { raw::nog_detach(self.handle(), pid, addr) })
    }

    /// shmctl(2), IPC_STAT: the segment, if the process may read it.
    ///
    /// # Errors
    /// EINVAL, EIDRM, EACCES, ESRCH.
    pub fn stat(&mut self, pid: u32, id: i32) -> Answer<Segment> {
        let mut segment = Segment::default();
        done(unsafe { raw::nog_stat(self.handle(), pid, id, &mut segment) })?;
        Ok(segment)
    }

    /// shmctl(2), IPC_SET: sets the owner and the permission bits.
    ///
    /// # Errors
    /// EINVAL, EIDRM, EPERM, ESRCH.
    pub fn set(&mut self, pid: u32, id: i32, uid: u32, gid: u32, mode: u32) -> Answer<()> {
        self.within("mode", mode.into(), 0, MOST_FLAGS)?;
        done(unsafe { raw::nog_set(self.handle(), pid, id, uid, gid, mode) })
    }

    /// shmctl(2), IPC_RMID: destroys the segment, or marks it for removal if it is attached.
    ///
    /// # Errors
    /// EINVAL, EIDRM, EPERM, ESRCH.
    pub fn remove(&mut self, pid: u32, id: i32) -> Answer<()> {
        done(unsafe { raw::nog_remove(self.handle(), pid, id) })
    }

    /// shmctl(2), SHM_LOCK: keeps the pages of the segment in memory.
    ///
    /// # Errors
    /// EINVAL, EIDRM, EPERM, ENOMEM, ESRCH.
    pub fn lock(&mut self, pid: u32, id: i32) -> Answer<()> {
        done(unsafe { raw::nog_lock(self.handle(), pid, id) })
    }

    /// shmctl(2), SHM_UNLOCK: lets the pages of the segment leave memory.
    ///
    /// # Errors
    /// EINVAL, EIDRM, EPERM, ESRCH.
    pub fn unlock(&mut self, pid: u32, id: i32) -> Answer<()> {
        done(unsafe { raw::nog_unlock(self.handle(), pid, id) })
    }

    /// Reads 1 to 64 bytes in one step.
    ///
    /// # Errors
    /// SIGSEGV, SIGBUS, ESRCH, and OUT_OF_RANGE for another length.
    pub fn load(&mut self, pid: u32, addr: u64, bytes: &mut [u8]) -> Answer<()> {
        self.within("length", bytes.len() as u64, 1, MOST_BYTES)?;
        done(unsafe { raw::nog_load(self.handle(), pid, addr, bytes.as_mut_ptr(), bytes.len()) })
    }

    /// Writes 1 to 64 bytes in one step.
    ///
    /// # Errors
    /// SIGSEGV, SIGBUS, ESRCH, and OUT_OF_RANGE for another length.
    pub fn store(&mut self, pid: u32, addr: u64, bytes: &[u8]) -> Answer<()> {
        self.within("length", bytes.len() as u64, 1, MOST_BYTES)?;
        done(unsafe { raw::nog_store(self.handle(), pid, addr, bytes.as_ptr(), bytes.len()) })
    }

    /// Adds to an eight-byte little-endian number, modulo 2^64, in one step. Returns the number before the addition.
    ///
    /// # Errors
    /// SIGSEGV, SIGBUS, ESRCH.
    pub fn add(&mut self, pid: u32, addr: u64, add: u64) -> Answer<u64> {
        let mut before = 0;
        done(unsafe { raw::nog_add(self.handle(), pid, addr, add, &mut before) })?;
        Ok(before)
    }

    /// Replaces 1 to 64 bytes in one step. `before` gets the old bytes, and must have the same length.
    ///
    /// # Errors
    /// SIGSEGV, SIGBUS, ESRCH, and OUT_OF_RANGE for another length.
    pub fn exchange(&mut self, pid: u32, addr: u64, bytes: &[u8], before: &mut [u8]) -> Answer<()> {
        self.within("length", bytes.len() as u64, 1, MOST_BYTES)?;
        self.within("length of before", before.len() as u64, bytes.len() as u64, bytes.len() as u64)?;
        done(unsafe {
            raw::nog_exchange(self.handle(), pid, addr, bytes.as_ptr(), bytes.len(), before.as_mut_ptr(), before.len())
        })
    }

    /// Like [`Machine::exchange`], but replaces the bytes only if they are the expected ones. `before` gets the old bytes in both
    /// cases. All three must have the same length.
    ///
    /// # Errors
    /// SIGSEGV, SIGBUS, ESRCH, and OUT_OF_RANGE for another length.
    pub fn compare_exchange(&mut self, pid: u32, addr: u64, expected: &[u8], bytes: &[u8], before: &mut [u8]) -> Answer<()> {
        let wanted = bytes.len() as u64;
        self.within("length", wanted, 1, MOST_BYTES)?;
        self.within("length of expected", expected.len() as u64, wanted, wanted)?;
        self.within("length of before", before.len() as u64, wanted, wanted)?;
        done(unsafe {
            raw::nog_compare_exchange(
                self.handle(),
                pid,
                addr,
                expected.as_ptr(),
                expected.len(),
                bytes.as_ptr(),
                bytes.len(),
                before.as_mut_ptr(),
                before.len(),
            )
        })
    }

    /// fork(2): a declared child is born, with the caller's user, group and attachments.
    ///
    /// # Errors
    /// EAGAIN, ESRCH.
    pub fn fork(&mut self, pid: u32, child: u32) -> Answer<()> {
        done(unsafe { raw::nog_fork(self.handle(), pid, child) })
    }

    /// execve(2): detaches everything that the caller has attached.
    ///
    /// # Errors
    /// ESRCH.
    pub fn exec(&mut self, pid: u32) -> Answer<()> {
        done(unsafe { raw::nog_exec(self.handle(), pid) })
    }

    /// exit(2): detaches everything that the caller has attached, and ends it.
    ///
    /// # Errors
    /// ESRCH.
    pub fn exit(&mut self, pid: u32) -> Answer<()> {
        done(unsafe { raw::nog_exit(self.handle(), pid) })
    }

    /// swapoff(2): moves the pages of an area elsewhere and takes the area away.
    ///
    /// # Errors
    /// EPERM, EINVAL, ENOMEM, EIO, ESRCH.
    pub fn swapoff(&mut self, pid: u32, area: u32) -> Answer<()> {
        done(unsafe { raw::nog_swapoff(self.handle(), pid, area) })
    }

    /// Adds a process that was not declared. It replaces an ended process that has its pid. It is not counted as a call.
    ///
    /// # Errors
    /// ADMIT_BAD_PID, ADMIT_TAKEN, ADMIT_MANY, NO_MEMORY.
    pub fn admit(&mut self, process: Process) -> Answer<()> {
        done(unsafe { raw::nog_admit(self.handle(), &process.raw()) })
    }

    /// Removes an ended process, or a child that is not born. Its pid may be admitted again. It is not counted as a call.
    ///
    /// # Errors
    /// DISMISS_NONE, DISMISS_LIVE.
    pub fn dismiss(&mut self, pid: u32) -> Answer<()> {
        done(unsafe { raw::nog_dismiss(self.handle(), pid) })
    }

    /// Reserves a range of a process's addresses for memory that is not the machine's: an attach takes none of it unless [`REMAP`]
    /// is set. It stays until [`Machine::release`]. The process need not exist, and a child inherits no range. It is not counted as
    /// a call.
    ///
    /// # Errors
    /// [`Errno::OUT_OF_RANGE`] if the range is empty, is not whole pages, or is not within 0x10000 to 0x7ffffffff000; EEXIST if it
    /// meets an attachment of the process or another of its ranges; [`Errno::NO_MEMORY`].
    pub fn reserve(&mut self, pid: u32, addr: u64, len: u64) -> Answer<()> {
        done(unsafe { raw::nog_reserve(self.handle(), pid, addr, len) })
    }

    /// Releases a reserved range, by the same address and length. It is not counted as a call.
    ///
    /// # Errors
    /// [`Errno::OUT_OF_RANGE`] if the range reaches 2^64; ENOENT if exactly this range is not reserved.
    pub fn release(&mut self, pid: u32, addr: u64, len: u64) -> Answer<()> {
        done(unsafe { raw::nog_release(self.handle(), pid, addr, len) })
    }

    /// setuid(2) and setgid(2): gives a process another effective user and group. Its attachments stay.
    ///
    /// # Errors
    /// ESRCH and SPENT.
    pub fn set_user(&mut self, pid: u32, uid: u32, gid: u32) -> Answer<()> {
        done(unsafe { raw::nog_set_user(self.handle(), pid, uid, gid) })
    }

    /// From now on, calls set this number as the time. Before the first `set_time`, the time of a call is its number.
    pub fn set_time(&mut self, time: u64) {
        // For an open machine this returns 0.
        unsafe { raw::nog_set_time(self.handle(), time) };
    }

    /// munmap(2): detaches a range, rounded up to whole pages. Attachments that extend beyond it are cut.
    ///
    /// # Errors
    /// ESRCH, EINVAL, ENOMEM, and SPENT.
    pub fn unmap(&mut self, pid: u32, addr: u64, len: u64) -> Answer<()> {
        done(unsafe { raw::nog_unmap(self.handle(), pid, addr, len) })
    }

    /// mprotect(2): makes a range, rounded up to whole pages, writable or read-only.
    ///
    /// # Errors
    /// ESRCH, EINVAL, SPENT, and ENOMEM or EACCES for a page; the pages below it have then changed, as on Linux.
    pub fn protect(&mut self, pid: u32, addr: u64, len: u64, is_writable: bool) -> Answer<()> {
        done(unsafe { raw::nog_protect(self.handle(), pid, addr, len, u32::from(is_writable)) })
    }

    /// A second machine with the same state, memory and swap areas. The two are independent from then on.
    ///
    /// # Errors
    /// LENT while a page is on loan, NO_MEMORY.
    pub fn snapshot(&mut self) -> Answer<Machine> {
        let mut handle = raw::Handle {
            is_open: 0,
            kept: null_mut(),
        };
        done(unsafe { raw::nog_snapshot(self.handle(), &mut handle) })?;
        Ok(Machine {
            handle,
            owns: PhantomData,
            bad: None,
            dropped: Arc::default(),
            told: self.told.clone(),
        })
    }

    /// Reads bytes of any length, by one load for each page.
    ///
    /// # Errors
    /// As [`Machine::load`], with how many bytes were read before.
    pub fn read(&mut self, pid: u32, addr: u64, bytes: &mut [u8]) -> Result<(), Stopped> {
        let mut count = 0;
        let code = unsafe { raw::nog_read(self.handle(), pid, addr, bytes.as_mut_ptr(), bytes.len(), &mut count) };
        stopped(code, count)
    }

    /// Writes bytes of any length, by one store for each page.
    ///
    /// # Errors
    /// As [`Machine::store`], with how many bytes were written before; they remain written.
    pub fn write(&mut self, pid: u32, addr: u64, bytes: &[u8]) -> Result<(), Stopped> {
        let mut count = 0;
        let code = unsafe { raw::nog_write(self.handle(), pid, addr, bytes.as_ptr(), bytes.len(), &mut count) };
        stopped(code, count)
    }

    /// Copies bytes from a process to another, or to the same one; the ranges may overlap.
    ///
    /// # Errors
    /// Those of [`Machine::store`] and of [`Machine::load`], with how many bytes were copied before; the store's if both
    /// failed. NO_MEMORY, with no byte copied.
    pub fn copy(&mut self, from: u32, from_addr: u64, to: u32, to_addr: u64, len: u64) -> Result<(), Stopped> {
        let mut count = 0;
        let code = unsafe { raw::nog_copy(self.handle(), from, from_addr, to, to_addr, len, &mut count) };
        stopped(code, count)
    }

    /// Lends a page: it comes in as by a load, and its bytes are copied out. It stays in its frame until the loan ends. It is not
    /// counted as a call.
    ///
    /// # Errors
    /// EINVAL if no segment has the identifier, OUT_OF_RANGE if it has no such page, SIGBUS, and LENT if the page is on loan, or
    /// if the page that [`Machine::leaver`] shows is, and would have to leave.
    pub fn lend(&mut self, id: i32, page: u32, bytes: &mut [u8; PAGE_BYTES]) -> Answer<Loan> {
        let code = unsafe { raw::nog_lend(self.handle(), id, page, bytes.as_mut_ptr(), bytes.len()) };
        if Errno(code) == Errno::OUT_OF_RANGE {
            let size = self.segment_at((id % INDEXES) as u32).map_or(0, |it| it.size);
            let pages = (size + PAGE_BYTES as u64 - 1) / PAGE_BYTES as u64;
            self.bad = Some(BadNumber::of("page", page.into(), 0, pages.saturating_sub(1)));
        }
        done(code)?;
        Ok(Loan {
            segment: id,
            page,
            home: Some(Arc::clone(&self.dropped)),
        })
    }

    /// The frame whose page would leave if a page came in now; none if a frame is free. Once this page is back, bringing another
    /// one in evicts it and no other page.
    pub fn leaver(&mut self) -> Option<Frame> {
        let mut frame = raw::Frame::default();
        let code = unsafe { raw::nog_leaver(self.handle(), &mut frame) };
        (code == 0).then(|| Frame::of(&frame))
    }

    /// The frame that the clock's hand meets after `place` others; none if there are not that many, or if this one is free.
    pub fn frame_at(&mut self, place: u32) -> Option<Frame> {
        let mut frame = raw::Frame::default();
        let code = unsafe { raw::nog_frame_at(self.handle(), place, &mut frame) };
        (code == 0).then(|| Frame::of(&frame))
    }

    /// The page that an address of a process shows.
    ///
    /// # Errors
    /// ESRCH, and SIGSEGV if nothing is attached there.
    pub fn page_at(&mut self, pid: u32, addr: u64) -> Answer<ShownPage> {
        let (mut segment, mut page, mut is_writable) = (0, 0, 0);
        done(unsafe { raw::nog_page_at(self.handle(), pid, addr, &mut segment, &mut page, &mut is_writable) })?;
        Ok(ShownPage {
            segment,
            page,
            is_writable: is_writable != 0,
        })
    }

    /// How many pages are on loan.
    pub fn loans(&mut self) -> u64 {
        let mut pages = 0;
        // For an open machine this returns 0.
        unsafe { raw::nog_loans(self.handle(), &mut pages) };
        pages
    }

    /// The piece of a live process that an address is in. It is not counted as a call.
    ///
    /// # Errors
    /// ESRCH, and SIGSEGV if nothing is attached there.
    pub fn piece_of(&mut self, pid: u32, addr: u64) -> Answer<Piece> {
        let mut piece = raw::Piece::default();
        done(unsafe { raw::nog_piece_of(self.handle(), pid, addr, &mut piece) })?;
        Ok(Piece::of(&piece))
    }

    /// The segment of an identifier, without a permission check. It is not counted as a call.
    ///
    /// # Errors
    /// EINVAL if no segment ever had the identifier, and EIDRM, under any rules, if it was destroyed.
    pub fn segment_of(&mut self, id: i32) -> Answer<Segment> {
        let mut segment = Segment::default();
        done(unsafe { raw::nog_segment_of(self.handle(), id, &mut segment) })?;
        Ok(segment)
    }

    /// The limits that the machine has now.
    pub fn limits(&mut self) -> Limits {
        let mut limits = raw::Limits::default();
        // For an open machine this returns 0.
        unsafe { raw::nog_limits_of(self.handle(), &mut limits) };
        Limits::of(&limits)
    }

    /// Changes `shmmax`, `shmmni`, `shmall` and `memlock` of the running machine. Segments that exist stay. It is not counted as
    /// a call.
    ///
    /// # Errors
    /// 2011, 2012, 2013 and 2015 for the first that is out of its wider range; 2013 if `shmall` is below the pages of all
    /// segments, and 2015 if `memlock` is below those of the locked ones.
    pub fn set_limits(&mut self, shmmax: u64, shmmni: u64, shmall: u64, memlock: u64) -> Answer<()> {
        done(unsafe { raw::nog_set_limits(self.handle(), shmmax, shmmni, shmall, memlock) })
    }

    /// Adds a swap area of zeros with the next number to the running machine. It is not counted as a call.
    ///
    /// # Errors
    /// [`Errno::OUT_OF_RANGE`] for a failure of a side that the area does not have, or of call 0; 2021 if the machine had eight
    /// areas already, those that were removed included; 2022 for a number of slots that the limits do not allow;
    /// [`Errno::NO_MEMORY`].
    pub fn swapon(&mut self, area: &Area) -> Answer<()> {
        let failures: Vec<raw::Failure> = area.failures.iter().map(|failure| failure.of_area(0)).collect();
        let area = raw::Area {
            kind: area.kind,
            slots: area.slots,
        };
        done(unsafe { raw::nog_swapon(self.handle(), &area, failures.as_ptr(), failures.len()) })
    }

    /// Makes a read or a write of a swap area fail while the machine runs: the one numbered `failure.call` from now on, so 1 is the
    /// next; if it is lasting, every later one too. No byte changes. It is not counted as a call.
    ///
    /// # Errors
    /// [`Errno::OUT_OF_RANGE`] if the area does not exist, or no longer, or does not have the side, or if the call is 0;
    /// [`Errno::NO_MEMORY`].
    pub fn fail(&mut self, area: u32, failure: &Failure, is_lasting: bool) -> Answer<()> {
        let failure = failure.of_area(area);
        done(unsafe { raw::nog_fail(self.handle(), &failure, u32::from(is_lasting)) })
    }

    /// Makes each read of the slot that a page has now fail, until the slot is written or no longer used; of a mirror on both
    /// sides. No byte changes. It is not counted as a call.
    ///
    /// # Errors
    /// EINVAL if no segment has the identifier, OUT_OF_RANGE if it has no such page, ENOENT if the page is in no slot;
    /// [`Errno::NO_MEMORY`].
    pub fn fail_page(&mut self, id: i32, page: u32) -> Answer<()> {
        done(unsafe { raw::nog_fail_page(self.handle(), id, page) })
    }

    /// How many pages of a segment are in frames, and how many only in slots. It looks at each page that was touched, and at each
    /// slot.
    ///
    /// # Errors
    /// EINVAL if no segment has the identifier.
    pub fn pages_of(&mut self, id: i32) -> Answer<SegmentPages> {
        let (mut resident, mut swapped) = (0, 0);
        done(unsafe { raw::nog_pages_of(self.handle(), id, &mut resident, &mut swapped) })?;
        Ok(SegmentPages { resident, swapped })
    }

    /// The identifiers of the segments that were destroyed since the last call of `gone`, each once. A snapshot remembers the
    /// same calls.
    pub fn gone(&mut self) -> Vec<i32> {
        let (mut indexes, mut id, mut gone) = (0, 0, Vec::new());
        unsafe { raw::nog_indexes(self.handle(), &mut indexes) };
        let count = self.told.len().max(indexes as usize);
        self.told.resize(count, 0);
        while unsafe { raw::nog_gone(&mut self.handle, self.told.as_mut_ptr(), count, &mut id) } == 0 {
            gone.push(id);
        }
        gone
    }

    /// A count that each attach, detach, unmap, protect, exec and exit of the process raises, and each fork of it, even if the
    /// call fails. As long as it is the same, so are the pieces of the process. Processes whose pids have the same remainder
    /// modulo 64 share a count.
    pub fn changes(&mut self, pid: u32) -> u64 {
        let mut count = 0;
        // For an open machine this returns 0.
        unsafe { raw::nog_changes(self.handle(), pid, &mut count) };
        count
    }

    /// A flush round: writes at most this many dirty pages out to swap.
    pub fn flush(&mut self, pages: u64) -> Flushed {
        let mut flushed = Flushed::default();
        // For an open machine this returns 0.
        unsafe { raw::nog_flush(self.handle(), pages, &mut flushed) };
        flushed
    }

    /// The current counts.
    pub fn tally(&mut self) -> Tally {
        let mut tally = Tally::default();
        unsafe { raw::nog_tally_of(self.handle(), &mut tally) };
        tally
    }

    /// All segments in the order of their indexes, without a permission check.
    pub fn segments(&mut self) -> Vec<Segment> {
        let mut indexes = 0;
        unsafe { raw::nog_indexes(self.handle(), &mut indexes) };
        (0..indexes).filter_map(|index| self.segment_at(index)).collect()
    }

    /// The segment at an index of the table, if there is one.
    pub fn segment_at(&mut self, index: u32) -> Option<Segment> {
        let mut segment = Segment::default();
        let code = unsafe { raw::nog_segment_at(self.handle(), index, &mut segment) };
        (code == 0).then_some(segment)
    }

    /// shmctl(2), SHM_STAT: the segment at an index of the table, if the process may read it. It is not counted as a call.
    ///
    /// # Errors
    /// ESRCH, EINVAL if no segment has the index, EACCES.
    pub fn stat_at(&mut self, pid: u32, index: u32) -> Answer<Segment> {
        let mut segment = Segment::default();
        done(unsafe { raw::nog_stat_at(self.handle(), pid, index, &mut segment) })?;
        Ok(segment)
    }

    /// shmctl(2), SHM_INFO: sums over all segments. It looks at each page that was touched.
    pub fn info(&mut self) -> Usage {
        let mut usage = Usage::default();
        // For an open machine this returns 0.
        unsafe { raw::nog_info(self.handle(), &mut usage) };
        usage
    }

    /// The pieces of a live process in the order of their addresses, as `/proc/PID/maps` lists mappings.
    ///
    /// # Errors
    /// ESRCH.
    pub fn pieces(&mut self, pid: u32) -> Answer<Vec<Piece>> {
        let mut pieces = Vec::new();
        for index in 0.. {
            let mut piece = raw::Piece::default();
            match done(unsafe { raw::nog_piece_at(self.handle(), pid, index, &mut piece) }) {
                Err(Errno::OUT_OF_RANGE) => break,
                other => other?,
            }
            pieces.push(Piece::of(&piece));
        }
        Ok(pieces)
    }

    /// All processes by their pids: live ones, children that are not born, and ended ones that were not dismissed.
    pub fn processes(&mut self) -> Vec<(u32, State)> {
        let mut it = raw::Process::default();
        let mut processes = Vec::new();
        for index in 0.. {
            if unsafe { raw::nog_process_at(self.handle(), index, &mut it) } != 0 {
                break;
            }
            let state = match it.is_born {
                0 => State::Unborn,
                1 => State::Live {
                    uid: it.uid,
                    gid: it.gid,
                },
                _ => State::Ended,
            };
            processes.push((it.pid, state));
        }
        processes
    }

    /// The address of the first byte at which an access would get SIGSEGV: it is not attached, or, for a write, not attached for
    /// writing. None if each byte is attached as the access needs.
    pub fn failed_at(&mut self, pid: u32, addr: u64, len: u64, is_write: bool) -> Option<u64> {
        let mut at = 0;
        let code = unsafe { raw::nog_failed_at(self.handle(), pid, addr, len, u32::from(is_write), &mut at) };
        (code == 0).then_some(at)
    }

    /// Call it right after a SIGBUS: the address of the access's first byte whose page is in no frame, if each byte before it is
    /// attached. None if there is no such byte.
    pub fn absent_at(&mut self, pid: u32, addr: u64, len: u64) -> Option<u64> {
        let mut at = 0;
        let code = unsafe { raw::nog_absent_at(self.handle(), pid, addr, len, &mut at) };
        (code == 0).then_some(at)
    }

    /// How many calls of processes were counted.
    pub fn calls(&mut self) -> u64 {
        let mut calls = 0;
        unsafe { raw::nog_calls(self.handle(), &mut calls) };
        calls
    }
}

/// The version of the library: 10000 times the first number, plus 100 times the second, plus the third.
pub fn version() -> u32 {
    // SAFETY: it has no arguments.
    unsafe { raw::nog_version() }
}
