//! Judges and runs strangers' Java class files: safe Rust over the static library `libjvhost`.
//!
//! What a host shows of a guest is proved (docs/EMBEDDING.md of the library). This crate is not: it keeps what the library wants of its
//! caller, so that none of its callers writes `unsafe`.
//!
//! ```no_run
//! let class = std::fs::read("Hi.class").unwrap();
//! let seen = jvhost::judge(&jvhost::Guest::new(&[&class], b"Hi", b""), 10_000_000).unwrap();
//! println!("{:?}", seen.output);
//! ```

mod calls;

use std::error;
use std::ffi::CStr;
use std::fmt;
use std::ptr;

/// Why a call was refused. It changed nothing then.
#[derive(Clone, Copy, Debug, PartialEq, Eq)]
pub enum Error {
    /// No guest of the host has this number.
    NoGuest,
    /// A guest brings at least one file.
    NoFiles,
    /// A guest brings at most 1,024 files.
    TooManyFiles,
    /// A file has at most 4,194,304 bytes.
    FileTooLong,
    /// The input and all feeds have at most 16,777,216 bytes together.
    InputTooLong,
    /// A number of the budget is out of its range.
    BudgetOutOfRange,
    /// A host holds at most 64 guests.
    TooManyGuests,
    /// Memory was refused.
    HostMemory,
    /// A class of the library is not accepted beside the guest's files.
    LibraryBroken,
    /// The files are no library: what is wrong, and the place of the file that has it, 0 where none has.
    NoLibrary(LibraryFault, usize),
    /// Another code of `jvhost.h`.
    Other(u32),
}

/// What is wrong with files that are no library.
#[derive(Clone, Copy, Debug, PartialEq, Eq)]
pub enum LibraryFault {
    /// The bytes begin like a class file of a version other than 50.0, 51.0 and 52.0.
    Version,
    /// The bytes are no class file.
    Format,
    /// A class file with more than the host's profile has.
    Unsupported,
    /// A class below `host/`.
    Reserved,
    /// The class has the name of an earlier file's class.
    Duplicate,
    /// The class has a `main([String)V`, which is the guest's.
    Main,
    /// A class of the system's name with other flags, supers or fields.
    Header,
    /// A class of the system's name with a `<clinit>`.
    Initializer,
    /// java/lang/Cloneable or java/io/Serializable with methods.
    AboveArrays,
    /// java/lang/String is missing.
    NoString,
    /// java/lang/Comparable is missing.
    NoComparable,
    /// java/lang/CharSequence is missing.
    NoCharSequence,
}

impl LibraryFault {
    const ALL: [LibraryFault; 12] = [
        LibraryFault::Version,
        LibraryFault::Format,
        LibraryFault::Unsupported,
        LibraryFault::Reserved,
        LibraryFault::Duplicate,
        LibraryFault::Main,
        LibraryFault::Header,
        LibraryFault::Initializer,
        LibraryFault::AboveArrays,
        LibraryFault::NoString,
        LibraryFault::NoComparable,
        LibraryFault::NoCharSequence,
    ];
}

const NO_LIBRARY: u32 = 19;

const NO_PLACE: u32 = 20;

impl Error {
    const CODES: [(Error, u32); 9] = [
        (Error::NoGuest, 3),
        (Error::NoFiles, 5),
        (Error::TooManyFiles, 6),
        (Error::FileTooLong, 7),
        (Error::InputTooLong, 8),
        (Error::BudgetOutOfRange, 9),
        (Error::TooManyGuests, 10),
        (Error::HostMemory, 11),
        (Error::LibraryBroken, 18),
    ];

    /// The code of `jvhost.h`.
    pub fn code(self) -> u32 {
        match self {
            Error::Other(code) => code,
            Error::NoLibrary(..) => NO_LIBRARY,
            _ => Error::CODES.iter().find(|it| it.0 == self).map_or(0, |it| it.1),
        }
    }
}

impl fmt::Display for Error {
    fn fmt(&self, f: &mut fmt::Formatter<'_>) -> fmt::Result {
        // SAFETY: the text of a code is static and ends with a NUL.
        f.write_str(&unsafe { CStr::from_ptr(calls::jvhost_code_text(self.code())) }.to_string_lossy())
    }
}

impl error::Error for Error {}

fn want_ok(code: u32) -> Result<(), Error> {
    match code {
        0 => Ok(()),
        _ => Err(Error::CODES.iter().find(|it| it.1 == code).map_or(Error::Other(code), |it| it.0)),
    }
}

/// The version of the library.
pub fn version() -> String {
    // SAFETY: the text is static and ends with a NUL.
    unsafe { CStr::from_ptr(calls::jvhost_version()) }.to_string_lossy().into_owned()
}

/// What a guest brings, and what it may use.
#[derive(Clone, Copy, Debug)]
pub struct Guest<'a> {
    /// Its class files.
    pub files: &'a [&'a [u8]],
    /// The name of its main class, as `game/Main`.
    pub main: &'a [u8],
    /// What it can read at once.
    pub input: &'a [u8],
    /// Cells for objects, 64 to 16,777,216.
    pub cells: u32,
    /// Words for frames, 64 to 1,048,576.
    pub words: u32,
    /// Bytes that it may write, at most 1,048,576.
    pub output: u32,
}

impl<'a> Guest<'a> {
    /// A guest with 65,536 cells, words and bytes.
    pub fn new(files: &'a [&'a [u8]], main: &'a [u8], input: &'a [u8]) -> Guest<'a> {
        Guest { files, main, input, cells: 65_536, words: 65_536, output: 65_536 }
    }

    fn told<T>(&self, call: impl FnOnce(&calls::Guest) -> T) -> T {
        let listed: Vec<calls::Bytes> = self.files.iter().map(|it| told_bytes(it)).collect();
        call(&calls::Guest {
            size: std::mem::size_of::<calls::Guest>(),
            files: listed.as_ptr(),
            file_count: listed.len(),
            main: told_bytes(self.main),
            input: told_bytes(self.input),
            cells: self.cells,
            words: self.words,
            output: self.output,
        })
    }
}

fn told_bytes(bytes: &[u8]) -> calls::Bytes {
    calls::Bytes { bytes: bytes.as_ptr(), length: bytes.len() }
}

/// How a guest ended, if it did.
#[derive(Clone, Debug, PartialEq, Eq)]
pub enum End {
    /// It takes steps.
    Running,
    /// main returned.
    Returned,
    /// An object of the class with this name was thrown and not caught; of `judge` the name is not told.
    Threw(Vec<u8>),
    /// There is no main method.
    NoMain,
}

/// The verdict on a class file.
#[derive(Clone, Copy, Debug, PartialEq, Eq)]
pub enum Verdict {
    /// Each method with code is type safe.
    Accepted,
    /// A method is not.
    Verify {
        /// Its place among the methods of the file.
        method: u32,
        /// The offset in its code.
        offset: u32,
        /// The rule that it breaks there, 1 to 8.
        rule: u32,
    },
    /// The bytes begin like a class file of a version other than 50.0, 51.0 and 52.0.
    Version,
    /// The bytes are no class file.
    Format,
    /// A class file with more than the host's profile has.
    Unsupported,
    /// The class has a name that is the system's.
    Reserved,
    /// The class has the name of an earlier file's class.
    Duplicate,
    /// The class is among its own superclasses and superinterfaces.
    Circular,
    /// A direct super is not there, or cannot be loaded.
    NoSuper,
    /// The superclass is an interface, or a direct superinterface is none.
    WrongKind,
    /// A direct super is not open to the class.
    NoAccess,
    /// The superclass is final, or a method overrides a final one.
    FinalBroken,
}

/// The verdicts without more to say, by their number, the first at 2.
const REFUSALS: [Verdict; 10] = [
    Verdict::Version,
    Verdict::Format,
    Verdict::Unsupported,
    Verdict::Reserved,
    Verdict::Duplicate,
    Verdict::Circular,
    Verdict::NoSuper,
    Verdict::WrongKind,
    Verdict::NoAccess,
    Verdict::FinalBroken,
];

impl Verdict {
    fn of(told: calls::Verdict) -> Verdict {
        match told.kind {
            0 => Verdict::Accepted,
            1 => Verdict::Verify { method: told.method, offset: told.offset, rule: told.rule },
            kind => REFUSALS[kind as usize - 2],
        }
    }

    fn told(&self) -> calls::Verdict {
        match *self {
            Verdict::Accepted => calls::Verdict::default(),
            Verdict::Verify { method, offset, rule } => calls::Verdict { kind: 1, method, offset, rule },
            refusal => {
                let place = REFUSALS.iter().position(|it| *it == refusal).unwrap_or(0);
                calls::Verdict { kind: place as u32 + 2, ..calls::Verdict::default() }
            }
        }
    }

    /// Whether the class is accepted.
    pub fn is_accepted(&self) -> bool {
        *self == Verdict::Accepted
    }
}

/// The verdict as `jvhost check` prints it.
impl fmt::Display for Verdict {
    fn fmt(&self, f: &mut fmt::Formatter<'_>) -> fmt::Result {
        let told = self.told();
        let (mut room, mut length) = ([0; 64], 0);
        // SAFETY: the room is as long as the call is told.
        let code = unsafe { calls::jvhost_verdict_text(&told, room.as_mut_ptr(), room.len(), &mut length) };
        want_ok(code).map_err(|_| fmt::Error)?;
        f.write_str(&String::from_utf8_lossy(&room[..length.min(room.len())]))
    }
}

/// Where an object was thrown: an instruction of a method.
#[derive(Clone, Debug, PartialEq, Eq)]
pub struct Place {
    /// The name of the class that declares the method.
    pub class: Vec<u8>,
    /// The method's name.
    pub method: Vec<u8>,
    /// Its descriptor.
    pub descriptor: Vec<u8>,
    /// The offset of the instruction in its code, in bytes.
    pub offset: u32,
}

/// What a guest shows after some number of its own steps.
#[derive(Clone, Debug, PartialEq, Eq)]
pub struct Observation {
    /// The steps that it took.
    pub steps: u64,
    /// How many objects were thrown.
    pub throws: u64,
    /// The bytes that it wrote.
    pub output: Vec<u8>,
    /// The verdicts on its files, in their order; of `judge` none are told.
    pub verdicts: Vec<Verdict>,
    /// The class of the last object that was thrown; of `judge` it is not told.
    pub last: Option<Vec<u8>>,
    /// Where it was thrown, caught or not, where a method's instruction can be told; of `judge` it is not told.
    pub place: Option<Place>,
    /// How it ended, if it did.
    pub end: End,
}

fn end_of(number: u32, class: Vec<u8>) -> End {
    match number {
        0 => End::Running,
        1 => End::Returned,
        2 => End::Threw(class),
        _ => End::NoMain,
    }
}

fn unseen() -> calls::Seen {
    calls::Seen { size: std::mem::size_of::<calls::Seen>(), ..calls::Seen::default() }
}

/// The verdicts on files as those of one guest; nothing runs.
pub fn check(files: &[&[u8]]) -> Result<Vec<Verdict>, Error> {
    // SAFETY: the list and what it leads to, and the room for verdicts, are as long as the call is told.
    checked(files, |listed, count, told, room| unsafe { calls::jvhost_check(listed, count, told, room) })
}

fn checked(
    files: &[&[u8]],
    call: impl FnOnce(*const calls::Bytes, usize, *mut calls::Verdict, usize) -> u32,
) -> Result<Vec<Verdict>, Error> {
    let listed: Vec<calls::Bytes> = files.iter().map(|it| told_bytes(it)).collect();
    let mut told = vec![calls::Verdict::default(); listed.len()];
    want_ok(call(listed.as_ptr(), listed.len(), told.as_mut_ptr(), told.len()))?;
    Ok(told.into_iter().map(Verdict::of).collect())
}

/// What one guest, alone, shows after at most so many steps.
pub fn judge(guest: &Guest<'_>, steps: u32) -> Result<Observation, Error> {
    // SAFETY: what is told of the guest is borrowed until the call returns, and the room is as long as the call is told.
    judged(guest, |told, seen, output, room| unsafe { calls::jvhost_judge(told, steps, seen, output, room) })
}

fn judged(
    guest: &Guest<'_>,
    call: impl FnOnce(*const calls::Guest, *mut calls::Seen, *mut u8, usize) -> u32,
) -> Result<Observation, Error> {
    let (mut seen, mut output) = (unseen(), vec![0; guest.output.min(1_048_576) as usize]);
    want_ok(guest.told(|told| call(told, &mut seen, output.as_mut_ptr(), output.len())))?;
    output.truncate(seen.output);
    Ok(Observation {
        steps: seen.steps,
        throws: seen.throws,
        output,
        verdicts: Vec::new(),
        last: None,
        place: None,
        end: end_of(seen.end, Vec::new()),
    })
}

/// A host of up to 64 guests. It may go from thread to thread, and is used by one at a time: each call takes it by `&mut`.
pub struct Host {
    handle: calls::Handle,
}

// SAFETY: what a handle leads to is plain data in the C library's heap, and it is used through `&mut` alone.
unsafe impl Send for Host {}

impl Host {
    /// A host without a guest.
    pub fn new() -> Result<Host, Error> {
        let host = calls::HostPart { kept: ptr::null_mut(), owned: ptr::null_mut(), holds: 0 };
        let mut made = Host { handle: calls::Handle { host, copies: ptr::null_mut() } };
        // SAFETY: the handle is of zeros.
        want_ok(unsafe { calls::jvhost_new(&mut made.handle) })?;
        Ok(made)
    }

    /// A host without a guest, whose guests all stand on the library of these class files, which are copied.
    pub fn with_library(files: &[&[u8]]) -> Result<Host, Error> {
        let listed: Vec<calls::Bytes> = files.iter().map(|it| told_bytes(it)).collect();
        let mut fault = calls::Fault { size: std::mem::size_of::<calls::Fault>(), ..calls::Fault::default() };
        let host = calls::HostPart { kept: ptr::null_mut(), owned: ptr::null_mut(), holds: 0 };
        let mut made = Host { handle: calls::Handle { host, copies: ptr::null_mut() } };
        // SAFETY: the handle is of zeros, and the files are borrowed until the call returns.
        let code = unsafe { calls::jvhost_new_with_library(&mut made.handle, listed.as_ptr(), listed.len(), &mut fault) };
        if code == NO_LIBRARY {
            return Err(Error::NoLibrary(LibraryFault::ALL[fault.kind as usize], fault.file));
        }
        want_ok(code)?;
        Ok(made)
    }

    /// The verdicts on files as those of one guest, beside the host's library; nothing runs, and the host is as it was.
    pub fn check(&mut self, files: &[&[u8]]) -> Result<Vec<Verdict>, Error> {
        let host = &mut self.handle;
        // SAFETY: the handle holds a host; the list and what it leads to, and the room for verdicts, are as long as the call is told.
        checked(files, |listed, count, told, room| unsafe { calls::jvhost_check_beside(host, listed, count, told, room) })
    }

    /// What one guest, alone on the host's library, shows after at most so many steps. The host is as it was, and the guest is none of its
    /// 64.
    pub fn judge(&mut self, guest: &Guest<'_>, steps: u32) -> Result<Observation, Error> {
        let host = &mut self.handle;
        // SAFETY: the handle holds a host, what is told of the guest is borrowed until the call returns, and the room is as long as the
        // call is told.
        judged(guest, |told, seen, output, room| unsafe { calls::jvhost_judge_beside(host, told, steps, seen, output, room) })
    }

    /// Judges the files of a guest and admits it, at its start: its number, the first is 0. The bytes are copied.
    pub fn admit(&mut self, guest: &Guest<'_>) -> Result<u32, Error> {
        let mut id = 0;
        // SAFETY: the handle holds a host, and what is told of the guest is borrowed until the call returns.
        want_ok(guest.told(|told| unsafe { calls::jvhost_admit_copy(&mut self.handle, told, &mut id) }))?;
        Ok(id)
    }

    /// A guest takes at most so many steps: how many it took.
    pub fn turn(&mut self, id: u32, steps: u32) -> Result<u64, Error> {
        let mut taken = 0;
        // SAFETY: the handle holds a host.
        want_ok(unsafe { calls::jvhost_turn(&mut self.handle, id, steps, &mut taken) })?;
        Ok(taken)
    }

    /// At most so many rounds, in each of which each guest takes at most so many steps: how many rounds there were.
    pub fn run(&mut self, steps: u32, rounds: u32) -> Result<u32, Error> {
        let mut taken = 0;
        // SAFETY: the handle holds a host.
        want_ok(unsafe { calls::jvhost_run(&mut self.handle, steps, rounds, &mut taken) })?;
        Ok(taken)
    }

    /// Bytes join behind a guest's input.
    pub fn feed(&mut self, id: u32, bytes: &[u8]) -> Result<(), Error> {
        // SAFETY: the handle holds a host, and the bytes are borrowed until the call returns.
        want_ok(unsafe { calls::jvhost_feed(&mut self.handle, id, bytes.as_ptr(), bytes.len()) })
    }

    fn seen(&mut self, id: u32) -> Result<calls::Seen, Error> {
        let mut seen = unseen();
        // SAFETY: the handle holds a host.
        want_ok(unsafe { calls::jvhost_observe(&mut self.handle, id, &mut seen) })?;
        Ok(seen)
    }

    fn place(&mut self, id: u32) -> Result<Option<Place>, Error> {
        let mut told = calls::Place { size: std::mem::size_of::<calls::Place>(), ..calls::Place::default() };
        let mut room = vec![0; 3 * 65_535];
        // SAFETY: the handle holds a host, and the room is as long as the call is told.
        let code = unsafe { calls::jvhost_place(&mut self.handle, id, &mut told, room.as_mut_ptr(), room.len()) };
        if code == NO_PLACE {
            return Ok(None);
        }
        want_ok(code)?;
        let (class, rest) = room.split_at(told.class_name);
        let (method, rest) = rest.split_at(told.method);
        let descriptor = &rest[..told.descriptor];
        Ok(Some(Place { class: class.to_vec(), method: method.to_vec(), descriptor: descriptor.to_vec(), offset: told.offset }))
    }

    /// What a guest shows.
    pub fn observe(&mut self, id: u32) -> Result<Observation, Error> {
        let seen = self.seen(id)?;
        let mut verdicts = Vec::with_capacity(seen.verdicts);
        for file in 0..seen.verdicts {
            let mut told = calls::Verdict::default();
            // SAFETY: the handle holds a host.
            want_ok(unsafe { calls::jvhost_verdict(&mut self.handle, id, file, &mut told) })?;
            verdicts.push(Verdict::of(told));
        }
        // SAFETY (of both): the handle holds a host, and the room is as long as the call is told.
        let last = name_of(|room, most, length| unsafe { calls::jvhost_last(&mut self.handle, id, room, most, length) })?;
        let class = name_of(|room, most, length| unsafe { calls::jvhost_end_class(&mut self.handle, id, room, most, length) })?;
        Ok(Observation {
            steps: seen.steps,
            throws: seen.throws,
            output: self.output(id, 0)?,
            verdicts,
            last: (!last.is_empty()).then_some(last),
            place: self.place(id)?,
            end: end_of(seen.end, class),
        })
    }

    /// The bytes that a guest has written, from a place on.
    pub fn output(&mut self, id: u32, from: usize) -> Result<Vec<u8>, Error> {
        let mut room = vec![0; self.seen(id)?.output.saturating_sub(from)];
        let mut copied = 0;
        // SAFETY: the handle holds a host, and the room is as long as the call is told.
        want_ok(unsafe { calls::jvhost_output(&mut self.handle, id, from, room.as_mut_ptr(), room.len(), &mut copied) })?;
        room.truncate(copied);
        Ok(room)
    }
}

/// A name that a call copies, which has at most 65,535 bytes.
fn name_of(call: impl FnOnce(*mut u8, usize, &mut usize) -> u32) -> Result<Vec<u8>, Error> {
    let (mut room, mut length) = (vec![0; 65_535], 0);
    want_ok(call(room.as_mut_ptr(), room.len(), &mut length))?;
    room.truncate(length);
    Ok(room)
}

impl Drop for Host {
    fn drop(&mut self) {
        // SAFETY: the handle holds a host, or is of zeros.
        unsafe { calls::jvhost_free(&mut self.handle) }
    }
}
