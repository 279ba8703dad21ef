//! The data broker as a Rust crate, over `libmdsal.a`.
//!
//! ```no_run
//! let mut broker = mdsal::Broker::open(r#"{"config":{"plain:box":{"a":"x"}}}"#)?;
//! assert_eq!(broker.step(0, r#"["begin",0,0,"rw"]"#)?, "begun 0");
//! println!("{}", broker.report()?);
//! let mut standby = mdsal::StandBy::open(r#"{"config":{"plain:box":{"a":"x"}}}"#, 0)?;
//! standby.feed(broker.snapshot()?)?;
//! # Ok::<(), mdsal::Error>(())
//! ```
//!
//! A step that the broker refuses has a reply, which starts with `refused`; [`Broker::commit`] and [`Broker::update`] give outcomes with fields. A call
//! without a reply returns an [`Error`]. A [`Broker`] and a [`StandBy`] may move to another thread; to share one, use a `Mutex`. It is closed when it is
//! dropped.
mod reply;
mod waiting;

pub use reply::Outcome;
pub use waiting::Waiting;

use std::fmt;
use std::ptr;

#[repr(C)]
struct Handle {
    full: bool,
    at: *mut u8,
}

unsafe extern "C" {
    fn mdsal_open(handle: &mut Handle, script: *const u8, length: usize) -> u32;
    fn mdsal_step(handle: &mut Handle, client: u32, step: *const u8, length: usize) -> u32;
    fn mdsal_reply(handle: &mut Handle, out: *mut u8, room: usize) -> usize;
    fn mdsal_report(handle: &mut Handle) -> u32;
    fn mdsal_frames(handle: &mut Handle, above: u64) -> u32;
    fn mdsal_snapshot(handle: &mut Handle) -> u32;
    fn mdsal_epoch(handle: &mut Handle, newest: u64) -> u32;
    fn mdsal_follow(handle: &mut Handle, script: *const u8, length: usize, first: u64) -> u32;
    fn mdsal_feed(handle: &mut Handle, bytes: *const u8, length: usize) -> u32;
    fn mdsal_lead(handle: &mut Handle, version: u32) -> u32;
    fn mdsal_look(handle: &mut Handle, store: u32, path: *const u8, length: usize) -> u32;
    fn mdsal_number(handle: &mut Handle) -> u64;
    fn mdsal_version(handle: &mut Handle) -> u32;
    fn mdsal_left(handle: &mut Handle) -> usize;
    fn mdsal_waits(handle: &mut Handle, client: u32, slot: u8) -> u32;
    fn mdsal_frames_of(handle: &mut Handle, domain: u32, above: u64) -> u32;
    fn mdsal_snapshot_of(handle: &mut Handle, domain: u32) -> u32;
    fn mdsal_look_of(
        handle: &mut Handle,
        domain: u32,
        store: u32,
        path: *const u8,
        length: usize,
    ) -> u32;
    fn mdsal_feed_of(handle: &mut Handle, domain: u32, bytes: *const u8, length: usize) -> u32;
    fn mdsal_number_of(handle: &mut Handle, domain: u32) -> u64;
    fn mdsal_epoch_of(handle: &mut Handle, newest: *const u64, count: usize) -> u32;
    fn mdsal_follow_of(
        handle: &mut Handle,
        script: *const u8,
        length: usize,
        firsts: *const u64,
        count: usize,
    ) -> u32;
    fn mdsal_domains(handle: &mut Handle) -> usize;
    fn mdsal_close(handle: &mut Handle);
}

/// Why a call has no reply.
#[derive(Clone, Debug, PartialEq, Eq)]
#[non_exhaustive]
pub enum Error {
    /// The bytes are not a script, or it has clients or an order; with the line of the command's status.
    BadScript(String),
    /// The modules do not give a schema; with the line of the command's status.
    BadSchema(String),
    /// An opening tree is not data of the schema, or breaks a rule of it; with the line of the command's status.
    BadOpening(String),
    /// Memory ran out, and the step was not made. The client may be lost.
    NoMemory,
    /// The broker was closed when an earlier step broke it.
    Closed,
    /// The bytes are not a step.
    BadStep,
    /// The client's number is 65,536 or more.
    BadClient,
    /// The log has 1,000,000 shared calls.
    Full,
    /// Memory ran out in an earlier step of this client.
    Lost,
    /// The step was made, but memory ran out for its reply; the report has it.
    Untold,
    /// Memory ran out after a call was added to the log, and the broker is closed.
    Broken,
    /// The bytes are not the next frames; with the line of the fault.
    BadStream(String),
    /// The text of a frame is longer than 16,777,216 bytes; with its line.
    BadExport(String),
    /// The broker does not keep commits of numbers that low.
    Gone,
    /// A submission is not decided.
    Pending,
    /// The newest commit has another number.
    NotNewest,
    /// The stand-by has no frame yet.
    Empty,
    /// The script has no such version, or the trees are no trees of it.
    BadVersion,
    /// The script has no domain of this number.
    BadDomain,
    /// A step of [`Broker::commit`] or [`Broker::update`] was refused; with its reply.
    Refused(String),
    /// A status that this crate does not know.
    Other(u32),
}

impl Error {
    fn of(status: u32, text: String) -> Error {
        match status {
            6 => Error::BadScript(text),
            7 => Error::BadSchema(text),
            8 => Error::BadOpening(text),
            10 => Error::NoMemory,
            21 => Error::Closed,
            23 => Error::BadStep,
            24 => Error::BadClient,
            25 => Error::Full,
            26 => Error::Lost,
            27 => Error::Untold,
            28 => Error::Broken,
            12 => Error::BadStream(text),
            13 => Error::BadExport(text),
            30 => Error::Gone,
            31 => Error::Pending,
            32 => Error::NotNewest,
            33 => Error::Empty,
            34 => Error::BadVersion,
            35 => Error::BadDomain,
            other => Error::Other(other),
        }
    }
}

impl fmt::Display for Error {
    fn fmt(&self, f: &mut fmt::Formatter<'_>) -> fmt::Result {
        match self {
            Error::BadScript(text) | Error::BadSchema(text) | Error::BadOpening(text) => {
                f.write_str(text.trim_end())
            }
            Error::BadStream(text) | Error::BadExport(text) | Error::Refused(text) => {
                f.write_str(text.trim_end())
            }
            Error::Gone => f.write_str("the broker does not keep commits of numbers that low"),
            Error::Pending => f.write_str("a submission is not decided"),
            Error::NotNewest => f.write_str("the newest commit has another number"),
            Error::Empty => f.write_str("the stand-by has no frame yet"),
            Error::BadVersion => f.write_str("the trees are no trees of this version"),
            Error::BadDomain => f.write_str("the script has no domain of this number"),
            Error::NoMemory => f.write_str("memory ran out, and the step was not made"),
            Error::Closed => f.write_str("the broker was broken by an earlier step"),
            Error::BadStep => f.write_str("the bytes are no step"),
            Error::BadClient => f.write_str("the client's number is 65536 or more"),
            Error::Full => f.write_str("the log is full"),
            Error::Lost => f.write_str("the client is lost, as memory ran out in an earlier step"),
            Error::Untold => f.write_str("the step was made, and memory ran out for its reply"),
            Error::Broken => f.write_str("memory ran out behind a call that is in the log"),
            Error::Other(status) => write!(f, "status {status}"),
        }
    }
}

impl std::error::Error for Error {}

/// The store of a look.
#[derive(Clone, Copy, Debug, PartialEq, Eq)]
pub enum Store {
    Config = 0,
    Operational = 1,
}

/// A handle with what it holds.
struct Session {
    handle: Handle,
}

// SAFETY: it is proved that the content of a handle may move to another thread (`handles_may_move` of crates/mdsal_c), and `&mut self`
// allows one call at a time.
unsafe impl Send for Session {}

impl Session {
    fn closed() -> Session {
        let handle = Handle {
            full: false,
            at: ptr::null_mut(),
        };
        Session { handle }
    }

    fn answered(&mut self, status: u32) -> Result<Vec<u8>, Error> {
        let text = self.reply();
        match status {
            0 => Ok(text),
            status => Err(Error::of(status, told(text))),
        }
    }

    fn reply(&mut self) -> Vec<u8> {
        let mut out = vec![0; 256];
        loop {
            // SAFETY: `out` has this room, and nothing else points to it.
            let length = unsafe { mdsal_reply(&mut self.handle, out.as_mut_ptr(), out.len()) };
            let fits = length <= out.len();
            out.resize(length, 0);
            if fits {
                return out;
            }
        }
    }

    fn look(&mut self, store: Store, path: &str) -> Result<String, Error> {
        // SAFETY: the handle is used by one call at a time; the pointer and the length are those of a slice.
        let status =
            unsafe { mdsal_look(&mut self.handle, store as u32, path.as_ptr(), path.len()) };
        self.answered(status).map(told)
    }

    fn look_of(&mut self, domain: u32, store: Store, path: &str) -> Result<String, Error> {
        let (handle, store) = (&mut self.handle, store as u32);
        // SAFETY: the handle is used by one call at a time; the pointer and the length are those of a slice.
        let status = unsafe { mdsal_look_of(handle, domain, store, path.as_ptr(), path.len()) };
        self.answered(status).map(told)
    }

    fn snapshot(&mut self) -> Result<Vec<u8>, Error> {
        // SAFETY: the handle is used by one call at a time.
        let status = unsafe { mdsal_snapshot(&mut self.handle) };
        self.answered(status)
    }

    fn snapshot_of(&mut self, domain: u32) -> Result<Vec<u8>, Error> {
        // SAFETY: the handle is used by one call at a time.
        let status = unsafe { mdsal_snapshot_of(&mut self.handle, domain) };
        self.answered(status)
    }

    fn number(&mut self) -> u64 {
        // SAFETY: the handle is used by one call at a time.
        unsafe { mdsal_number(&mut self.handle) }
    }

    fn numbers(&mut self) -> Vec<u64> {
        // SAFETY: the handle is used by one call at a time.
        let domains = unsafe { mdsal_domains(&mut self.handle) } as u32;
        // SAFETY: the same.
        (0..domains)
            .map(|it| unsafe { mdsal_number_of(&mut self.handle, it) })
            .collect()
    }
}

impl Drop for Session {
    fn drop(&mut self) {
        // SAFETY: it is the last call.
        unsafe { mdsal_close(&mut self.handle) }
    }
}

fn told(text: Vec<u8>) -> String {
    String::from_utf8_lossy(&text).into_owned()
}

/// A broker over the opening trees of a script without clients and order.
pub struct Broker {
    session: Session,
}

impl Broker {
    /// Opens a broker.
    pub fn open(script: impl AsRef<[u8]>) -> Result<Broker, Error> {
        let mut session = Session::closed();
        let script = script.as_ref();
        // SAFETY: the handle is zeros; the pointer and the length are those of a slice.
        let status = unsafe { mdsal_open(&mut session.handle, script.as_ptr(), script.len()) };
        session.answered(status)?;
        Ok(Broker { session })
    }

    /// Makes the client's next step, and returns the text of its reply.
    pub fn step(&mut self, client: u32, step: impl AsRef<[u8]>) -> Result<String, Error> {
        let (handle, step) = (&mut self.session.handle, step.as_ref());
        // SAFETY: the handle is this broker's, used by one call at a time; the pointer and the length are those of a slice.
        let status = unsafe { mdsal_step(handle, client, step.as_ptr(), step.len()) };
        self.session.answered(status).map(told)
    }

    /// Makes the steps of a client in turn, and returns the texts of their replies; or those before the first step that is not made, and why it is not.
    pub fn steps<S: AsRef<[u8]>>(
        &mut self,
        client: u32,
        steps: impl IntoIterator<Item = S>,
    ) -> Result<Vec<String>, (Vec<String>, Error)> {
        let mut told = Vec::new();
        for step in steps {
            match self.step(client, step) {
                Ok(reply) => told.push(reply),
                Err(error) => return Err((told, error)),
            }
        }
        Ok(told)
    }

    /// Makes the client's next step, and returns the text of its reply; a refusal is an error.
    pub fn made(&mut self, client: u32, step: impl AsRef<[u8]>) -> Result<String, Error> {
        match self.step(client, step)? {
            reply if reply.starts_with("refused ") => Err(Error::Refused(reply)),
            reply => Ok(reply),
        }
    }

    /// Submits the transaction in the slot, and returns what became of it.
    pub fn commit(&mut self, client: u32, slot: u8) -> Result<Outcome, Error> {
        self.made(client, format!(r#"["submit",{slot}]"#))?;
        let reply = self.made(client, format!(r#"["settle",{slot}]"#))?;
        Ok(Outcome::of(&reply))
    }

    /// Calls the function with an open transaction in slot 0 of the client, commits it, and begins again after a conflict. If the function fails, the
    /// transaction is cancelled.
    pub fn update<T>(
        &mut self,
        client: u32,
        mut function: impl FnMut(&mut Broker) -> Result<T, Error>,
    ) -> Result<(T, Outcome), Error> {
        loop {
            self.made(client, r#"["begin",0,0,"rw"]"#)?;
            let kept = match function(self) {
                Ok(kept) => kept,
                Err(error) => {
                    self.step(client, r#"["cancel",0]"#)?;
                    return Err(error);
                }
            };
            match self.commit(client, 0)? {
                Outcome::Conflict { .. } => {}
                outcome => return Ok((kept, outcome)),
            }
        }
    }

    /// Returns the report of all steps so far, as `mdsal sim` writes it.
    pub fn report(&mut self) -> Result<String, Error> {
        // SAFETY: the handle is this broker's, used by one call at a time.
        let status = unsafe { mdsal_report(&mut self.session.handle) };
        self.session.answered(status).map(told)
    }

    /// The frames of the commits of the controller's own domain with numbers above this one.
    pub fn frames(&mut self, above: u64) -> Result<Vec<u8>, Error> {
        // SAFETY: the handle is this broker's, used by one call at a time.
        let status = unsafe { mdsal_frames(&mut self.session.handle, above) };
        self.session.answered(status)
    }

    /// The frames of a domain's commits with numbers above this one: 0 is the controller's own, the devices have the numbers from 1 on.
    pub fn frames_of(&mut self, domain: u32, above: u64) -> Result<Vec<u8>, Error> {
        // SAFETY: the handle is this broker's, used by one call at a time.
        let status = unsafe { mdsal_frames_of(&mut self.session.handle, domain, above) };
        self.session.answered(status)
    }

    /// The frame of the newest commit, with all rows: a stream may begin with it.
    pub fn snapshot(&mut self) -> Result<Vec<u8>, Error> {
        self.session.snapshot()
    }

    /// The same of a domain.
    pub fn snapshot_of(&mut self, domain: u32) -> Result<Vec<u8>, Error> {
        self.session.snapshot_of(domain)
    }

    /// Begins the next epoch as [`Broker::epoch`], by the numbers of the newest commits of the first domains: those of all, if the frames of devices
    /// are kept.
    pub fn epoch_of(&mut self, newest: &[u64]) -> Result<(), Error> {
        // SAFETY: the handle is this broker's, used by one call at a time; the pointer and the length are those of a slice.
        let status =
            unsafe { mdsal_epoch_of(&mut self.session.handle, newest.as_ptr(), newest.len()) };
        self.session.answered(status).map(drop)
    }

    /// Begins the next epoch, if nothing is pending and the newest commit has this number.
    pub fn epoch(&mut self, newest: u64) -> Result<(), Error> {
        // SAFETY: the handle is this broker's, used by one call at a time.
        let status = unsafe { mdsal_epoch(&mut self.session.handle, newest) };
        self.session.answered(status).map(drop)
    }

    /// The text of a read in the newest tree: `data JSON`, `absent` or `refused path FAULT`. It is no step.
    pub fn look(&mut self, store: Store, path: &str) -> Result<String, Error> {
        self.session.look(store, path)
    }

    /// The text of a read in the newest tree of a domain.
    pub fn look_of(&mut self, domain: u32, store: Store, path: &str) -> Result<String, Error> {
        self.session.look_of(domain, store, path)
    }

    /// The number of the newest commit.
    pub fn number(&mut self) -> u64 {
        self.session.number()
    }

    /// The numbers of the newest commits of all domains.
    pub fn numbers(&mut self) -> Vec<u64> {
        self.session.numbers()
    }

    /// The present version of the schema, as the script counts: for [`StandBy::lead`].
    pub fn version(&mut self) -> u32 {
        // SAFETY: the handle is this broker's, used by one call at a time.
        unsafe { mdsal_version(&mut self.session.handle) }
    }

    /// What waits for the client; `slot` is the number of its slots that hold the listener, the receipt and the request. It is no step, and adds
    /// nothing to the log.
    pub fn waits(&mut self, client: u32, slot: u8) -> Waiting {
        // SAFETY: the handle is this broker's, used by one call at a time.
        Waiting::of(unsafe { mdsal_waits(&mut self.session.handle, client, slot) })
    }

    /// Makes the step, if something waits for it: the step that takes it, such as `["take",0]` for [`Waiting::changes`]. A poll in vain adds nothing to
    /// the log.
    fn taken(
        &mut self,
        client: u32,
        slot: u8,
        waits: impl Fn(Waiting) -> bool,
        step: &str,
    ) -> Result<Option<String>, Error> {
        if !waits(self.waits(client, slot)) {
            return Ok(None);
        }
        self.made(client, step).map(Some)
    }

    /// The next batch of the listener in the slot, if it has commits to see.
    pub fn changes(&mut self, client: u32, slot: u8) -> Result<Option<String>, Error> {
        self.taken(
            client,
            slot,
            |it| it.changes,
            &format!(r#"["take",{slot}]"#),
        )
    }

    /// The next request to the client, if one waits; it is then in the slot.
    pub fn request(&mut self, client: u32, slot: u8) -> Result<Option<String>, Error> {
        let step = format!(r#"["next-call",{slot}]"#);
        self.taken(client, slot, |it| it.request, &step)
    }

    /// The notifications to the client, if some wait.
    pub fn notifications(&mut self, client: u32) -> Result<Option<String>, Error> {
        self.taken(client, 0, |it| it.notes, r#"["take-notes"]"#)
    }

    /// How many shared calls the log has room for.
    pub fn left(&mut self) -> usize {
        // SAFETY: the handle is this broker's, used by one call at a time.
        unsafe { mdsal_left(&mut self.session.handle) }
    }
}

/// A stand-by of the broker of a script: it takes a stream of frames, and can become the broker.
pub struct StandBy {
    session: Session,
}

impl StandBy {
    /// Opens a stand-by, before a stream that begins with the frame of the number `first`, which has all rows.
    pub fn open(script: impl AsRef<[u8]>, first: u64) -> Result<StandBy, Error> {
        let mut session = Session::closed();
        let script = script.as_ref();
        // SAFETY: the handle is zeros; the pointer and the length are those of a slice.
        let status =
            unsafe { mdsal_follow(&mut session.handle, script.as_ptr(), script.len(), first) };
        session.answered(status)?;
        Ok(StandBy { session })
    }

    /// The same before streams that begin with the frames of these numbers, of domain 0 first: that of a domain without a number begins with 0.
    pub fn open_of(script: impl AsRef<[u8]>, firsts: &[u64]) -> Result<StandBy, Error> {
        let mut session = Session::closed();
        let (handle, script) = (&mut session.handle, script.as_ref());
        let (bytes, length) = (script.as_ptr(), script.len());
        // SAFETY: the handle is zeros; the pointers and the lengths are those of slices.
        let status =
            unsafe { mdsal_follow_of(handle, bytes, length, firsts.as_ptr(), firsts.len()) };
        session.answered(status)?;
        Ok(StandBy { session })
    }

    /// Takes the next bytes of a domain's stream, cut anywhere.
    pub fn feed_of(&mut self, domain: u32, bytes: impl AsRef<[u8]>) -> Result<(), Error> {
        let (handle, bytes) = (&mut self.session.handle, bytes.as_ref());
        // SAFETY: the handle is used by one call at a time; the pointer and the length are those of a slice.
        let status = unsafe { mdsal_feed_of(handle, domain, bytes.as_ptr(), bytes.len()) };
        self.session.answered(status).map(drop)
    }

    /// Takes the next bytes of the stream, cut anywhere.
    pub fn feed(&mut self, bytes: impl AsRef<[u8]>) -> Result<(), Error> {
        let (handle, bytes) = (&mut self.session.handle, bytes.as_ref());
        // SAFETY: the handle is used by one call at a time; the pointer and the length are those of a slice.
        let status = unsafe { mdsal_feed(handle, bytes.as_ptr(), bytes.len()) };
        self.session.answered(status).map(drop)
    }

    /// The frame of its commit, with all rows.
    pub fn snapshot(&mut self) -> Result<Vec<u8>, Error> {
        self.session.snapshot()
    }

    /// The text of a read in its tree, as [`Broker::look`].
    pub fn look(&mut self, store: Store, path: &str) -> Result<String, Error> {
        self.session.look(store, path)
    }

    /// The frame of a domain's commit, with all rows.
    pub fn snapshot_of(&mut self, domain: u32) -> Result<Vec<u8>, Error> {
        self.session.snapshot_of(domain)
    }

    /// The text of a read in a tree of a domain.
    pub fn look_of(&mut self, domain: u32, store: Store, path: &str) -> Result<String, Error> {
        self.session.look_of(domain, store, path)
    }

    /// The number of its last frame; 0 before the first one.
    pub fn number(&mut self) -> u64 {
        self.session.number()
    }

    /// The numbers of the last frames of all domains.
    pub fn numbers(&mut self) -> Vec<u64> {
        self.session.numbers()
    }

    /// The broker that it becomes, by this version of the schema; or why it does not, and the stand-by as it was.
    pub fn lead(mut self, version: u32) -> Result<Broker, (StandBy, Error)> {
        // SAFETY: the handle is used by one call at a time.
        let status = unsafe { mdsal_lead(&mut self.session.handle, version) };
        match self.session.answered(status) {
            Ok(_) => Ok(Broker {
                session: self.session,
            }),
            Err(error) => Err((self, error)),
        }
    }
}
