//! A registry of tables of words: equal tables get one number, whichever thread asks first.
//!
//! The registry itself is proved in Rattle, and linked as a static library. This crate is the safe face of it: it owns
//! each handle, gives each call its client alone, and gives each registry a number of its own.
//!
//! ```
//! use stabby_registry::Client;
//!
//! # fn main() -> Result<(), stabby_registry::Fault> {
//! let mut one = Client::new()?;
//! let mut other = one.split(1)?;
//! let (a, b) = std::thread::scope(|threads| {
//!     let a = threads.spawn(|| one.insert(&[7, 7]));
//!     let b = threads.spawn(|| other.insert(&[7, 7]));
//!     (a.join().unwrap(), b.join().unwrap())
//! });
//! assert_eq!((a?, b?), (0, 0));
//! assert_eq!(one.count(), 1);
//! # Ok(())
//! # }
//! ```

#![deny(missing_docs)]
#![deny(unsafe_op_in_unsafe_fn)]

mod raw;

use raw::{Opaque, Raw};
use std::error::Error;
use std::fmt;
use std::mem::ManuallyDrop;
use std::ptr::{self, NonNull};
use std::sync::atomic::{AtomicU64, Ordering};

/// The number of the next registry. No two registries of a process have the same one.
static NEXT: AtomicU64 = AtomicU64::new(0);

/// Why a call was refused. It added no table, and the client is as good as before.
#[derive(Clone, Copy, Debug, PartialEq, Eq)]
pub enum Fault {
    /// Memory could not be had.
    Memory,
    /// Another client held the registry's turn. Try again.
    Busy,
    /// Another client added a table meanwhile. Try again.
    Moved,
    /// The table is new, and the registry has as many as it can count.
    Full,
    /// No table has this number.
    Absent,
    /// The weight isn't above 0 and below the client's.
    Light,
}

impl fmt::Display for Fault {
    fn fmt(&self, f: &mut fmt::Formatter<'_>) -> fmt::Result {
        f.write_str(match self {
            Fault::Memory => "memory could not be had",
            Fault::Busy => "another client held the turn",
            Fault::Moved => "another client added a table meanwhile",
            Fault::Full => "the registry is full",
            Fault::Absent => "no table has this number",
            Fault::Light => "the weight is not above 0 and below the client's",
        })
    }
}

impl Error for Fault {}

fn told(code: u32) -> Result<(), Fault> {
    match code {
        raw::DONE => Ok(()),
        raw::MEMORY => Err(Fault::Memory),
        raw::BUSY => Err(Fault::Busy),
        raw::MOVED => Err(Fault::Moved),
        raw::FULL => Err(Fault::Full),
        raw::ABSENT => Err(Fault::Absent),
        raw::LIGHT => Err(Fault::Light),
        code => unreachable!("the archive answers no {code} here"),
    }
}

/// One caller of a registry. The registry lives as long as one of its clients.
///
/// A client may go to another thread, and each call has it alone.
pub struct Client(Raw);

// SAFETY: the archive's crate shows in Rattle that its `Client` may go to another thread (`sent`), and a `Client` here is
// the one owner of one.
unsafe impl Send for Client {}

// SAFETY: no call takes a `&Client`.
unsafe impl Sync for Client {}

impl Client {
    /// An empty registry, and its first client, of weight 2^32.
    ///
    /// # Errors
    /// `Memory`.
    pub fn new() -> Result<Client, Fault> {
        let mut out = ptr::null_mut();
        // SAFETY: `out` may be written. No other registry has this number.
        told(unsafe { raw::stabby_client_new(NEXT.fetch_add(1, Ordering::Relaxed), &mut out) })?;
        Ok(Client::owner(out))
    }

    /// The owner of a client that a call has just handed out.
    fn owner(out: *mut Opaque) -> Client {
        Client(Raw {
            at: NonNull::new(out).expect("an answer DONE comes with an address"),
        })
    }

    /// A further client of the same registry, with this weight, which comes off this one's.
    ///
    /// Give 1 to a client that will not be split itself, and more to one that will.
    ///
    /// # Errors
    /// `Light` exactly where the weight is 0 or not below this client's; `Memory`. This client weighs what it did.
    pub fn split(&mut self, weight: u64) -> Result<Client, Fault> {
        let mut out = ptr::null_mut();
        // SAFETY: the client is alive, and this call has it alone. `out` may be written.
        told(unsafe { raw::stabby_client_split(&mut self.0, weight, &mut out) })?;
        Ok(Client::owner(out))
    }

    /// The part of 2^32, all clients' weight, that this one has.
    pub fn weight(&mut self) -> u64 {
        // SAFETY: the client is alive, and this call has it alone.
        unsafe { raw::stabby_client_weight(&mut self.0) }
    }

    /// Puts another client of the same registry into this one.
    ///
    /// # Errors
    /// The other client, exactly where it is of another registry. Both are as before.
    pub fn join(&mut self, other: Client) -> Result<(), Client> {
        let other = ManuallyDrop::new(other);
        // SAFETY: both are alive and different, and this call has them alone. Clients whose registries have one number
        // are of one registry, since `new` gives each number once. At FOREIGN the other is still ours.
        match unsafe { raw::stabby_client_join(&mut self.0, other.0) } {
            raw::DONE => Ok(()),
            _ => Err(ManuallyDrop::into_inner(other)),
        }
    }

    /// The number of the table of these words, by one try. A table that the registry lacks is added at the end.
    ///
    /// # Errors
    /// `Memory`, `Busy`, `Moved`, `Full`. Nothing was added by this try.
    pub fn try_insert(&mut self, words: &[u64]) -> Result<u64, Fault> {
        let mut number = 0;
        // SAFETY: the client is alive, and this call has it alone. `words` is read, `number` may be written.
        told(unsafe {
            raw::stabby_client_try_insert(&mut self.0, words.as_ptr(), words.len(), &mut number)
        })?;
        Ok(number)
    }

    /// `try_insert`, again and again until no other client is in the way. Between two tries it gives up the processor.
    ///
    /// # Errors
    /// `Memory`, `Full`. Nothing was added by this call.
    pub fn insert(&mut self, words: &[u64]) -> Result<u64, Fault> {
        loop {
            match self.try_insert(words) {
                Err(Fault::Busy | Fault::Moved) => std::thread::yield_now(),
                answer => return answer,
            }
        }
    }

    /// The numbers of many tables, in order, each by as many tries as it takes.
    ///
    /// # Errors
    /// `Memory`, `Full`. The tables before that one may have been added, each once.
    pub fn insert_all<T: AsRef<[u64]>>(&mut self, tables: &[T]) -> Result<Vec<u64>, Fault> {
        let lengths: Vec<usize> = tables.iter().map(|table| table.as_ref().len()).collect();
        let words: Vec<u64> = tables
            .iter()
            .flat_map(|table| table.as_ref())
            .copied()
            .collect();
        let mut numbers = vec![0; tables.len()];
        let (mut gone, mut from) = (0, 0);
        loop {
            let (rest, more) = (&words[from..], &lengths[gone..]);
            let room = &mut numbers[gone..];
            let mut done = 0;
            // SAFETY: the client is alive, and this call has it alone. `rest` and `more` are read; `room` and `done` may
            // be written.
            let answer = told(unsafe {
                raw::stabby_client_try_insert_all(
                    &mut self.0,
                    rest.as_ptr(),
                    rest.len(),
                    more.as_ptr(),
                    more.len(),
                    room.as_mut_ptr(),
                    room.len(),
                    &mut done,
                )
            });
            from += more[..done].iter().sum::<usize>();
            gone += done;
            match answer {
                Ok(()) => return Ok(numbers),
                Err(Fault::Busy | Fault::Moved) => std::thread::yield_now(),
                Err(fault) => return Err(fault),
            }
        }
    }

    /// How many tables the registry has. They have the numbers below it.
    pub fn count(&mut self) -> u64 {
        // SAFETY: the client is alive, and this call has it alone.
        unsafe { raw::stabby_client_count(&mut self.0) }
    }

    /// The words of the table with this number, by one try.
    ///
    /// # Errors
    /// `Absent`, where the number isn't below the count; `Busy`, `Memory`.
    pub fn try_entry(&mut self, number: u64) -> Result<Vec<u64>, Fault> {
        let mut words = vec![0; 8];
        loop {
            let mut length = 0;
            // SAFETY: the client is alive, and this call has it alone. `words` and `length` may be written.
            told(unsafe {
                raw::stabby_client_try_entry(
                    &mut self.0,
                    number,
                    words.as_mut_ptr(),
                    words.len(),
                    &mut length,
                )
            })?;
            let fits = length <= words.len();
            words.resize(length, 0);
            if fits {
                return Ok(words);
            }
        }
    }
}

impl Drop for Client {
    fn drop(&mut self) {
        // SAFETY: the client is alive, and nobody has it after this.
        unsafe { raw::stabby_client_free(self.0) }
    }
}

impl fmt::Debug for Client {
    fn fmt(&self, f: &mut fmt::Formatter<'_>) -> fmt::Result {
        f.write_str("Client")
    }
}
