//! The host of a striped map, which hands out the map's history.
use crate::sys::{self, Handle};
use crate::{answer, Caller, Entry, Error, Result};

/// The host of a striped map that keeps its entries, made while its callers stand. When each of them is
/// dropped, it hands out the map's history.
///
/// ```
/// use boostmap::{Holder, Host, Judge, Keep, Opening, Verdict};
///
/// let mut callers = Opening { callers: 2, keep: Keep::Entries, ..Opening::default() }.open()?;
/// let mut host = Host::of(&mut callers)?;
/// callers[0].put(1, 10)?;
/// callers[1].add(1, 5)?;
/// drop(callers);
/// let mut judge = Judge::new(64, Holder::Begun)?;
/// judge.feed_all(&host.history()?)?;
/// assert_eq!(judge.verdict(), Verdict::Legal { commits: 2, running: 0 });
/// # Ok::<(), boostmap::Error>(())
/// ```
#[derive(Debug)]
pub struct Host(Handle);

// SAFETY: `sends_keeper` of the archive proves `Send` of what the handle owns, and `&mut self` puts the
// calls on one handle one after another.
unsafe impl Send for Host {}

impl Host {
    /// The host of the map of these callers. One of them must be the one that has the host: the last that
    /// [`Opening::open`](crate::Opening::open) returned.
    ///
    /// # Errors
    ///
    /// `NoHost`, also if the map has a `Host` already, and `NoMemory`.
    pub fn of(callers: &mut [Caller]) -> Result<Host> {
        let mut host = Host(Handle::EMPTY);
        for caller in callers {
            let first: *mut Handle = &mut caller.handle;
            // SAFETY: both handles are uniquely borrowed, and differ.
            match answer(&mut host.0, |at, _| unsafe { sys::boostmap_striped_host(first, at) }) {
                Err(Error::NoHost) => {}
                answer => return answer.map(|_| host),
            }
        }
        Err(Error::NoHost)
    }

    /// The whole history of the map, oldest entry first, for a judge of the map's number of stripes. It is
    /// proved that it is legal, and has exactly the entries of the map's callers.
    ///
    /// # Errors
    ///
    /// `Missing` while a caller stands, `NotKept` if the map does not keep its entries, and `NoMemory`.
    pub fn history(&mut self) -> Result<Vec<Entry>> {
        let mut entries: Vec<sys::Entry> = Vec::new();
        loop {
            let (start, places, mut needed) = (entries.as_mut_ptr(), entries.len(), 0);
            let count = answer(&mut self.0, |at, word| {
                // SAFETY: the array has as many places as its length says.
                let status = unsafe { sys::boostmap_host_history(at, start, places, word) };
                // SAFETY: `answer` passes a word of its own.
                needed = unsafe { *word };
                status
            });
            match count {
                Err(Error::Other(sys::SHORT)) => entries.resize(needed as usize, sys::Entry::default()),
                count => {
                    entries.truncate(count?.unwrap_or_default() as usize);
                    return Ok(entries.iter().filter_map(Entry::from_c).collect());
                }
            }
        }
    }
}

impl Drop for Host {
    fn drop(&mut self) {
        // SAFETY: dropped once, and the call accepts an empty handle.
        unsafe { sys::boostmap_host_free(&mut self.0) };
    }
}
