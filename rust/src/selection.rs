//! Selections in progress.

use crate::error::{answered, done, SelectError, ToldError};
use crate::names::{Asked, Change, Changed, Changes, Key, Ops, Ready, Selected, Selector, Wait};
use crate::raw;
use crate::table::Caller;
use std::mem;

impl Caller {
    /// Begins a selection: takes the selector's turn, removes the keys that were cancelled, and looks at the others. As
    /// Java's documentation says, it goes on where only such keys are ready as are selected already with these
    /// operations.
    pub fn select(&mut self, selector: Selector, wait: Wait) -> Result<Selection<'_>, SelectError> {
        self.begin(selector, wait.milliseconds())?;
        Ok(Selection { caller: self, selector, until: Until::Updated })
    }

    /// The same, of one that is over as soon as something is ready that it asks for, as in JDK 17. Where no key was
    /// updated it answers the count 0, and `Why::Elapsed` where nothing else ended it.
    pub fn select_told(&mut self, selector: Selector, wait: Wait) -> Result<Selection<'_>, SelectError> {
        // (it ends as if its time were over, so it has a time)
        let ms = wait.milliseconds().map(|ms| if ms == 0 { i64::MAX } else { ms });
        self.begin(selector, ms)?;
        Ok(Selection { caller: self, selector, until: Until::Told { timed: matches!(wait, Wait::For(_)) } })
    }

    fn begin(&mut self, selector: Selector, ms: Option<i64>) -> Result<(), SelectError> {
        answered(match ms {
            None => unsafe { raw::nio_begin_now(&mut self.handle, selector.0) },
            Some(ms) => unsafe { raw::nio_begin(&mut self.handle, selector.0, ms) },
        })
    }
}

/// What ends a selection, beside its time, a wakeup, an interrupt and the closing of its selector.
#[derive(Clone, Copy)]
enum Until {
    /// That it updated a key.
    Updated,
    /// That it was told of anything that it asks for.
    Told { timed: bool },
}

/// A selection in progress. It borrows its caller: a thread that selects makes no other call. Where it is dropped, it
/// ends with no answer.
///
/// The program polls for what `asked` lists, and tells what it found. The first poll doesn't wait; a poll after
/// `Told::Again` may.
///
/// ```
/// use nio_table::{Kind, Limits, Ops, Ready, Table, Told, Wait, Why};
/// # let table = Table::new(Limits { callers: 1, selectors: 1, channels: 1, keys: 1 })?;
/// # let mut caller = table.caller()?;
/// # let selector = caller.open_selector()?;
/// # let channel = caller.open_channel(Kind::Stream)?;
/// # caller.set_blocking(channel, false)?;
/// let key = caller.register(selector, channel, Ops::READ, 0)?;
/// let mut selection = caller.select(selector, Wait::Forever)?;
/// let selected = loop {
///     assert_eq!(selection.asked()[0].key, key); // ... poll, and then:
///     match selection.told(&[Ready { index: key.index, ops: Ops::READ }], false)? {
///         Told::Again(same) => selection = same,
///         Told::Done(selected) => break selected,
///     }
/// };
/// assert_eq!((selected.count, selected.why), (1, Why::Ready));
/// # Ok::<(), Box<dyn std::error::Error>>(())
/// ```
#[must_use = "it ends where it is dropped"]
pub struct Selection<'a> {
    caller: &'a mut Caller,
    selector: Selector,
    until: Until,
}

/// What a selection says when it was told something.
pub enum Told<'a> {
    /// It is over.
    Done(Selected),
    /// It goes on: poll again.
    Again(Selection<'a>),
}

impl<'a> Selection<'a> {
    /// The keys that it asks for.
    pub fn asked(&mut self) -> Vec<Asked> {
        let mut list = Vec::new();
        loop {
            let mut count = 0;
            let status = unsafe {
                raw::nio_asked(&mut self.caller.handle, self.selector.0, list.as_mut_ptr(), list.capacity(), &mut count)
            };
            if status == raw::NIO_NO_ROOM {
                list.reserve(count);
                continue;
            }
            done(status);
            // SAFETY: so many were written.
            unsafe { list.set_len(count) };
            return list.into_iter().map(|looked| self.asked_of(looked)).collect();
        }
    }

    fn asked_of(&self, looked: raw::nio_looked) -> Asked {
        Asked {
            key: Key { selector: self.selector, index: looked.index, serial: looked.serial },
            channel: looked.channel,
            interest: Ops::from_bits(looked.interest),
        }
    }

    /// Tells it what a poll found, by indexes of keys, and whether its time is over, which is ignored where it has
    /// none. An index that it doesn't ask for is ignored, and so is an operation. Where there is no memory it ends with
    /// no answer.
    pub fn told(self, ready: &[Ready], elapsed: bool) -> Result<Told<'a>, ToldError> {
        let (elapsed, enough) = self.over(elapsed);
        let mut selected = raw::nio_selected { count: 0, why: 0 };
        let status = unsafe {
            raw::nio_told(
                &mut self.caller.handle,
                self.selector.0,
                ready.as_ptr().cast(),
                ready.len(),
                elapsed,
                enough,
                &mut selected,
            )
        };
        self.told_so(status, selected)
    }

    /// The same, and lists what that did to keys, as many as there is room for. A key that was marked and then removed is
    /// listed twice. A selection that goes on did nothing to keys.
    pub fn told_listing(self, ready: &[Ready], elapsed: bool, room: usize) -> Result<(Told<'a>, Changes), ToldError> {
        let (elapsed, enough) = self.over(elapsed);
        let mut selected = raw::nio_selected { count: 0, why: 0 };
        let mut list = Vec::with_capacity(room);
        let mut count = 0;
        let status = unsafe {
            raw::nio_told_listing(
                &mut self.caller.handle,
                self.selector.0,
                ready.as_ptr().cast(),
                ready.len(),
                elapsed,
                enough,
                &mut selected,
                list.as_mut_ptr(),
                room,
                &mut count,
            )
        };
        // SAFETY: so many were written.
        unsafe { list.set_len(count.min(room)) };
        let list = list.into_iter().map(|changed| self.changed_of(changed)).collect();
        Ok((self.told_so(status, selected)?, Changes { list, count }))
    }

    fn changed_of(&self, changed: raw::nio_changed) -> Changed {
        let ready = Ops::from_bits(changed.ready);
        Changed {
            key: Key { selector: self.selector, index: changed.index, serial: changed.serial },
            channel: changed.channel,
            change: if changed.removed { Change::Removed } else { Change::Marked(ready) },
        }
    }

    /// Whether it is told that its time is over, and whether it is over once it was told of anything that it asks for.
    fn over(&self, elapsed: bool) -> (bool, bool) {
        match self.until {
            Until::Updated => (elapsed, false),
            Until::Told { timed } => (elapsed && timed, true),
        }
    }

    fn told_so(self, status: raw::nio_status, selected: raw::nio_selected) -> Result<Told<'a>, ToldError> {
        if status == raw::NIO_AGAIN {
            return Ok(Told::Again(self));
        }
        answered(status)?;
        mem::forget(self);
        Ok(Told::Done(selected.into()))
    }

    /// Ends it with no answer, as after a poll that failed.
    pub fn leave(self) {}
}

impl Drop for Selection<'_> {
    fn drop(&mut self) {
        done(unsafe { raw::nio_leave(&mut self.caller.handle, self.selector.0) });
    }
}

#[cfg(test)]
mod tests {
    use super::*;
    use crate::names::{Kind, Why};
    use crate::table::{Limits, Table};
    use std::time::Duration;

    /// A key that is selected already with what is told.
    fn with_selected_key() -> (Caller, Selector, Ready) {
        let table = Table::new(Limits { callers: 1, selectors: 1, channels: 1, keys: 1 }).unwrap();
        let mut caller = table.caller().unwrap();
        let selector = caller.open_selector().unwrap();
        let channel = caller.open_channel(Kind::Source).unwrap();
        caller.set_blocking(channel, false).unwrap();
        let key = caller.register(selector, channel, Ops::READ, 0).unwrap();
        let ready = Ready { index: key.index, ops: Ops::READ };
        let selection = caller.select(selector, Wait::Now).unwrap();
        let Told::Done(selected) = selection.told(&[ready], false).unwrap() else { panic!("it goes on") };
        assert_eq!((selected.count, selected.why), (1, Why::Ready));
        (caller, selector, ready)
    }

    #[test]
    fn goes_on_where_selected_already() {
        let (mut caller, selector, ready) = with_selected_key();
        let selection = caller.select(selector, Wait::Forever).unwrap();
        let Told::Again(selection) = selection.told(&[ready], true).unwrap() else { panic!("it is over") };
        drop(selection);
        let selection = caller.select(selector, Wait::For(Duration::from_millis(1))).unwrap();
        let Told::Done(selected) = selection.told(&[], true).unwrap() else { panic!("it goes on") };
        assert_eq!((selected.count, selected.why), (0, Why::Elapsed));
    }

    #[test]
    fn over_where_told() {
        let (mut caller, selector, ready) = with_selected_key();
        let selection = caller.select_told(selector, Wait::Forever).unwrap();
        let Told::Again(selection) = selection.told(&[], true).unwrap() else { panic!("it is over") };
        let Told::Done(selected) = selection.told(&[ready], false).unwrap() else { panic!("it goes on") };
        assert_eq!((selected.count, selected.why), (0, Why::Elapsed));
        assert_eq!(caller.take_all_selected(selector).unwrap().len(), 1);
    }

    #[test]
    fn lists_what_it_did() {
        let table = Table::new(Limits { callers: 2, selectors: 1, channels: 2, keys: 2 }).unwrap();
        let (mut caller, mut second) = (table.caller().unwrap(), table.caller().unwrap());
        let selector = caller.open_selector().unwrap();
        let keys = [(); 2].map(|()| {
            let channel = caller.open_channel(Kind::Source).unwrap();
            caller.set_blocking(channel, false).unwrap();
            caller.register(selector, channel, Ops::READ, 0).unwrap()
        });
        let selection = caller.select(selector, Wait::Forever).unwrap();
        let (Told::Again(selection), none) = selection.told_listing(&[], false, 2).unwrap() else {
            panic!("it is over")
        };
        assert_eq!((none.list.len(), none.count), (0, 0));
        assert!(second.cancel(keys[1]));
        let ready = Ready { index: keys[0].index, ops: Ops::READ };
        let (Told::Done(selected), both) = selection.told_listing(&[ready], false, 2).unwrap() else {
            panic!("it goes on")
        };
        let marked = Changed { key: keys[0], channel: 0, change: Change::Marked(Ops::READ) };
        let removed = Changed { key: keys[1], channel: 1, change: Change::Removed };
        assert_eq!((selected.count, both.count), (1, 2));
        assert_eq!(both.list, [marked, removed]);
    }

    #[test]
    fn busy_while_another_selects() {
        let table = Table::new(Limits { callers: 2, selectors: 1, channels: 1, keys: 1 }).unwrap();
        let (mut first, mut second) = (table.caller().unwrap(), table.caller().unwrap());
        let selector = first.open_selector().unwrap();
        let mut selection = first.select(selector, Wait::Forever).unwrap();
        assert!(selection.asked().is_empty());
        assert_eq!(second.select(selector, Wait::Now).err(), Some(SelectError::Busy));
        assert!(second.shut(selector).unwrap());
        let Told::Done(selected) = selection.told(&[], false).unwrap() else { panic!("it goes on") };
        assert_eq!(selected.why, Why::Closed);
        second.try_finish(selector).unwrap();
        assert_eq!(first.select(selector, Wait::Now).err(), Some(SelectError::Closed));
    }
}
