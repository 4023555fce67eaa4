//! The calls of a caller, but for selections.

use crate::error::{
    answered, done, BlockingError, FinishError, KeyError, ListError, NoSuchCaller, NoSuchSelector, OpenError,
    RegisterError, ReopenError,
};
use crate::names::{CallerNumber, Channel, Key, Kind, Ops, Selector};
use crate::raw;
use crate::table::Caller;

const NO_CHANNEL: raw::nio_channel = raw::nio_channel { number: 0, serial: 0 };
const NO_KEY: raw::nio_key = raw::nio_key { selector: 0, index: 0, serial: 0 };

/// A call that lists keys.
type Lists = unsafe extern "C" fn(*mut raw::nio_caller, u32, *mut raw::nio_key, usize, *mut usize) -> raw::nio_status;

/// # Selectors
impl Caller {
    /// `Selector.open`.
    pub fn open_selector(&mut self) -> Result<Selector, OpenError> {
        let mut number = 0;
        answered(unsafe { raw::nio_open_selector(&mut self.handle, &mut number) })?;
        Ok(Selector(number))
    }

    /// Whether the selector was opened.
    pub fn has_selector(&mut self, selector: Selector) -> bool {
        found(unsafe { raw::nio_find_selector(&mut self.handle, selector.0) }, raw::NIO_NO_SUCH_SELECTOR)
    }

    /// The keys, in rising order of their indexes: `Selector.keys`.
    pub fn keys(&mut self, selector: Selector) -> Result<Vec<Key>, ListError> {
        self.list(raw::nio_keys, selector)
    }

    /// The selected keys: `Selector.selectedKeys`.
    pub fn selected_keys(&mut self, selector: Selector) -> Result<Vec<Key>, ListError> {
        self.list(raw::nio_selected_keys, selector)
    }

    /// The selected keys, which are taken out of the selected set, one after the other.
    pub fn take_all_selected(&mut self, selector: Selector) -> Result<Vec<Key>, ListError> {
        self.list(raw::nio_take_all_selected, selector)
    }

    fn list(&mut self, lists: Lists, selector: Selector) -> Result<Vec<Key>, ListError> {
        let mut keys = Vec::new();
        loop {
            let mut count = 0;
            let status = unsafe { lists(&mut self.handle, selector.0, keys.as_mut_ptr(), keys.capacity(), &mut count) };
            if status == raw::NIO_NO_ROOM {
                keys.reserve(count);
                continue;
            }
            answered(status)?;
            // SAFETY: so many were written.
            unsafe { keys.set_len(count) };
            return Ok(keys.into_iter().map(Key::from).collect());
        }
    }

    /// Leaves a wakeup: the selection in progress, or else the next one, doesn't wait. `Selector.wakeup`. Says whether
    /// one was pending already, which no selection had used up.
    pub fn wakeup(&mut self, selector: Selector) -> Result<bool, NoSuchSelector> {
        let mut pending = false;
        answered(unsafe { raw::nio_wakeup(&mut self.handle, selector.0, &mut pending) })?;
        Ok(pending)
    }

    /// Sets the interrupt status of the caller with this number: `Thread.interrupt`.
    pub fn interrupt(&mut self, caller: CallerNumber) -> Result<(), NoSuchCaller> {
        answered(unsafe { raw::nio_interrupt(&mut self.handle, caller.0) })
    }

    /// Whether its own interrupt status was set; clears it: `Thread.interrupted`.
    pub fn interrupted(&mut self) -> bool {
        self.answer(|handle, answer| unsafe { raw::nio_interrupted(handle, answer) })
    }

    /// Takes the selector's list, where nobody has it: the caller has it for good, and its selections there look only
    /// at the keys that were touched since the last. Says whether it was taken.
    pub fn take_list(&mut self, selector: Selector) -> bool {
        self.answer(|handle, answer| unsafe { raw::nio_take_list(handle, selector.0, answer) })
    }

    /// Begins to close the selector: selections and registrations are refused from then on. Says whether this call
    /// began it; then `try_finish` ends it.
    pub fn shut(&mut self, selector: Selector) -> Result<bool, NoSuchSelector> {
        let mut began = false;
        answered(unsafe { raw::nio_shut(&mut self.handle, selector.0, &mut began) })?;
        Ok(began)
    }

    /// Ends the closing that the caller began: removes the selector's keys.
    pub fn try_finish(&mut self, selector: Selector) -> Result<(), FinishError> {
        answered(unsafe { raw::nio_try_finish(&mut self.handle, selector.0) })
    }

    /// A call that refuses nothing.
    fn answer(&mut self, call: impl FnOnce(&mut raw::nio_caller, &mut bool) -> raw::nio_status) -> bool {
        let mut answer = false;
        done(call(&mut self.handle, &mut answer));
        answer
    }
}

/// # Channels
impl Caller {
    /// Opens a channel, in blocking mode.
    pub fn open_channel(&mut self, kind: Kind) -> Result<Channel, OpenError> {
        let mut channel = NO_CHANNEL;
        answered(unsafe { raw::nio_open_channel(&mut self.handle, kind as u32, &mut channel) })?;
        Ok(channel.into())
    }

    /// Opens a channel of the number of this one, which is closed: the quick way.
    pub fn reopen_channel(&mut self, channel: Channel) -> Result<Channel, ReopenError> {
        let mut next = NO_CHANNEL;
        answered(unsafe { raw::nio_reopen_channel(&mut self.handle, channel.into(), &mut next) })?;
        Ok(next.into())
    }

    /// Whether the channel was opened.
    pub fn has_channel(&mut self, channel: Channel) -> bool {
        found(unsafe { raw::nio_find_channel(&mut self.handle, channel.into()) }, raw::NIO_NO_SUCH_CHANNEL)
    }

    /// `isOpen`. False where there is no such channel.
    pub fn is_open(&mut self, channel: Channel) -> bool {
        self.answer(|handle, answer| unsafe { raw::nio_is_open(handle, channel.into(), answer) })
    }

    /// `isBlocking`. False where there is no such channel.
    pub fn is_blocking(&mut self, channel: Channel) -> bool {
        self.answer(|handle, answer| unsafe { raw::nio_is_blocking(handle, channel.into(), answer) })
    }

    /// `configureBlocking`.
    pub fn set_blocking(&mut self, channel: Channel, on: bool) -> Result<(), BlockingError> {
        answered(unsafe { raw::nio_set_blocking(&mut self.handle, channel.into(), on) })
    }

    /// `register`. Where the channel has a valid key there, that key gets these operations, and the attachment where
    /// that isn't 0.
    pub fn register(
        &mut self,
        selector: Selector,
        channel: Channel,
        ops: Ops,
        attachment: u64,
    ) -> Result<Key, RegisterError> {
        let mut key = NO_KEY;
        answered(unsafe {
            raw::nio_register(&mut self.handle, selector.0, channel.into(), ops.bits(), attachment, &mut key)
        })?;
        Ok(key.into())
    }

    /// `keyFor`. None where there is no such channel or selector.
    pub fn key_for(&mut self, channel: Channel, selector: Selector) -> Option<Key> {
        let mut key = NO_KEY;
        let status = unsafe { raw::nio_key_for(&mut self.handle, channel.into(), selector.0, &mut key) };
        found(status, raw::NIO_NO_SUCH_KEY).then(|| key.into())
    }

    /// `isRegistered`. False where there is no such channel.
    pub fn is_registered(&mut self, channel: Channel) -> bool {
        self.answer(|handle, answer| unsafe { raw::nio_is_registered(handle, channel.into(), answer) })
    }

    /// `close`: closes the channel and cancels its keys. Says whether this call closed it.
    pub fn close_channel(&mut self, channel: Channel) -> bool {
        self.answer(|handle, answer| unsafe { raw::nio_close_channel(handle, channel.into(), answer) })
    }
}

/// # Keys
impl Caller {
    /// Whether the key was made.
    pub fn has_key(&mut self, key: Key) -> bool {
        found(unsafe { raw::nio_find_key(&mut self.handle, key.into()) }, raw::NIO_NO_SUCH_KEY)
    }

    /// `isValid`. False where there is no such key.
    pub fn is_valid(&mut self, key: Key) -> bool {
        self.answer(|handle, answer| unsafe { raw::nio_is_valid(handle, key.into(), answer) })
    }

    /// `cancel`. Says whether there is such a key.
    pub fn cancel(&mut self, key: Key) -> bool {
        found(unsafe { raw::nio_cancel(&mut self.handle, key.into()) }, raw::NIO_NO_SUCH_KEY)
    }

    /// `interestOps()`.
    pub fn interest(&mut self, key: Key) -> Result<Ops, KeyError> {
        self.ops(|handle, ops| unsafe { raw::nio_interest(handle, key.into(), ops) })
    }

    /// `interestOps(int)`.
    pub fn set_interest(&mut self, key: Key, ops: Ops) -> Result<(), KeyError> {
        answered(unsafe { raw::nio_set_interest(&mut self.handle, key.into(), ops.bits()) })
    }

    /// `interestOpsOr`: adds these, and answers what it was.
    pub fn interest_or(&mut self, key: Key, ops: Ops) -> Result<Ops, KeyError> {
        self.ops(|handle, before| unsafe { raw::nio_interest_or(handle, key.into(), ops.bits(), before) })
    }

    /// `interestOpsAnd`: keeps only these, and answers what it was.
    pub fn interest_and(&mut self, key: Key, ops: Ops) -> Result<Ops, KeyError> {
        self.ops(|handle, before| unsafe { raw::nio_interest_and(handle, key.into(), ops.bits(), before) })
    }

    /// `readyOps`.
    pub fn ready(&mut self, key: Key) -> Result<Ops, KeyError> {
        self.ops(|handle, ready| unsafe { raw::nio_ready(handle, key.into(), ready) })
    }

    /// A call that answers a set of operations.
    fn ops(
        &mut self,
        call: impl FnOnce(&mut raw::nio_caller, &mut raw::nio_ops) -> raw::nio_status,
    ) -> Result<Ops, KeyError> {
        let mut ops = 0;
        answered(call(&mut self.handle, &mut ops))?;
        Ok(Ops::from_bits(ops))
    }

    /// Takes the key out of the selected set: `selectedKeys().remove`. False where there is no such key.
    pub fn unselect(&mut self, key: Key) -> bool {
        self.answer(|handle, answer| unsafe { raw::nio_unselect(handle, key.into(), answer) })
    }

    /// Takes the channel's key out of the selected set. None where it has none there.
    pub fn take_selected(&mut self, channel: Channel, selector: Selector) -> Option<Key> {
        let mut key = NO_KEY;
        let status = unsafe { raw::nio_take_selected(&mut self.handle, channel.into(), selector.0, &mut key) };
        found(status, raw::NIO_NO_SUCH_KEY).then(|| key.into())
    }

    /// `attach`: 0 is no attachment. Answers the one before; 0 where there is no such key, or its index went to another
    /// one.
    pub fn attach(&mut self, key: Key, attachment: u64) -> u64 {
        let mut before = 0;
        done(unsafe { raw::nio_attach(&mut self.handle, key.into(), attachment, &mut before) });
        before
    }

    /// `attachment`. 0 where there is none, no such key, or its index went to another one.
    pub fn attachment(&mut self, key: Key) -> u64 {
        let mut attachment = 0;
        done(unsafe { raw::nio_attachment(&mut self.handle, key.into(), &mut attachment) });
        attachment
    }
}

/// Whether what was named was found.
fn found(status: raw::nio_status, missing: raw::nio_status) -> bool {
    if status == missing {
        return false;
    }
    done(status);
    true
}
