//! Room for one item, reserved before there is an item: a select of one send.
use super::select::{Arm, Begun, SelectedOperation, select_arms};
use super::{SendError, Sender, TrySendError};
use crate::host::time::Duration;

/// Room for one item, which [`Sender::reserve`] or [`Sender::try_reserve`] has reserved.
///
/// If it is dropped, the room is given back; if it is forgotten, the room stays reserved. With capacity 0 the permit has a
/// receiver, which waits until the permit is used or dropped, even if its timeout is over: so make the item soon.
#[derive(Debug)]
#[must_use = "its room is given back if it is dropped"]
pub struct Permit<'a, T> {
    sender: &'a Sender<T>,
    room: SelectedOperation<'a>,
}

impl<T> Permit<'_, T> {
    /// Sends the item, and waits for nothing, unless memory is wanting for a further queue.
    ///
    /// # Errors
    ///
    /// The channel was closed meanwhile: the item is handed back.
    ///
    /// ```
    /// let (sender, receiver) = vahepito::bounded(1);
    /// let permit = sender.reserve().unwrap();
    /// assert!(sender.try_send("another").unwrap_err().is_full());
    /// permit.send("made once there is room").unwrap();
    /// assert_eq!(receiver.recv(), Ok("made once there is room"));
    /// ```
    pub fn send(self, item: T) -> Result<(), SendError<T>> {
        self.room.send(self.sender, item)
    }
}

impl<T> Sender<T> {
    /// Reserves room within this time. None if there was none.
    fn reserve_within(
        &self,
        time: Option<Duration>,
    ) -> Option<Result<Permit<'_, T>, SendError<()>>> {
        let room = select_arms([Arm::send(self)], true, time)?;
        let is_closed = matches!(room.begun, Some(Begun::Closed));
        let permit = Permit { sender: self, room };
        Some(if is_closed {
            Err(SendError(()))
        } else {
            Ok(permit)
        })
    }

    /// Reserves room for one item, and waits for room. So an item is made only if it can be sent.
    ///
    /// # Errors
    ///
    /// The channel is closed.
    ///
    /// ```
    /// let (sender, receiver) = vahepito::bounded(1);
    /// drop(sender.reserve().unwrap()); // and gives it back
    /// sender.reserve().unwrap().send('a').unwrap();
    /// drop(receiver);
    /// assert!(sender.reserve().is_err());
    /// ```
    pub fn reserve(&self) -> Result<Permit<'_, T>, SendError<()>> {
        let reserved = self.reserve_within(None);
        reserved.expect("it waits without end")
    }

    /// Reserves room for one item, if there is some. With capacity 0 a receiver is to wait.
    ///
    /// # Errors
    ///
    /// There is no room, or the channel is closed.
    ///
    /// ```
    /// let (sender, _receiver) = vahepito::bounded::<u8>(1);
    /// let permit = sender.try_reserve().unwrap();
    /// assert!(sender.try_reserve().unwrap_err().is_full());
    /// drop(permit);
    /// assert!(sender.try_reserve().is_ok());
    /// ```
    pub fn try_reserve(&self) -> Result<Permit<'_, T>, TrySendError<()>> {
        let reserved = self.reserve_within(Some(Duration::ZERO));
        let reserved = reserved.ok_or(TrySendError::Full(()))?;
        reserved.map_err(|_| TrySendError::Disconnected(()))
    }
}
