//! Records the channels of this repository, of crossbeam and of flume, as `bindings/rust/record/examples/record.rs` records its
//! queues, which are here too.
#[allow(dead_code)]
#[path = "../../bindings/rust/record/examples/record.rs"]
mod record;

impl record::Queue for (vahepito::Sender<u64>, vahepito::Receiver<u64>) {
    fn send(&self, item: u64) -> record::Sent {
        match self.0.try_send(item) {
            Ok(()) => record::Sent::Accepted,
            Err(vahepito::TrySendError::Full(_)) => record::Sent::Full,
            Err(vahepito::TrySendError::Disconnected(_)) => record::Sent::Closed,
        }
    }

    fn take(&self) -> record::Taken {
        match self.1.try_recv() {
            Ok(item) => record::Taken::Item(item),
            Err(vahepito::TryRecvError::Empty) => record::Taken::None,
            Err(vahepito::TryRecvError::Disconnected) => record::Taken::Ended,
        }
    }
}

#[cfg(feature = "crossbeam-channel")]
impl record::Queue
    for (
        crossbeam_channel::Sender<u64>,
        crossbeam_channel::Receiver<u64>,
    )
{
    fn send(&self, item: u64) -> record::Sent {
        match self.0.try_send(item) {
            Ok(()) => record::Sent::Accepted,
            Err(crossbeam_channel::TrySendError::Full(_)) => record::Sent::Full,
            Err(crossbeam_channel::TrySendError::Disconnected(_)) => record::Sent::Closed,
        }
    }

    fn take(&self) -> record::Taken {
        match self.1.try_recv() {
            Ok(item) => record::Taken::Item(item),
            Err(crossbeam_channel::TryRecvError::Empty) => record::Taken::None,
            Err(crossbeam_channel::TryRecvError::Disconnected) => record::Taken::Ended,
        }
    }
}

#[cfg(feature = "flume")]
impl record::Queue for (flume::Sender<u64>, flume::Receiver<u64>) {
    fn send(&self, item: u64) -> record::Sent {
        match self.0.try_send(item) {
            Ok(()) => record::Sent::Accepted,
            Err(flume::TrySendError::Full(_)) => record::Sent::Full,
            Err(flume::TrySendError::Disconnected(_)) => record::Sent::Closed,
        }
    }

    fn take(&self) -> record::Taken {
        match self.1.try_recv() {
            Ok(item) => record::Taken::Item(item),
            Err(flume::TryRecvError::Empty) => record::Taken::None,
            Err(flume::TryRecvError::Disconnected) => record::Taken::Ended,
        }
    }
}

fn main() -> std::io::Result<()> {
    match std::env::args().nth(1).as_deref() {
        Some("channel") => {
            record::write_record(&vahepito::channel::<u64>(64).expect("64 is in range"))
        }
        #[cfg(feature = "crossbeam-channel")]
        Some("crossbeam-channel") => record::write_record(&crossbeam_channel::bounded(64)),
        #[cfg(feature = "flume")]
        Some("flume") => record::write_record(&flume::bounded(64)),
        _ => record::main(),
    }
}
