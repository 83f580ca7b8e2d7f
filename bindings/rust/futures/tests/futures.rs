//! Streams and sinks, polled by hand and by a thread.
use futures_core::future::FusedFuture;
use futures_core::stream::{FusedStream, Stream};
use futures_sink::Sink;
use std::future::poll_fn;
use std::pin::{Pin, pin};
use std::sync::Arc;
use std::task::{Context, Poll, Wake, Waker};
use std::thread;
use vahepito::{SendError, channel};
use vahepito_futures::{Fused, RecvStream, SendSink};

struct Unpark(thread::Thread);

impl Wake for Unpark {
    fn wake(self: Arc<Self>) {
        self.0.unpark();
    }
}

fn block_on<F: Future>(future: F) -> F::Output {
    let mut future = pin!(future);
    let waker = Waker::from(Arc::new(Unpark(thread::current())));
    loop {
        match future.as_mut().poll(&mut Context::from_waker(&waker)) {
            Poll::Ready(output) => return output,
            Poll::Pending => thread::park(),
        }
    }
}

#[test]
fn a_sink_and_a_stream_of_two_threads() {
    const ITEMS: u32 = 3000;
    let (sender, receiver) = channel(3).unwrap();
    let (mut sink, mut stream) = (SendSink::from(sender), RecvStream::from(receiver));
    thread::scope(|scope| {
        scope.spawn(move || {
            block_on(async {
                for item in 0..ITEMS {
                    poll_fn(|context| Pin::new(&mut sink).poll_ready(context))
                        .await
                        .unwrap();
                    Pin::new(&mut sink).start_send(item).unwrap();
                }
                poll_fn(|context| Pin::new(&mut sink).poll_close(context))
                    .await
                    .unwrap();
                assert_eq!(Pin::new(&mut sink).start_send(0), Err(SendError(0)));
            });
        });
        block_on(async {
            for item in 0..ITEMS {
                let next = poll_fn(|context| Pin::new(&mut stream).poll_next(context)).await;
                assert_eq!(next, Some(item));
            }
            assert!(!stream.is_terminated());
            let next = poll_fn(|context| Pin::new(&mut stream).poll_next(context)).await;
            assert!(next.is_none() && stream.is_terminated());
        });
    });
}

#[test]
fn a_sink_tells_that_the_channel_is_closed() {
    let (sender, receiver) = channel(1).unwrap();
    let mut sink = SendSink::from(sender);
    drop(receiver);
    Pin::new(&mut sink).start_send('a').unwrap();
    let early = Pin::new(&mut sink).start_send('b');
    assert_eq!(
        early,
        Err(SendError('b')),
        "the first one is still being sent"
    );
    let told = block_on(poll_fn(|context| Pin::new(&mut sink).poll_flush(context)));
    assert_eq!(told, Err(SendError('a')));
}

#[test]
fn a_fused_future_says_whether_it_is_done() {
    let (sender, receiver) = channel(1).unwrap();
    let (mut sends, mut takes) = (Fused(sender.send_async('a')), Fused(receiver.recv_async()));
    assert!(!sends.is_terminated() && !takes.is_terminated());
    assert_eq!(block_on(&mut sends), Ok(()));
    assert_eq!(block_on(&mut takes), Ok('a'));
    assert!(sends.is_terminated() && takes.is_terminated());
}
