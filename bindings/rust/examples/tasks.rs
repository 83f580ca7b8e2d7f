//! An async pipeline without a runtime: tasks wait in `recv_async` and `send_async`, and threads in `recv` and `send`,
//! at the same channels.
//!
//!     cargo run --release --example tasks [LIMIT]
//!
//! A thread sends the numbers up to LIMIT (10,000). Three tasks take them, and send their squares. Another thread adds up
//! the squares, and the program prints the sum. All tasks run on the main thread, which parks if each of them waits.
//! With a runtime, give the same futures to its `spawn` or `block_on`.
use std::pin::{Pin, pin};
use std::sync::Arc;
use std::task::{Context, Poll, Wake, Waker};
use std::thread::{self, Thread};
use vahepito::{OpenError, Receiver, SendError, Sender, channel};

/// A task: it ends with the channel that it takes from.
async fn square(numbers: Receiver<u64>, squares: Sender<u64>) -> Result<(), SendError<u64>> {
    while let Ok(number) = numbers.recv_async().await {
        squares.send_async(number * number).await?;
    }
    Ok(())
}

/// Runs all of these on one thread, until each is done.
async fn join_all<F: Future>(tasks: Vec<F>) {
    let mut tasks: Vec<Pin<Box<F>>> = tasks.into_iter().map(Box::pin).collect();
    std::future::poll_fn(|context| {
        tasks.retain_mut(|task| task.as_mut().poll(context).is_pending());
        if tasks.is_empty() {
            Poll::Ready(())
        } else {
            Poll::Pending
        }
    })
    .await;
}

/// Wakes a thread that parks.
struct Unpark(Thread);

impl Wake for Unpark {
    fn wake(self: Arc<Self>) {
        self.0.unpark();
    }
}

/// Polls a future until it is done, and parks in between.
fn block_on<F: Future>(future: F) -> F::Output {
    let mut future = pin!(future);
    let waker = Waker::from(Arc::new(Unpark(thread::current())));
    let mut context = Context::from_waker(&waker);
    loop {
        match future.as_mut().poll(&mut context) {
            Poll::Ready(output) => return output,
            Poll::Pending => thread::park(),
        }
    }
}

fn main() -> Result<(), OpenError> {
    let limit = std::env::args()
        .nth(1)
        .map_or(10_000, |word| word.parse().expect("a number"));
    let (sender, numbers) = channel::<u64>(16)?;
    let (squares, results) = channel::<u64>(16)?;
    let source = thread::spawn(move || (1..=limit).try_for_each(|number| sender.send(number)));
    let sum = thread::spawn(move || results.into_iter().sum::<u64>());
    let task = || square(numbers.clone(), squares.clone());
    let tasks = vec![task(), task(), task()];
    drop((numbers, squares)); // the tasks have the last handles
    block_on(join_all(tasks));
    let sent = source.join().expect("the source doesn't panic");
    assert!(sent.is_ok(), "the tasks take until the end");
    let sum = sum.join().expect("the sum doesn't panic");
    println!("the sum of the squares up to {limit} is {sum}");
    Ok(())
}
