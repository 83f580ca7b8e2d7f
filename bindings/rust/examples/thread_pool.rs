//! A pool of threads, which take jobs from one channel.
//!
//!     cargo run --release --example thread_pool [LIMIT]
//!
//! counts the primes below LIMIT (100,000), by one job for each thousand.
use std::sync::Arc;
use std::sync::atomic::{AtomicUsize, Ordering};
use std::thread::{self, JoinHandle};
use vahepito::{OpenError, Sender, channel};

type Job = Box<dyn FnOnce() + Send>;

struct Pool {
    jobs: Sender<Job>,
    threads: Vec<JoinHandle<()>>,
}

impl Pool {
    /// This number of threads, and room for this number of jobs that wait.
    fn start(threads: usize, room: usize) -> Result<Pool, OpenError> {
        let (jobs, receiver) = channel::<Job>(room)?;
        let thread = |_| {
            let receiver = receiver.clone();
            thread::spawn(move || receiver.into_iter().for_each(|job| job()))
        };
        let threads = (0..threads).map(thread).collect();
        Ok(Pool { jobs, threads })
    }

    /// Hands a job to the threads. It waits while there is no room. So a job doesn't call it: if all threads waited for
    /// room, no thread would take a job.
    fn run(&self, job: impl FnOnce() + Send + 'static) {
        let sent = self.jobs.send(Box::new(job));
        sent.expect("the threads hold their receivers");
    }

    /// Waits until all jobs are done.
    fn finish(self) {
        drop(self.jobs); // its only sender: the threads see the end once they have taken the last job
        for thread in self.threads {
            thread.join().expect("no job panicked");
        }
    }
}

fn is_prime(n: usize) -> bool {
    n >= 2 && (2..).take_while(|d| d * d <= n).all(|d| n % d != 0)
}

fn main() -> Result<(), OpenError> {
    let limit: usize = std::env::args()
        .nth(1)
        .map_or(100_000, |word| word.parse().expect("a number"));
    let pool = Pool::start(4, 16)?;
    let primes = Arc::new(AtomicUsize::new(0));
    for from in (0..limit).step_by(1000) {
        let primes = primes.clone();
        pool.run(move || {
            let found = (from..limit.min(from + 1000))
                .filter(|n| is_prime(*n))
                .count();
            primes.fetch_add(found, Ordering::Relaxed);
        });
    }
    pool.finish();
    println!("{} primes below {limit}", primes.load(Ordering::Relaxed));
    Ok(())
}
