//! What the crate asks of the system's scheduler: on which processor a thread runs; and a longer slice, for threads
//! that ask for it.
#![allow(unsafe_code)]

use std::cell::Cell;
use std::io;

/// Whether a thread can ask in some nanoseconds on which processor it runs. The thread sanitizer doesn't see parks, for
/// which this is.
pub const KNOWS_PROCESSORS: bool = cfg!(all(
    target_os = "linux",
    target_arch = "x86_64",
    not(vahepito_tsan)
));

thread_local! {
    /// The processor on which this thread ran when it last asked, from 1; 0 if it isn't known.
    static PROCESSOR: Cell<u32> = const { Cell::new(0) };
}

/// The processor on which this thread ran when it last asked, from 1; 0 if it isn't known.
#[inline]
pub fn last_processor() -> u32 {
    PROCESSOR.get()
}

/// Asks on which processor this thread runs. The answer may be old at once.
pub fn ask_processor() -> u32 {
    #[cfg(target_os = "linux")]
    if KNOWS_PROCESSORS {
        PROCESSOR.set(of_linux::processor());
    }
    last_processor()
}

/// Lets the calling thread, and threads that it starts later, keep a processor for 12 milliseconds before another
/// thread gets it; Linux gives them about 3.
///
/// A call is long if the thread that serves its side loses its processor. With this fewer do: of 16 senders one send of
/// 10,000 takes some twenty microseconds or more, and not some hundred (`docs/BENCH.md`). Others pay for it: a thread
/// that gets ready on such a processor, another program's too, may wait up to 12 milliseconds for it. No call of the
/// crate asks for it by itself. It needs Linux 6.12 or later, and no privilege.
///
/// # Errors
///
/// [`Unsupported`](io::ErrorKind::Unsupported) if the system doesn't know slices;
/// [`InvalidInput`](io::ErrorKind::InvalidInput) if the thread has another policy than `SCHED_OTHER` and `SCHED_BATCH`;
/// otherwise what the system says, for a filter of system calls say. The slice is as before then.
///
/// ```
/// if let Err(error) = vahepito::lengthen_slice() {
///     eprintln!("the slice stays as it is: {error}");
/// }
/// ```
pub fn lengthen_slice() -> io::Result<()> {
    #[cfg(target_os = "linux")]
    if let Some(numbers) = of_linux::CALLS {
        return of_linux::lengthen(numbers);
    }
    Err(io::ErrorKind::Unsupported.into())
}

#[cfg(target_os = "linux")]
mod of_linux {
    use std::ffi::{c_int, c_long, c_uint};
    use std::io;

    const NANOSECONDS: u64 = 12_000_000;
    const OTHER: u32 = 0;
    const BATCH: u32 = 3;

    /// The numbers of `sched_setattr` and `sched_getattr`, on the targets of which they are known.
    pub const CALLS: Option<(c_long, c_long)> =
        match (cfg!(target_arch = "x86_64"), cfg!(target_arch = "aarch64")) {
            (true, _) => Some((314, 315)),
            (_, true) => Some((274, 275)),
            _ => None,
        };

    /// `struct sched_attr` in its first version. The slice of an ordinary thread is its `runtime`.
    #[repr(C)]
    #[derive(Default)]
    struct Attributes {
        size: u32,
        policy: u32,
        flags: u64,
        nice: i32,
        priority: u32,
        runtime: u64,
        deadline: u64,
        period: u64,
    }

    const SIZE: u32 = size_of::<Attributes>() as u32;

    unsafe extern "C" {
        fn syscall(number: c_long, ...) -> c_long;
        safe fn sched_getcpu() -> c_int;
    }

    /// The processor on which this thread runs, from 1; 0 if the C library doesn't know it.
    pub fn processor() -> u32 {
        u32::try_from(sched_getcpu()).map_or(0, |it| 1 + it)
    }

    /// Makes one of these calls for this thread. One of them has a third argument, the size; the other one has flags
    /// there, 0.
    fn call(number: c_long, attributes: &mut Attributes, third: c_uint) -> io::Result<()> {
        let (thread, flags): (c_int, c_uint) = (0, 0);
        // SAFETY: the system reads, or writes, no more bytes there than the size says that it is given.
        if unsafe { syscall(number, thread, &raw mut *attributes, third, flags) } < 0 {
            return Err(io::Error::last_os_error());
        }
        Ok(())
    }

    fn attributes(number: c_long) -> io::Result<Attributes> {
        let mut of_thread = Attributes::default();
        call(number, &mut of_thread, SIZE)?;
        Ok(of_thread)
    }

    pub fn lengthen((set, get): (c_long, c_long)) -> io::Result<()> {
        let before = attributes(get)?;
        if ![OTHER, BATCH].contains(&before.policy) {
            return Err(io::ErrorKind::InvalidInput.into());
        }
        let mut wanted = Attributes {
            size: SIZE,
            runtime: NANOSECONDS,
            ..before
        };
        call(set, &mut wanted, 0)?;
        // An earlier system doesn't look at the slice.
        match attributes(get)?.runtime {
            NANOSECONDS => Ok(()),
            _ => Err(io::ErrorKind::Unsupported.into()),
        }
    }

    #[cfg(test)]
    mod tests {
        use super::{CALLS, NANOSECONDS, attributes};
        use crate::lengthen_slice as lengthen;
        use std::ffi::{c_int, c_long};
        use std::io;
        use std::thread;

        const IDLE: c_int = 5;

        unsafe extern "C" {
            fn sched_setscheduler(thread: c_int, policy: c_int, priority: &c_int) -> c_long;
        }

        fn slice() -> u64 {
            attributes(CALLS.unwrap().1).unwrap().runtime
        }

        #[test]
        fn a_thread_and_those_that_it_starts_get_a_longer_slice() {
            let before = slice();
            let longer = thread::spawn(|| {
                lengthen().map(|()| (slice(), thread::spawn(slice).join().unwrap()))
            });
            match longer.join().unwrap() {
                Ok(both) => assert_eq!(both, (NANOSECONDS, NANOSECONDS)),
                Err(error) => assert_eq!(error.kind(), io::ErrorKind::Unsupported),
            }
            assert_eq!(slice(), before);
        }

        #[test]
        fn an_idle_thread_gets_none() {
            let refused = thread::spawn(|| {
                // SAFETY: the C library's declaration.
                assert!(unsafe { sched_setscheduler(0, IDLE, &0) } >= 0);
                lengthen().map_err(|error| error.kind())
            });
            assert_eq!(refused.join().unwrap(), Err(io::ErrorKind::InvalidInput));
        }
    }
}
