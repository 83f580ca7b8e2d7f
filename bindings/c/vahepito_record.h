/* Records the calls on any queue, as a log that `ccq judge` judges: is it linearizable (docs/JUDGE.md)? This header
 * needs nothing else of vahepito, and no library is linked.
 *
 *     vahepito_log log;
 *     vahepito_log_open(&log, "LOG");                          once; 0, or -1 with errno
 *     vahepito_recorder mine;                                  in each thread, until the log is closed
 *     vahepito_recorder_open(&mine, &log);
 *     vahepito_begin_recorded_send(&mine, item);               before a send
 *     vahepito_end_recorded_send(&mine, VAHEPITO_SENT);        after it; or .._WAS_FULL, .._WAS_CLOSED
 *     vahepito_begin_recorded_take(&mine);
 *     vahepito_end_recorded_take(&mine, VAHEPITO_TOOK, item);  or .._FOUND_NONE, .._FOUND_END, without an item: 0
 *     vahepito_begin_recorded_close(&mine);                    before each close, and after it
 *     vahepito_end_recorded_close(&mine);
 *     vahepito_log_round(&log);                                now and then, by any thread
 *     vahepito_log_close(&log);                                at the end; 0 if the log is whole, or -1 with errno
 *
 * Items are numbers, and no two sends that are accepted have the same. A thread uses its own recorder alone, which
 * isn't moved, and begins no call before its last one has ended; if it gives that one up, it calls vahepito_give_up
 * first. That call is then one that hasn't returned, and later calls have a new thread's name.
 *
 * The log is written in rounds: if a recorder is full, at each vahepito_log_round, and at the end. After a round the
 * file is the log of the run up to a moment of that round: pending calls are in it as calls that haven't returned. So
 * the log is right if the program hangs or is killed, and lacks only what came after the last round. Let the thread
 * that waits for the others do a round every tenth of a second. If a round is killed while it writes, the log is
 * refused, by the line that begins with `!`.
 *
 * A pipe, as mkfifo makes it, gets whole lines of calls that have ended, and those of pending calls at the end. So if
 * the program is killed, its log ends early: the pending calls aren't in it. If the reader has gone, the program gets
 * SIGPIPE; a program that ignores SIGPIPE goes on, and nothing more is written.
 *
 * A write that fails ends the log early, and so does a limit, of which there is none unless `log.limit` is set after
 * vahepito_log_open, in bytes. The file is then as the last round left it, and vahepito_log_close returns -1, with
 * errno of the first write that failed, or EFBIG for the limit. The last line says so too: {"ends":"whole"} or
 * {"ends":"early"}; the log of a program that was killed has neither.
 *
 * The stamps are those of vahepito_log_now(&log), which a caller can read too. The lines of two files of one such clock
 * are one log, if the names of their threads differ and this one comes last.
 *
 * With VAHEPITO_RECORD_STOPS defined before the header (Linux), threads can be stopped in the middle of their calls:
 * see vahepito_stop_threads below. Faults that need a thread to be interrupted between two of its steps are found far
 * sooner so.
 *
 * A call costs two reads of the monotonic clock, two fences and some ten stores. Of 256 calls one takes a lock, before
 * it begins, and may do a round, which takes about half a microsecond a line. The package rust/record says why a round
 * is right: it reads the clock before it reads the recorders, and a call that isn't seen then began after that moment,
 * or had no effect yet.
 *
 * It needs gcc or clang, and POSIX: with -std=c99 or c11, define _POSIX_C_SOURCE as 200809L before the first header. */
#ifndef VAHEPITO_RECORD_H
#define VAHEPITO_RECORD_H

#include <errno.h>
#include <fcntl.h>
#include <inttypes.h>
#include <sched.h>
#include <stdio.h>
#include <stdlib.h>
#include <time.h>
#include <unistd.h>

#ifdef VAHEPITO_RECORD_LIMIT
#error "VAHEPITO_RECORD_LIMIT is gone: set log.limit after vahepito_log_open"
#endif

/* What a call is, a send (0), a take (1) or a close (8), and its answer. */
enum { VAHEPITO_IS_TAKE = 1, VAHEPITO_SENT = 2, VAHEPITO_WAS_FULL = 4, VAHEPITO_WAS_CLOSED = 6 };
enum { VAHEPITO_TOOK = 3, VAHEPITO_FOUND_NONE = 5, VAHEPITO_FOUND_END = 7 };
enum { VAHEPITO_IS_CLOSE = 8, VAHEPITO_HAS_CLOSED = 10, VAHEPITO_ACTS = 9 };

enum { VAHEPITO_RECORDED = 256 };
typedef struct { uint64_t begin, end, item, what; } vahepito_recorded;

/* The calls of a thread that aren't written yet. Of `stage` the half is how many have ended; it's odd while one is
 * pending. `thread` is the system's number of the thread that made the last call, if threads can be stopped. */
typedef struct vahepito_recorder {
    struct vahepito_log *log;
    struct vahepito_recorder *next;
    uint64_t name, stage, written, last;
    long thread;
    vahepito_recorded calls[VAHEPITO_RECORDED];
} vahepito_recorder;

/* All recorders; of the file the bytes that stay, the text behind them, of calls that were pending in the last round,
 * and its size; the most bytes; why nothing more is written, an errno; a lock; whether no line is written over. */
typedef struct vahepito_log {
    vahepito_recorder *first;
    uint64_t names, kept, start, limit;
    char *shown;
    size_t shown_size;
    int file, over, lock, is_pipe;
} vahepito_log;

#define VAHEPITO_ENDS_WHOLE "{\"ends\":\"whole\"}\n"
#define VAHEPITO_ENDS_EARLY "{\"ends\":\"early\"}\n"

#define VAHEPITO_GET(place, order) __atomic_load_n(&(place), __ATOMIC_##order)
#define VAHEPITO_SET(place, value, order) __atomic_store_n(&(place), (value), __ATOMIC_##order)

/* The first moment after one, in nanoseconds from the log's start. */
static inline uint64_t vahepito_moment_after(const vahepito_log *log, uint64_t moment) {
    struct timespec time;
    uint64_t now = 0;
    while (now <= moment && clock_gettime(CLOCK_MONOTONIC, &time) == 0)
        now = (uint64_t)time.tv_sec * 1000000000u + (uint64_t)time.tv_nsec - log->start;
    return now;
}

/* Now, by the clock of the log's lines. */
static inline uint64_t vahepito_log_now(const vahepito_log *log) { return vahepito_moment_after(log, 0); }

static inline void vahepito_lock_log(vahepito_log *log) {
    while (__atomic_exchange_n(&log->lock, 1, __ATOMIC_ACQUIRE)) sched_yield();
}

static inline vahepito_recorded *vahepito_call_of(vahepito_recorder *mine, uint64_t call) {
    return &mine->calls[call % VAHEPITO_RECORDED];
}

/* Writes the line of a call, which had ended or not. The precision 0 writes no number for 0. */
static inline void vahepito_put_line(FILE *text, vahepito_recorder *mine, uint64_t call, int ended) {
    vahepito_recorded *const it = vahepito_call_of(mine, call);
    const uint64_t what = VAHEPITO_GET(it->what, RELAXED) & (ended ? ~(uint64_t)0 : (uint64_t)VAHEPITO_ACTS);
    const int answered = (what & ~(uint64_t)VAHEPITO_ACTS) != 0, take = (what & VAHEPITO_IS_TAKE) != 0;
    const char *const answer = what == VAHEPITO_WAS_FULL     ? ",\"answer\":\"full\""
                               : what == VAHEPITO_WAS_CLOSED ? ",\"answer\":\"closed\""
                               : what == VAHEPITO_FOUND_END  ? ",\"answer\":\"ended\""
                                                             : "";
    fprintf(text, "{\"thread\":\"%" PRIu64 "\",\"begin\":%" PRIu64 "%s%.0" PRIu64, mine->name,
            VAHEPITO_GET(it->begin, RELAXED), answered ? ",\"end\":" : "",
            answered ? VAHEPITO_GET(it->end, RELAXED) : 0);
    if (what & VAHEPITO_IS_CLOSE) fprintf(text, ",\"close\":true}\n");
    else if (take && what != VAHEPITO_TOOK) fprintf(text, ",\"take\":null%s}\n", answer);
    else fprintf(text, ",\"%s\":[%" PRIu64 "]%s}\n", take ? "take" : "send", VAHEPITO_GET(it->item, RELAXED), answer);
}

/* Writes some bytes at a place of the file, or at the end of a pipe: 0, or an errno. */
static inline int vahepito_log_write(const vahepito_log *log, const char *bytes, size_t size, uint64_t at) {
    while (size > 0) {
        const ssize_t wrote = log->is_pipe ? write(log->file, bytes, size)
                                           : pwrite(log->file, bytes, size, (off_t)at);
        if (wrote == 0 || (wrote < 0 && errno != EINTR)) return wrote < 0 ? errno : ENOSPC;
        if (wrote > 0) bytes += wrote, size -= (size_t)wrote, at += (uint64_t)wrote;
    }
    return 0;
}

/* Appends lines to a pipe, which takes 4096 bytes at once, in pieces of whole lines: so a kill cuts none. */
static inline int vahepito_log_append(const vahepito_log *log, const char *bytes, size_t size) {
    int failed = 0;
    while (size > 0 && !failed) {
        size_t piece = size < 4096 ? size : 4096;
        while (piece > 1 && bytes[piece - 1] != '\n') piece--;
        failed = vahepito_log_write(log, bytes, piece, 0);
        bytes += piece, size -= piece;
    }
    return failed;
}

/* Writes a text behind the lines that stay: 0, or an errno. Until all of it is there its first byte is `!`. */
static inline int vahepito_log_write_over(const vahepito_log *log, const char *bytes, size_t size, uint64_t at) {
    int failed = size == 0 ? 0 : vahepito_log_write(log, "!", 1, at);
    if (!failed && size > 0) failed = vahepito_log_write(log, bytes + 1, size - 1, at + 1);
    return failed || size == 0 ? failed : vahepito_log_write(log, bytes, 1, at);
}

/* Cuts the file behind a size. If that fails there is nothing to be done. */
static inline void vahepito_log_cut(const vahepito_log *log, uint64_t size) {
    if (ftruncate(log->file, (off_t)size) != 0) return;
}

/* Writes the log up to now. The lines of pending calls come last, and the next round writes over them: what it writes
 * is no shorter. If that fails, the file is put back to what the last round left. */
static inline void vahepito_log_round(vahepito_log *log) {
    vahepito_recorder *one;
    uint64_t moment, call, ended = 0;
    char *bytes = NULL;
    size_t all = 0;
    FILE *text;
    vahepito_lock_log(log);
    moment = vahepito_moment_after(log, vahepito_moment_after(log, 0));
    __sync_synchronize();
    text = log->over ? NULL : open_memstream(&bytes, &all);
    /* A recorder's first call that isn't written is pending, or is left to the next round */
    for (one = log->first; one; one = one->next) {
        const uint64_t calls = VAHEPITO_GET(one->stage, ACQUIRE) / 2;
        for (call = one->written; call < calls && VAHEPITO_GET(vahepito_call_of(one, call)->end, RELAXED) < moment;
             call++)
            if (text) vahepito_put_line(text, one, call, 1);
        VAHEPITO_SET(one->written, call, RELEASE);
    }
    if (text) ended = (uint64_t)ftello(text);
    for (one = log->first; one && text; one = one->next) {
        call = one->written;
        if (VAHEPITO_GET(one->stage, ACQUIRE) > 2 * call &&
            VAHEPITO_GET(vahepito_call_of(one, call)->begin, RELAXED) < moment)
            vahepito_put_line(text, one, call, 0);
    }
    if (!log->over && (!text || fclose(text) != 0)) log->over = ENOMEM;
    if (!log->over && log->kept + all + sizeof VAHEPITO_ENDS_EARLY - 1 > log->limit) log->over = EFBIG;
    /* If no call has ended and no further one is pending, all is there */
    if (!log->over && (ended > 0 || all != log->shown_size)) {
        log->over = log->is_pipe ? vahepito_log_append(log, bytes, (size_t)ended)
                                 : vahepito_log_write_over(log, bytes, all, log->kept);
        if (log->over && log->is_pipe) {
            /* It may end within a line: nothing more is written */
            log->limit = 0;
        } else if (log->over) {
            vahepito_log_write_over(log, log->shown, log->shown_size, log->kept);
            vahepito_log_cut(log, log->kept + log->shown_size);
        } else {
            free(log->shown);
            log->shown_size = all - ended;
            log->kept += ended;
            /* The pending calls' lines, at the begin of the room that the text has */
            for (call = 0; call < log->shown_size; call++) bytes[call] = bytes[ended + call];
            log->shown = bytes;
            bytes = NULL;
        }
    }
    free(bytes);
    VAHEPITO_SET(log->lock, 0, RELEASE);
}

/* A log in a new file: 0, or -1 with errno. */
static inline int vahepito_log_open(vahepito_log *log, const char *path) {
    log->first = NULL, log->shown = NULL, log->shown_size = 0, log->limit = UINT64_MAX;
    log->names = log->kept = log->start = 0, log->over = log->lock = log->is_pipe = 0;
    log->start = vahepito_moment_after(log, 0);
    log->file = open(path, O_WRONLY | O_CREAT | O_TRUNC, 0666);
    if (log->file < 0) return -1;
    log->is_pipe = lseek(log->file, 0, SEEK_CUR) < 0;
    return 0;
}

/* The recorder of a further thread, whose name is its number, from 0. */
static inline void vahepito_recorder_open(vahepito_recorder *mine, vahepito_log *log) {
    vahepito_lock_log(log);
    mine->log = log, mine->next = log->first, mine->name = log->names++;
    mine->stage = mine->written = mine->last = 0, mine->thread = 0;
    VAHEPITO_SET(log->first, mine, RELEASE);
    VAHEPITO_SET(log->lock, 0, RELEASE);
}

/* Writes all calls and the last line, and closes the file. A call that is pending now hasn't returned, and later calls
 * aren't written. 0 if the log is whole, or -1 with errno. */
static inline int vahepito_log_close(vahepito_log *log) {
    const char *line;
    const size_t size = sizeof VAHEPITO_ENDS_EARLY - 1;
    uint64_t end;
    int over, failed;
    vahepito_log_round(log);
    vahepito_lock_log(log);
    over = log->over;
    line = over ? VAHEPITO_ENDS_EARLY : VAHEPITO_ENDS_WHOLE;
    end = log->kept + log->shown_size;
    failed = end + size > log->limit ? EFBIG : 0;
    if (!failed && log->is_pipe) failed = vahepito_log_append(log, log->shown, log->shown_size);
    if (!failed) failed = log->is_pipe ? vahepito_log_append(log, line, size)
                                       : vahepito_log_write_over(log, line, size, end);
    if (failed && !log->is_pipe) vahepito_log_cut(log, end);
    if (!over) over = failed;
    if (close(log->file) != 0 && !over) over = errno;
    free(log->shown);
    log->shown = NULL, log->over = EBADF, log->file = -1;
    VAHEPITO_SET(log->lock, 0, RELEASE);
    errno = over;
    return over ? -1 : 0;
}

#ifdef VAHEPITO_RECORD_STOPS
/* Stops of threads in the middle of their calls, for tests: again and again a thread whose recorded call is pending
 * sleeps for 20 to 220 microseconds, and the others go on.
 *
 *     vahepito_stops_open();                                   once, before threads start; 0, or -1 with errno: EBUSY
 *                                                              if the signal has a handler
 *     vahepito_stop_threads(&log, 100);                        by the thread that waits for the others: for 100 ms
 *
 * Limits. The thread gets the signal SIGURG, of which the program may have no other handler. A system call that it
 * interrupts is restarted if it can be; nanosleep, poll, select, epoll_wait, the queues and semaphores of System V, and
 * waits with a time limit return EINTR, which the queue has to expect. The handler needs some kilobytes of the thread's
 * stack, takes no lock and leaves errno as it was. A thread that blocks SIGURG isn't stopped. A stop takes effect a
 * microsecond after it was sent: it may come after the call. */
#if !defined _DEFAULT_SOURCE && !defined _GNU_SOURCE
#error "VAHEPITO_RECORD_STOPS needs _DEFAULT_SOURCE or _GNU_SOURCE, defined before the first header"
#endif
#include <signal.h>
#include <sys/prctl.h>
#include <sys/syscall.h>

/* A number that changes with each stop, from which the times come. */
static inline uint64_t vahepito_stop_turn(void) {
    static uint64_t turn;
    return __atomic_add_fetch(&turn, 0x9E3779B97F4A7C15u, __ATOMIC_RELAXED) >> 32;
}

static inline void vahepito_sleep(uint64_t nanoseconds) {
    struct timespec time;
    time.tv_sec = 0, time.tv_nsec = (long)nanoseconds;
    nanosleep(&time, NULL);
}

static inline void vahepito_stop(int its_signal) {
    const int before = errno;
    (void)its_signal;
    vahepito_sleep(20000 + vahepito_stop_turn() % 200000);
    errno = before;
}

static inline int vahepito_stops_open(void) {
    struct sigaction mine, before;
    if (sigaction(SIGURG, NULL, &before) != 0) return -1;
    if (before.sa_handler != SIG_DFL && before.sa_handler != SIG_IGN && before.sa_handler != vahepito_stop) {
        errno = EBUSY;
        return -1;
    }
    mine = before;
    mine.sa_handler = vahepito_stop;
    mine.sa_flags = SA_RESTART;
    sigemptyset(&mine.sa_mask);
    /* Sleeps of this thread, and of those that it starts later, are as short as they say: 50 microseconds less than
     * usual */
    prctl(PR_SET_TIMERSLACK, 1ul);
    return sigaction(SIGURG, &mine, NULL);
}

/* The system's number of this thread. */
static inline long vahepito_this_thread(void) {
    static __thread long number;
    if (number == 0) number = syscall(SYS_gettid);
    return number;
}

/* A recorder whose call is pending, of several each as probable, or NULL. */
static inline vahepito_recorder *vahepito_pending(vahepito_log *log) {
    vahepito_recorder *one, *found = NULL;
    uint64_t count = 0;
    for (one = VAHEPITO_GET(log->first, ACQUIRE); one; one = one->next)
        if (VAHEPITO_GET(one->stage, RELAXED) % 2 == 1 && vahepito_stop_turn() % ++count == 0) found = one;
    return found;
}

/* Stops threads for some milliseconds. How many stops there were. */
static inline unsigned long vahepito_stop_threads(vahepito_log *log, unsigned milliseconds) {
    const uint64_t end = vahepito_log_now(log) + 1000000u * (uint64_t)milliseconds;
    unsigned long stops = 0;
    while (vahepito_log_now(log) < end) {
        vahepito_recorder *pending = NULL;
        int looks;
        vahepito_sleep(vahepito_stop_turn() % 60000);
        /* Calls are short, so it looks for one again and again */
        for (looks = 0; !pending && looks < 1000; looks++) pending = vahepito_pending(log);
        if (pending && VAHEPITO_GET(pending->thread, RELAXED) > 0
            && syscall(SYS_tgkill, (long)getpid(), VAHEPITO_GET(pending->thread, RELAXED), (long)SIGURG) == 0)
            stops++;
    }
    return stops;
}
#endif

/* Notes a call that begins now, and after the last one had ended. All that the call does comes later. */
static inline void vahepito_begin_recorded(vahepito_recorder *mine, uint64_t what, uint64_t item) {
    vahepito_recorded *const it = vahepito_call_of(mine, mine->stage / 2);
    while (mine->stage / 2 - VAHEPITO_GET(mine->written, ACQUIRE) >= VAHEPITO_RECORDED) vahepito_log_round(mine->log);
    VAHEPITO_SET(it->item, item, RELAXED);
    VAHEPITO_SET(it->what, what, RELAXED);
#ifdef VAHEPITO_RECORD_STOPS
    VAHEPITO_SET(mine->thread, vahepito_this_thread(), RELAXED);
#endif
    VAHEPITO_SET(it->begin, vahepito_moment_after(mine->log, mine->last), RELAXED);
    VAHEPITO_SET(mine->stage, mine->stage + 1, RELEASE);
    __sync_synchronize();
}

/* Notes that the last call ends now. All that it did came before. */
static inline void vahepito_end_recorded(vahepito_recorder *mine, uint64_t what, uint64_t item) {
    vahepito_recorded *const it = vahepito_call_of(mine, mine->stage / 2);
    __sync_synchronize();
    mine->last = vahepito_moment_after(mine->log, 0);
    VAHEPITO_SET(it->end, mine->last, RELAXED);
    if (what & VAHEPITO_IS_TAKE) VAHEPITO_SET(it->item, item, RELAXED);
    VAHEPITO_SET(it->what, what, RELAXED);
    VAHEPITO_SET(mine->stage, mine->stage + 1, RELEASE);
}

static inline void vahepito_begin_recorded_send(vahepito_recorder *mine, uint64_t item) {
    vahepito_begin_recorded(mine, 0, item);
}
static inline void vahepito_end_recorded_send(vahepito_recorder *mine, unsigned answer) {
    vahepito_end_recorded(mine, answer, 0);
}
static inline void vahepito_begin_recorded_take(vahepito_recorder *mine) {
    vahepito_begin_recorded(mine, VAHEPITO_IS_TAKE, 0);
}
static inline void vahepito_end_recorded_take(vahepito_recorder *mine, unsigned answer, uint64_t item) {
    vahepito_end_recorded(mine, answer, item);
}
static inline void vahepito_begin_recorded_close(vahepito_recorder *mine) {
    vahepito_begin_recorded(mine, VAHEPITO_IS_CLOSE, 0);
}
static inline void vahepito_end_recorded_close(vahepito_recorder *mine) {
    vahepito_end_recorded(mine, VAHEPITO_HAS_CLOSED, 0);
}

/* Notes that the pending call won't return. */
static inline void vahepito_give_up(vahepito_recorder *mine) {
    vahepito_end_recorded(mine, vahepito_call_of(mine, mine->stage / 2)->what & VAHEPITO_ACTS, 0);
    while (VAHEPITO_GET(mine->written, ACQUIRE) < mine->stage / 2) vahepito_log_round(mine->log);
    vahepito_lock_log(mine->log);
    mine->name = mine->log->names++;
    VAHEPITO_SET(mine->log->lock, 0, RELEASE);
}

#endif
