/* What tests/model/queue.pml needs: the words of the table, what the passes call, and what is checked. None of it is
   written from the definitions.

   Sizes, by -D: SENDERS and RECEIVERS (of each group), GROUPS, CAPACITY, BOUND, LIFE; SENDS and TAKES, the calls of
   each pass, at most 6; FINAL, the sends of the last sender, if other; CLOSERS: so many senders, the last ones, close
   the queue at their end.

   Checked by default: the queue moves at the points that docs/ARCHITECTURE.md gives. Each answer is that of a
   sequential queue which moves there, calls are decided in the order of their exchanges, each once and at most BOUND in
   a turn, and no node of the list or of a chain is used again while a pass may still read it.
   Checked with -DORDERS: no points are given; of each complete run there is an order of its calls that agrees with real
   time, in which a sequential queue gives the same answers.

   -DBUFFERS (only with ORDERS): each pass has a store buffer of x86-TSO. -DTHREADS=2 (only with BUFFERS): two threads
   drive the passes, and each thread has a buffer. A thread leaves a pass between its calls, or where it waits, and
   either thread takes it up there as cc_x86 allows; with -DSIDES=1 one thread drives the senders, the other one the
   receivers.
   -DHISTORIES=2 (only with BUFFERS): each run has atomic steps, or plain stores that may be early, or with 3 also all
   stores plain; its history is printed in place of a check. */
#ifndef SENDERS
#define SENDERS 2
#endif
#ifndef RECEIVERS
#define RECEIVERS 1
#endif
#ifndef GROUPS
#define GROUPS 1
#endif
#ifndef CAPACITY
#define CAPACITY 1
#endif
#ifndef BOUND
#define BOUND 2
#endif
#ifndef LIFE
#define LIFE 9
#endif
#ifndef SENDS
#define SENDS 1
#endif
#ifndef TAKES
#define TAKES 1
#endif
#ifndef FINAL
#define FINAL SENDS
#endif
#ifndef CLOSERS
#define CLOSERS 0
#endif
#define PASSES (SENDERS + RECEIVERS * GROUPS)

/* the words of a body: the tag, and if bodies of odd tags have two, the tag and 100 */
#ifdef TWO_WORDS
#define NODE_WORDS 6
#define ITEM_WORDS 5
#define MORE_OF(t) ((t) % 2 -> (t) + 100 : 0)
#define WRITES_BODY body = tag; more = MORE_OF(tag)
#else
#define NODE_WORDS 5
#define ITEM_WORDS 4
#define MORE_OF(t) 0
#define WRITES_BODY body = tag
#endif

/* the words of the table: chain 0 is the senders', chain g + 1 that of group g */
#define LAST 0
#define SHUT 1
#define COUNT 2
#define CURSOR 3
#define TAIL (4 + chain)
#define HEAD (4 + GROUPS + chain)
#define TAKEN (4 + 2 * GROUPS + chain)
#define NODES (5 + 3 * GROUPS)
#define ITEMS (NODES + NODE_WORDS * (SENDERS + 1 + GROUPS * (RECEIVERS + 1)))
#define WORDS (ITEMS + ITEM_WORDS * (CAPACITY + 2))
#define ROW(chain, n) ((chain == 0 -> 0 : SENDERS + 1 + (chain - 1) * (RECEIVERS + 1)) + (n))
#define NODE(n, field) (NODES + NODE_WORDS * ROW(chain, n) + NODE_##field)
#define NODE_NEXT 0
#define NODE_STATE 1
#define NODE_TAG 2
#define NODE_RET 3
#define NODE_BODY 4
#define NODE_MORE 5
#define ITEM(n, field) (ITEMS + ITEM_WORDS * (n) + ITEM_##field)
#define ITEM_TAG 0
#define ITEM_NEXT 1
#define ITEM_PASSED 2
#define ITEM_BODY 3
#define ITEM_MORE 4
byte w[WORDS];
hidden byte found, k, p, due_now, number_now, least;

/* A d_step changes only hidden variables that nothing reads behind it: a search that goes back doesn't restore them. */

/* the codes of answers */
#define IS_ACCEPTED 1
#define IS_FULL 2
#define IS_CLOSED 3
#define IS_SPENT 4
#define IS_SHUT 5
#define IS_ALREADY 6
#define IS_GOT 7
#define IS_EMPTY 8
#define IS_ENDED 9

/* a step, and the name of its pass for a plan */
#ifdef QUIET
#define SAY(text) skip
#else
#define SAY(text) printf(text, (me < SENDERS -> 's' : 'r'), (me < SENDERS -> me + 1 : me - SENDERS + 1))
#endif

/* which thread drives a pass: its own, or one of several */
#ifdef THREADS
#define CREW
#define THREAD on[me]
byte on[PASSES], held[PASSES], drives[THREADS];
bit inside[THREADS];
#else
#define THREADS PASSES
#define THREAD me
#endif

/* a processor with store buffers, or atomic steps */
#ifdef HISTORIES
byte plain;
#else
#define plain 1
#endif
#define ATOMIC 0
#define ALL 2
#define SEES(a) w[a]
#ifdef BUFFERS
#ifndef DEPTH
#define DEPTH 14
#endif
#define WAITING(t) waiting[t]
#define AT(t, k) ((t) * DEPTH + (k))
byte at_word[THREADS * DEPTH], is_value[THREADS * DEPTH], waiting[THREADS];
#ifdef CREW
byte of_pass[THREADS * DEPTH];
#define TAGGED of_pass[AT(THREAD, waiting[THREAD])] = me; held[me]++
#define SETTLES(t) p = of_pass[AT(t, 0)]; held[p]--; \
  if :: held[p] == 0 && !(inside[t] && drives[t] == p + 1) -> on[p] = 0 :: else fi
#define MOVES(t, k, a, v, p) at_word[AT(t, k)] = a; is_value[AT(t, k)] = v; of_pass[AT(t, k)] = p
#else
#define TAGGED skip
#define SETTLES(t) skip
#define MOVES(t, k, a, v, p) at_word[AT(t, k)] = a; is_value[AT(t, k)] = v
#endif
inline STORE(a, v) {
  if
  :: plain == ATOMIC -> w[a] = v
  :: plain != ATOMIC && waiting[THREAD] < DEPTH -> d_step {
    TAGGED;
    at_word[AT(THREAD, waiting[THREAD])] = a;
    is_value[AT(THREAD, waiting[THREAD])] = v;
    waiting[THREAD]++;
    assert(plain == ALL || waiting[THREAD] < DEPTH) }
  fi
}
inline LOCKED(a, v) {
  if
  :: plain == ALL -> STORE(a, v)
  :: plain != ALL && waiting[THREAD] == 0 -> w[a] = v
  fi
}
#define EMPTIED waiting[THREAD] == 0 ->
inline LOAD(a) {
  found = w[a];
  k = 0;
  do
  :: k < waiting[THREAD] ->
    if :: at_word[AT(THREAD, k)] == (a) -> found = is_value[AT(THREAD, k)] :: else fi;
    k++
  :: else -> break
  od
}
proctype buffer(byte t) {
end:
  do
  :: atomic { waiting[t] > 0 -> d_step {
      w[at_word[AT(t, 0)]] = is_value[AT(t, 0)];
      waiting[t]--;
      SETTLES(t);
      k = 0;
      do
      :: k < waiting[t] -> MOVES(t, k, at_word[AT(t, k + 1)], is_value[AT(t, k + 1)], of_pass[AT(t, k + 1)]); k++
      :: else -> break
      od;
      MOVES(t, k, 0, 0, 0) } }
  od
}
#else
#define WAITING(t) 0
#define EMPTIED
#define STORE(a, v) w[a] = v
#define LOCKED(a, v) w[a] = v
#define LOAD(a) found = w[a]
#endif
#define SWAP(a, v) EMPTIED found = w[a]; w[a] = v
#define ADD(a, v) EMPTIED w[a] = w[a] + v

/* With THREADS: of a thread whether its pass is in a turn, and, while stores wait, the pass that it drove last; of a
   pass how many of its stores wait, in the buffer of the thread that drove it last. A thread takes up a pass between
   its calls, or where it waits, if no other thread is in its turn or holds a store of it; and if the pass loads next,
   with an empty buffer. */
#ifdef CREW
#ifdef SIDES
#define DRIVES_SIDE(t) ((me >= SENDERS) == t)
#else
#define DRIVES_SIDE(t) true
#endif
#define MAY(t, loads) (!inside[t] && DRIVES_SIDE(t) && (held[me] == 0 || on[me] == t) \
  && (!loads || WAITING(t) == 0 || on[me] == t && drives[t] == me + 1))
inline TAKES_UP(loads) {
  if
  :: MAY(0, loads) -> on[me] = 0
  :: MAY(1, loads) -> on[me] = 1
  fi;
  inside[on[me]] = 1; drives[on[me]] = me + 1
}
#define LEAVES inside[on[me]] = 0; drives[on[me]] = (WAITING(on[me]) > 0 -> me + 1 : 0); \
  on[me] = (held[me] > 0 -> on[me] : 0)
#else
#define TAKES_UP(loads) skip
#define LEAVES skip
#endif

/* what the passes call: a tag is the sender's number times 8, and the number of its send; a close has tag 0 */
#define SENDS_OF (me == SENDERS - 1 -> FINAL : SENDS)
#define NEW_SEND made < SENDS_OF -> TAKES_UP(0); BEGINS; made++; tag = (me + 1) * 8 + made; WRITES_BODY
#define NEW_CLOSE closes && made == SENDS_OF -> TAKES_UP(0); BEGINS; made++
#define NEW_TAKE made < TAKES -> TAKES_UP(0); BEGINS; made++

#ifdef ORDERS
/* of each call which ones had returned when it began, and its answer */
#define ROWS 6
#define CALL (me * ROWS + made)
int ended;
int before[PASSES * ROWS];
byte told[PASSES * ROWS], got[PASSES * ROWS];
byte left;
hidden byte judged;
#define BEGINS before[CALL] = ended
#define ENTERS(n) skip
#define LINKS LEAVES
#define SERVES skip
#define HANDS skip
#define SCANS skip
#define CLEARS(n) skip
#define LINKED skip
#define READS(n) skip
#define DECIDES(code, number, t, b, m) skip
#define RETURNS(code, number, t, b, m) RETURNED(IS_##code, number, t, b, m)
inline RETURNED(code, number, t, b, m) { d_step {
  told[CALL - 1] = code * 16 + number;
  got[CALL - 1] = t;
  assert(b == t && m == MORE_OF(t));
  ended = ended | (1 << (CALL - 1));
  left--;
  LEAVES }
}
c_decl {
  struct queue { int count, shut, handed[8], tags[32]; };
  /* whether a queue answers a call so, which then moves it */
  static int fits(struct queue *q, int call, int told, int got) {
    int pass = call / ROWS, code = told / 16, number = told % 16, g, least = q->count;
    for (g = 0; g < GROUPS; g++) if (q->handed[g] < least) least = q->handed[g];
    if (pass >= SENDERS) {
      g = (pass - SENDERS) / RECEIVERS;
      if (q->handed[g] < q->count) {
        if (code != IS_GOT || number != q->handed[g] || got != q->tags[number]) return 0;
        q->handed[g]++;
        return 1;
      }
      return q->shut ? code == IS_ENDED && number == q->count : code == IS_EMPTY;
    }
    if (code >= IS_SHUT) {
      if (code != (q->shut ? IS_ALREADY : IS_SHUT) || number != q->count) return 0;
      q->shut = 1;
      return 1;
    }
    if (q->shut) return code == IS_CLOSED;
    if (q->count == LIFE) return code == IS_SPENT;
    if (q->count - least == CAPACITY) return code == IS_FULL;
    if (code != IS_ACCEPTED || number != q->count) return 0;
    q->tags[q->count++] = (pass + 1) * 8 + call % ROWS + 1;
    return 1;
  }
  /* whether the calls that aren't done have an order */
  static int ordered(struct queue q, int done, int all, int *before, unsigned char *told, unsigned char *got) {
    int call;
    if (done == all) return 1;
    for (call = 0; call < PASSES * ROWS; call++)
      if ((all & ~done) >> call & 1 && (before[call] & ~done) == 0) {
        struct queue next = q;
        if (fits(&next, call, told[call], got[call]) && ordered(next, done | 1 << call, all, before, told, got))
          return 1;
      }
    return 0;
  }
}
#ifdef HISTORIES
c_decl {
  static int seen(int plain, int all, int *before, unsigned char *told, unsigned char *got) {
    int call;
    printf("history %d %d", plain, ordered((struct queue){0}, 0, all, before, told, got));
    for (call = 0; call < PASSES * ROWS; call++)
      if (all >> call & 1) printf(" %d:%x:%d:%d", call, before[call], told[call], got[call]);
    printf("\n");
    return 1;
  }
}
#define CHECKED left == 0 -> c_code { judged = seen(now.plain, now.ended, now.before, now.told, now.got); }
#else
#define CHECKED left == 0 -> \
  c_code { judged = ordered((struct queue){0}, 0, now.ended, now.before, now.told, now.got); }; assert(judged)
#endif
#else
/* A sequential queue, which moves at the points: how many items it accepted, their tags, how many each group was
   handed, whether it is shut, and whether it was full when the scan that runs began. */
byte count, tags[LIFE], handed[GROUPS];
bit is_shut, was_full;
/* For each pass what it asked, how many calls before its own have no answer, its answer if that is decided, and how
   many it decided in its turn; for each node of a chain, the pass whose call is there; for each chain, how many calls
   have no answer, and whether a pass combines. */
byte asks[PASSES], turn[PASSES], due[PASSES], number_due[PASSES], did[PASSES];
byte asker[SENDERS + 1 + GROUPS * (RECEIVERS + 1)];
byte entered[GROUPS + 1];
bit busy[GROUPS + 1];
/* For each chain of takes the list node that a take reads next, and the node that a send prepares, each + 1. */
byte reads_next[GROUPS + 1], prepared;
#define BEGINS assert(asker[ROW(chain, own)] == 0)
/* wrong, for tests/model.py: Full answers for the moment of its decision; the place of a call is that of its link */
#ifdef OTHER_POINTS
#define FULL_LATE (table == 1)
#define BY_LINK (table == 2)
#else
#define FULL_LATE false
#define BY_LINK false
#endif
inline READS(n) { d_step {
  reads_next[chain] = n;
  assert(reads_next[chain] == 0 || reads_next[chain] != prepared) }
}
inline CLEARS(n) { d_step {
  prepared = n + 1;
  k = 1;
  do
  :: k <= GROUPS -> assert(reads_next[k] != prepared); k++
  :: else -> break
  od }
}
#define LINKED prepared = 0
#define ENTERS(n) asker[ROW(chain, n)] = me + 1; asks[me] = (chain == 0 -> tag : 0); if :: BY_LINK :: else -> QUEUES fi
#define LINKS if :: BY_LINK -> QUEUES :: else fi
#define QUEUES turn[me] = entered[chain]; entered[chain]++
#define SERVES assert(!busy[chain]); busy[chain] = 1
#define HANDS busy[chain] = 0
inline LEAST() {
  least = handed[0];
  k = 1;
  do
  :: k < GROUPS -> if :: handed[k] < least -> least = handed[k] :: else fi; k++
  :: else -> break
  od
}
#define SCANS d_step { LEAST(); was_full = (!is_shut && count < LIFE && count - least == CAPACITY && !FULL_LATE) }
#define DECIDES(code, number, t, b, m) d_step { DECIDED(IS_##code, number, t, b, m) }
inline DECIDED(code, number, t, b, m) {
  p = asker[ROW(chain, at)];
  assert(p > 0);
  p--;
  assert(due[p] == 0 && turn[p] == 0);
  did[me]++;
  assert(did[me] <= BOUND);
  /* what the sequential queue answers */
  number_now = 0;
  if
  :: chain > 0 && handed[chain - 1] < count ->
    due_now = IS_GOT;
    number_now = handed[chain - 1];
    handed[chain - 1]++;
    assert(t == tags[number_now] && b == t && m == MORE_OF(t))
  :: chain > 0 && handed[chain - 1] == count && is_shut -> due_now = IS_ENDED; number_now = count
  :: chain > 0 && handed[chain - 1] == count && !is_shut -> due_now = IS_EMPTY
  :: chain == 0 && asks[p] == 0 && is_shut -> due_now = IS_ALREADY; number_now = count
  :: chain == 0 && asks[p] == 0 && !is_shut -> due_now = IS_SHUT; number_now = count; is_shut = 1
  :: chain == 0 && asks[p] > 0 && is_shut -> due_now = IS_CLOSED
  :: chain == 0 && asks[p] > 0 && !is_shut && count == LIFE -> due_now = IS_SPENT
  :: chain == 0 && asks[p] > 0 && !is_shut && count < LIFE ->
    LEAST();
    if
    :: code == IS_FULL && was_full -> due_now = IS_FULL
    :: !(code == IS_FULL && was_full) && count - least == CAPACITY -> due_now = IS_FULL; assert(code == IS_FULL)
    :: else -> due_now = IS_ACCEPTED; number_now = count; tags[count] = asks[p]; count++
    fi
  fi;
  was_full = was_full && chain > 0;
  assert(code == due_now && number == number_now);
  due[p] = code;
  number_due[p] = number;
  k = 0;
  do
  :: k < PASSES ->
    if
    :: turn[k] > 0 && (k < SENDERS -> 0 : (k - SENDERS) / RECEIVERS + 1) == chain -> turn[k]--
    :: else
    fi;
    k++
  :: else -> break
  od;
  entered[chain]--
}
#define CHECKED end: false
#define RETURNS(code, number, t, b, m) d_step { RETURNED(IS_##code, number, t, b, m) }
inline RETURNED(code, number, t, b, m) {
  assert(due[me] == code && number_due[me] == number);
  assert(code != IS_GOT || t == tags[number] && b == t && m == MORE_OF(t));
  asker[ROW(chain, own)] = 0;
  due[me] = 0;
  number_due[me] = 0;
  asks[me] = 0;
  did[me] = 0
}
#endif

/* the words at the opening, and the passes */
#ifdef ORDERS
#define COUNTS left = (SENDERS - 1) * SENDS + FINAL + CLOSERS + RECEIVERS * GROUPS * TAKES
#else
#define COUNTS skip
#endif
#ifdef HISTORIES
#define CHOOSES if :: plain = ATOMIC :: plain = 1 :: HISTORIES > 2 -> plain = ALL fi
#else
#define CHOOSES skip
#endif
inline OPENS() {
  w[LAST] = 1;
  w[CURSOR] = 1;
  k = 0;
  do :: k <= GROUPS -> w[4 + k] = 1; k++ :: else -> break od;
  k = 1;
  do :: k <= GROUPS -> w[4 + GROUPS + k] = 1; k++ :: else -> break od;
  k = 1;
  do :: k <= CAPACITY -> w[ITEM(k, PASSED)] = GROUPS; k++ :: else -> break od;
  COUNTS;
  CHOOSES;
  k = 0;
  do
  :: k < SENDERS -> run sender(k, k + 1, (k >= SENDERS - CLOSERS), 0); k++
  :: k >= SENDERS && k < PASSES ->
    run receiver(k, (k - SENDERS) % RECEIVERS + 1, 0, (k - SENDERS) / RECEIVERS + 1);
    k++
  :: else -> break
  od;
#ifdef BUFFERS
  k = 0;
  do :: k < THREADS -> run buffer(k); k++ :: else -> break od
#endif
}
