/* The code of each call by a handle in each state, on one thread.
 *
 * A handle is empty, or its pass is a sender or a receiver, idle or with a call that was begun. Each call by a handle
 * is made once in each of these six, of a queue of its own, and the code is compared with a table. If it is refused it
 * returns no number and no item, and changes nothing: what was begun is answered then, and the first item is the first.
 * It ends with status 0 if each call returned what it has to. */
#include "checks.h"
#include "handles.h"

enum state { EMPTY, SENDER, SENDING, CLOSING, RECEIVER, TAKING, STATES };

/* What a call writes: a place or a total, how many calls a turn served, and items. */
struct told {
    uint64_t number;
    uint32_t served;
    vahepito_word_item item;
    vahepito_item words;
};

static const uint64_t two[2] = {7, 8};

static uint32_t begin_send_words(vahepito_handle *pass, struct told *told) {
    return (void)told, vahepito_begin_send_words(pass, two, 1);
}
static uint32_t turn_send(vahepito_handle *pass, struct told *told) {
    return vahepito_turn_send(pass, &told->number, &told->served);
}
static uint32_t try_send(vahepito_handle *pass, struct told *told) {
    return vahepito_try_send(pass, 7, &told->number, &told->served);
}
static uint32_t try_send_words(vahepito_handle *pass, struct told *told) {
    return vahepito_try_send_words(pass, two, 1, &told->number, &told->served);
}
static uint32_t begin_close(vahepito_handle *pass, struct told *told) { return (void)told, vahepito_begin_close(pass); }
static uint32_t turn_close(vahepito_handle *pass, struct told *told) {
    return vahepito_turn_close(pass, &told->number, &told->served);
}
static uint32_t begin_take(vahepito_handle *pass, struct told *told) { return (void)told, vahepito_begin_take(pass); }
static uint32_t turn_take(vahepito_handle *pass, struct told *told) {
    return vahepito_turn_take(pass, &told->item, &told->number, &told->served);
}
static uint32_t try_take(vahepito_handle *pass, struct told *told) {
    return vahepito_try_take(pass, &told->item, &told->number, &told->served);
}
static uint32_t turn_take_words(vahepito_handle *pass, struct told *told) {
    return vahepito_turn_take_words(pass, &told->words, &told->number, &told->served);
}
static uint32_t try_take_words(vahepito_handle *pass, struct told *told) {
    return vahepito_try_take_words(pass, &told->words, &told->number, &told->served);
}
static uint32_t accepted(vahepito_handle *pass, struct told *told) { return vahepito_accepted(pass, &told->number); }
static uint32_t taken(vahepito_handle *pass, struct told *told) { return vahepito_taken(pass, 1, &told->number); }
static uint32_t taken_of_none(vahepito_handle *pass, struct told *told) {
    return vahepito_taken(pass, 2, &told->number);
}
static uint32_t is_shut(vahepito_handle *pass, struct told *told) { return vahepito_is_shut(pass, &told->number); }
static uint32_t drop(vahepito_handle *pass, struct told *told) { return (void)told, vahepito_drop(pass); }

#define NO VAHEPITO_NO_PASS
#define SIDE VAHEPITO_WRONG_SIDE
#define BUSY VAHEPITO_BUSY
#define NOT VAHEPITO_NOT_BEGUN
#define BEGUN VAHEPITO_BEGUN
#define DONE VAHEPITO_DONE

/* The calls, what each writes (a number with how many calls were served, an item, one of words, or a count), and the
 * code for a handle that is empty, an idle sender, one with a send, with a close, an idle receiver, and one with a
 * take. */
enum { NUMBER = 1, ITEM = 2, WORDS = 4, COUNT = 8 };
static const struct row {
    const char *name;
    uint32_t (*call)(vahepito_handle *, struct told *);
    int writes;
    uint32_t codes[STATES];
} rows[] = {
    {"begin_send_words", begin_send_words, 0, {NO, BEGUN, BUSY, BUSY, SIDE, SIDE}},
    {"turn_send", turn_send, NUMBER, {NO, NOT, VAHEPITO_ACCEPTED, NOT, SIDE, SIDE}},
    {"try_send", try_send, NUMBER, {NO, VAHEPITO_ACCEPTED, BUSY, BUSY, SIDE, SIDE}},
    {"try_send_words", try_send_words, NUMBER, {NO, VAHEPITO_ACCEPTED, BUSY, BUSY, SIDE, SIDE}},
    {"begin_close", begin_close, 0, {NO, BEGUN, BUSY, BUSY, SIDE, SIDE}},
    {"turn_close", turn_close, NUMBER, {NO, NOT, NOT, VAHEPITO_SHUT, SIDE, SIDE}},
    {"begin_take", begin_take, 0, {NO, SIDE, SIDE, SIDE, BEGUN, BUSY}},
    {"turn_take", turn_take, NUMBER | ITEM, {NO, SIDE, SIDE, SIDE, NOT, VAHEPITO_EMPTY}},
    {"try_take", try_take, NUMBER | ITEM, {NO, SIDE, SIDE, SIDE, VAHEPITO_EMPTY, BUSY}},
    {"turn_take_words", turn_take_words, NUMBER | WORDS, {NO, SIDE, SIDE, SIDE, NOT, VAHEPITO_EMPTY}},
    {"try_take_words", try_take_words, NUMBER | WORDS, {NO, SIDE, SIDE, SIDE, VAHEPITO_EMPTY, BUSY}},
    {"accepted", accepted, COUNT, {NO, DONE, BUSY, BUSY, DONE, BUSY}},
    {"taken", taken, COUNT, {NO, DONE, BUSY, BUSY, DONE, BUSY}},
    {"taken, of no group", taken_of_none, COUNT, {NO, VAHEPITO_BAD_GROUPS, BUSY, BUSY, VAHEPITO_BAD_GROUPS, BUSY}},
    {"is_shut", is_shut, COUNT, {NO, DONE, BUSY, BUSY, DONE, BUSY}},
    {"drop", drop, 0, {NO, DONE, DONE, DONE, DONE, DONE}},
};
enum { CALLS = sizeof rows / sizeof rows[0] };

static const char *now = "";

/* Checks, and says of which call and which state. */
static void holds(int so, enum state state, const char *what) {
    if (!so) fprintf(stderr, "%s in state %d: ", now, (int)state);
    check(so, what);
}

/* The handles of a queue with room for one item: of them one is in this state, the other idle. Gives the one. */
static vahepito_handle *open_in(enum state state, vahepito_handle *sender, vahepito_handle *receiver) {
    const vahepito_config config = {1, 1, 1, 8, (uint64_t)1 << 48, UINT32_MAX};
    check(vahepito_open_words(&config, 1, 1, sender, 1, receiver, 1) == DONE, "a queue is opened");
    if (state == SENDING) check(vahepito_begin_send_words(sender, two, 1) == BEGUN, "a send is begun");
    if (state == CLOSING) check(vahepito_begin_close(sender) == BEGUN, "a close is begun");
    if (state == TAKING) check(vahepito_begin_take(receiver) == BEGUN, "a take is begun");
    return state < RECEIVER ? sender : receiver;
}

/* The next call of a pass that is as it was before: it continues, in one turn, from the state of the pass. */
static const struct {
    uint32_t (*call)(vahepito_handle *, struct told *);
    uint32_t code;
    const char *what;
} next[STATES] = {
    [SENDER] = {try_send, VAHEPITO_ACCEPTED, "its first send is the first item"},
    [SENDING] = {turn_send, VAHEPITO_ACCEPTED, "the send that was begun is accepted"},
    [CLOSING] = {turn_close, VAHEPITO_SHUT, "the close that was begun closes"},
    [RECEIVER] = {try_take, VAHEPITO_EMPTY, "its take finds nothing"},
    [TAKING] = {turn_take, VAHEPITO_EMPTY, "the take that was begun finds nothing"},
};

/* After a call that was refused the pass is as it was before. */
static void is_as_before(enum state state, vahepito_handle *pass) {
    struct told told = {0};
    if (state == EMPTY) {
        holds(!pass->live && pass->at == NULL, state, "an empty handle stays empty");
        return;
    }
    const uint32_t code = next[state].call(pass, &told);
    holds(code == next[state].code && told.number == 0 && told.served == 1, state, next[state].what);
}

/* What a call wrote, where nothing was passed: 0 in each field, but for how many calls its turn served, if it had
 * one. */
static void wrote_nothing(const struct row *row, enum state state, const struct told *told) {
    const vahepito_word_item *item = &told->item;
    const vahepito_item *words = &told->words;
    const int turned = row->codes[state] > BEGUN;
    if (row->writes & NUMBER) holds(told->number == 0 && told->served == (turned ? 1 : 0), state, "no number is told");
    if (row->writes & COUNT) holds(told->number == 0, state, "nothing is counted");
    if (row->writes & ITEM)
        holds(item->place == 0 && item->sender == 0 && item->number == 0 && item->body == 0, state, "no item is told");
    if (row->writes & WORDS) {
        holds(words->place == 0 && words->sender == 0 && words->number == 0 && words->count == 0, state,
              "no item is told");
        for (int at = 0; at < VAHEPITO_MOST_WORDS; at++) holds(words->words[at] == 0, state, "nor a word of one");
    }
}

/* One call by a handle in one state, of a queue of its own. */
static void call_in(const struct row *row, enum state state) {
    vahepito_handle sender = VAHEPITO_HANDLE_EMPTY, receiver = VAHEPITO_HANDLE_EMPTY, empty = VAHEPITO_HANDLE_EMPTY;
    vahepito_handle *pass = open_in(state, &sender, &receiver);
    struct told told;
    memset(&told, 99, sizeof told);
    if (state == EMPTY) pass = &empty;
    now = row->name;
    const uint32_t code = row->call(pass, &told), refused = NO <= code && code <= NOT;
    holds(code == row->codes[state], state, "a call tells its code");
    wrote_nothing(row, state, &told);
    if (refused || (row->writes & COUNT)) is_as_before(state, pass);
    if (row->call == drop) holds(!pass->live && vahepito_drop(pass) == NO, state, "a handle whose pass went is empty");
    for (int k = 0; k < 2; k++) {
        vahepito_handle *left = k == 0 ? &sender : &receiver;
        check(vahepito_drop(left) == (row->call == drop && left == pass ? NO : DONE), "a pass is let go once");
    }
}

int main(void) {
    for (int at = 0; at < CALLS; at++)
        for (int state = EMPTY; state < STATES; state++) call_in(&rows[at], (enum state)state);
    printf("%d calls in each of %d states\n", CALLS, STATES);
    return 0;
}
