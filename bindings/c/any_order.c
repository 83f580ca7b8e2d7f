/* Begins, turns and drops in random orders, in C: each turn returns what a model of the queue returns, which serves
 * whole calls.
 *
 * In thousands of runs three senders, and two receivers of each of one to three groups, begin calls and turn them in an
 * order that is rolled, on queues whose sizes are rolled too. Now and then a pass is dropped, and a call that it has
 * begun is given up: another one may still serve that call, but if it is the first of its side, all behind it wait for
 * ever. At the end each other call is turned until it is answered. It ends with status 0 where each answer, each wait
 * and each number of served calls was the model's, and each of these occurred. */
#include "checks.h"
#include "handles.h"

enum {
    RUNS = 4000, SENDERS = 3, IN_EACH = 2, MOST_GROUPS = 3, MOST_PASSES = SENDERS + MOST_GROUPS * IN_EACH,
    MOST_LIFE = 12
};

/* What is rolled, for all runs. */
static uint64_t dice = 1;

/* ---- the model */

/* The results of a turn. `number` is a place or a total, and the item is that of a take that got one. */
struct told {
    uint32_t code, served;
    uint64_t number;
    vahepito_item item;
};

enum call { NONE, SEND, CLOSE, TAKE };

/* A pass with its last call, and the results that its next turn returns once another pass has served it. */
struct pass {
    enum call call;
    uint32_t begun;
    size_t count;
    uint64_t words[VAHEPITO_MOST_WORDS];
    int is_served, is_dropped;
    struct told told;
};

/* The passes whose calls wait on one side, in the order of their begins: the first one serves. */
struct line {
    int passes[MOST_PASSES], length;
};

static struct model {
    vahepito_config config;
    uint32_t groups;
    struct pass passes[MOST_PASSES];
    /* that of the senders, and that of each group */
    struct line lines[1 + MOST_GROUPS];
    vahepito_item items[MOST_LIFE];
    uint64_t accepted, taken[MOST_GROUPS];
    int is_closed;
} model;

/* The side of a pass: 0 for the senders, else its group. */
static int side_of(int pass) { return pass < SENDERS ? 0 : 1 + (pass - SENDERS) / IN_EACH; }

/* How many items some group hasn't taken. */
static uint64_t held(void) {
    uint64_t least = model.accepted;
    for (uint32_t g = 0; g < model.groups; g++)
        if (model.taken[g] < least) least = model.taken[g];
    return model.accepted - least;
}

static void serve_send(int pass) {
    struct pass *mine = &model.passes[pass];
    mine->told.code = model.is_closed                             ? VAHEPITO_CLOSED
                      : model.accepted == model.config.life       ? VAHEPITO_SPENT
                      : held() == (uint64_t)model.config.capacity ? VAHEPITO_FULL
                                                                  : VAHEPITO_ACCEPTED;
    if (mine->told.code != VAHEPITO_ACCEPTED) return;
    vahepito_item *item = &model.items[model.accepted];
    *item = (vahepito_item){model.accepted, (uint32_t)pass + 1, mine->begun, mine->count, {0}};
    memcpy(item->words, mine->words, mine->count * sizeof *mine->words);
    mine->told.number = model.accepted++;
}

static void serve_close(int pass) {
    struct told *told = &model.passes[pass].told;
    told->code = model.is_closed ? VAHEPITO_ALREADY : VAHEPITO_SHUT;
    told->number = model.accepted;
    model.is_closed = 1;
}

static void serve_take(int pass) {
    struct told *told = &model.passes[pass].told;
    uint64_t *taken = &model.taken[side_of(pass) - 1];
    if (*taken < model.accepted) {
        told->code = VAHEPITO_GOT;
        told->item = model.items[(*taken)++];
    } else if (model.is_closed) {
        told->code = VAHEPITO_ENDED;
        told->number = model.accepted;
    } else {
        told->code = VAHEPITO_EMPTY;
    }
}

/* Serves the first of a line. */
static void serve(struct line *line) {
    const int pass = line->passes[0];
    struct pass *mine = &model.passes[pass];
    memmove(line->passes, line->passes + 1, (size_t)--line->length * sizeof *line->passes);
    memset(&mine->told, 0, sizeof mine->told);
    switch (mine->call) {
        case SEND: serve_send(pass); break;
        case CLOSE: serve_close(pass); break;
        default: serve_take(pass); break;
    }
    mine->is_served = 1;
}

/* A turn: the first in line serves as many as the bound says, itself first, and those behind it wait. */
static struct told turn_model(int pass) {
    struct pass *mine = &model.passes[pass];
    struct line *line = &model.lines[side_of(pass)];
    uint32_t served = 0;
    if (!mine->is_served) {
        if (line->passes[0] != pass) return (struct told){VAHEPITO_WAITING, 0, 0, {0}};
        while (served < model.config.bound && line->length > 0) {
            serve(line);
            served++;
        }
    }
    mine->call = NONE;
    mine->told.served = served;
    return mine->told;
}

static void begin_model(int pass, enum call call) {
    struct line *line = &model.lines[side_of(pass)];
    model.passes[pass].call = call;
    model.passes[pass].is_served = 0;
    line->passes[line->length++] = pass;
}

/* ---- the queue beside it */

static vahepito_handle passes[MOST_PASSES];

/* How often each result occurred: the codes, turns that served none, and several, calls of dropped passes that were
 * served, and calls that waited for ever behind one that wasn't. */
static uint32_t codes[VAHEPITO_WIDE + 1], by_others, of_others, of_dropped, stopped;

static void begin_send(int pass) {
    struct pass *mine = &model.passes[pass];
    mine->count = roll(&dice, VAHEPITO_MOST_WORDS) + 1;
    for (size_t k = 0; k < mine->count; k++) mine->words[k] = (uint64_t)roll(&dice, 1000) << 40 | k;
    const uint32_t code = vahepito_begin_send_words(&passes[pass], mine->words, mine->count);
    codes[code]++;
    if (mine->begun == model.config.per_sender) {
        check(code == VAHEPITO_WORN, "a sender that has begun all its sends is worn");
        return;
    }
    check(code == VAHEPITO_BEGUN, "a send is begun");
    mine->begun++;
    begin_model(pass, SEND);
}

/* An idle pass begins a call: a sender at times a close. */
static void begin(int pass) {
    if (pass >= SENDERS) {
        check(vahepito_begin_take(&passes[pass]) == VAHEPITO_BEGUN, "a take is begun");
        begin_model(pass, TAKE);
    } else if (roll(&dice, 8) == 0) {
        check(vahepito_begin_close(&passes[pass]) == VAHEPITO_BEGUN, "a close is begun");
        begin_model(pass, CLOSE);
    } else {
        begin_send(pass);
    }
}

static struct told turn_queue(int pass) {
    struct told told;
    memset(&told, 0, sizeof told);
    switch (model.passes[pass].call) {
        case SEND: told.code = vahepito_turn_send(&passes[pass], &told.number, &told.served); break;
        case CLOSE: told.code = vahepito_turn_close(&passes[pass], &told.number, &told.served); break;
        default: told.code = vahepito_turn_take_words(&passes[pass], &told.item, &told.number, &told.served); break;
    }
    return told;
}

static int is_same_item(const vahepito_item *one, const vahepito_item *other) {
    return one->place == other->place && one->sender == other->sender && one->number == other->number &&
           one->count == other->count && memcmp(one->words, other->words, sizeof one->words) == 0;
}

/* Turns the call of a pass. */
static void turn(int pass) {
    const struct told told = turn_queue(pass), due = turn_model(pass);
    check(told.code == due.code, "the answer is the model's");
    check(told.number == due.number, "so is its place or its total");
    check(told.served == due.served, "and how many calls the turn served");
    check(is_same_item(&told.item, &due.item), "and the item, with its words");
    codes[told.code]++;
    by_others += told.code != VAHEPITO_WAITING && told.served == 0;
    of_others += told.served > 1;
}

/* Drops a pass, whose call may be begun. */
static void drop(int pass) {
    check(vahepito_drop(&passes[pass]) == VAHEPITO_DONE && !passes[pass].live, "a pass is let go");
    model.passes[pass].is_dropped = 1;
}

static int passes_in_all(void) { return SENDERS + (int)model.groups * IN_EACH; }

/* A queue whose sizes are rolled. */
static void open_both(void) {
    memset(&model, 0, sizeof model);
    memset(passes, 0, sizeof passes);
    model.groups = roll(&dice, MOST_GROUPS) + 1;
    model.config = (vahepito_config){
        SENDERS, IN_EACH, roll(&dice, 3) + 1, roll(&dice, 4) + 1, roll(&dice, MOST_LIFE) + 1, roll(&dice, 6) + 1};
    uint32_t code = vahepito_open_words(&model.config, model.groups, VAHEPITO_MOST_WORDS, passes, SENDERS,
                                        passes + SENDERS, model.groups * IN_EACH);
    check(code == VAHEPITO_DONE, "a queue is opened");
}

static void run(void) {
    open_both();
    const int all = passes_in_all();
    for (uint32_t left = roll(&dice, 120); left > 0; left--) {
        const int pass = (int)roll(&dice, (uint32_t)all);
        if (model.passes[pass].is_dropped) continue;
        if (roll(&dice, 100) == 0) drop(pass);
        else if (model.passes[pass].call == NONE) begin(pass);
        else turn(pass);
    }
    /* as often as answers every call */
    for (int turns = 0; turns < 6 * all; turns++)
        if (model.passes[turns % all].call != NONE && !model.passes[turns % all].is_dropped) turn(turns % all);
    for (int pass = 0; pass < all; pass++) {
        const struct pass *const mine = &model.passes[pass];
        const struct line *const line = &model.lines[side_of(pass)];
        of_dropped += mine->is_dropped && mine->call != NONE && mine->is_served;
        if (mine->is_dropped) continue;
        check(mine->call == NONE || model.passes[line->passes[0]].is_dropped, "each call is answered in the end");
        stopped += mine->call != NONE;
        drop(pass);
    }
}

int main(void) {
    const uint32_t seen[] = {VAHEPITO_ACCEPTED, VAHEPITO_FULL,    VAHEPITO_CLOSED, VAHEPITO_SPENT,
                             VAHEPITO_SHUT,     VAHEPITO_ALREADY, VAHEPITO_GOT,    VAHEPITO_EMPTY,
                             VAHEPITO_ENDED,    VAHEPITO_WORN,    VAHEPITO_WAITING};
    for (int k = 0; k < RUNS; k++) run();
    for (size_t k = 0; k < sizeof seen / sizeof *seen; k++) check(codes[seen[k]] > 100, "each answer occurred");
    check(by_others > 100 && of_others > 100, "calls were served by others");
    check(of_dropped > 100 && stopped > 100, "and some that were given up, and others weren't");
    printf("%d orders of calls\n", RUNS);
    return 0;
}
