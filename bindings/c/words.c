/* Openings by handles, and bodies of one to four words, on one thread: what an opening refuses, and which fault of it
 * first; of which group each receiver is; and what a queue refuses by how many words its opening says. It ends with
 * status 0 if each item came with the words that were sent, and each refusal was returned. */
#include "checks.h"
#include "handles.h"

#include <stddef.h>

_Static_assert(sizeof(vahepito_item) == 56, "vahepito_item");
_Static_assert(offsetof(vahepito_item, place) == 0 && offsetof(vahepito_item, sender) == 8, "vahepito_item");
_Static_assert(offsetof(vahepito_item, number) == 12 && offsetof(vahepito_item, count) == 16, "vahepito_item");
_Static_assert(offsetof(vahepito_item, words) == 24, "vahepito_item");

enum { IN_EACH = 2, MOST_RECEIVERS = 3 * IN_EACH };

static const vahepito_config config = {1, IN_EACH, 4, 8, (uint64_t)1 << 48, UINT32_MAX};
static const uint64_t five[5] = {11, 12, 13, 14, 15};
static vahepito_handle sender, receivers[MOST_RECEIVERS];

/* What the last call wrote. */
static uint64_t number;
static uint32_t served;
static vahepito_item item;

static uint32_t open_queue(const vahepito_config *as, uint32_t groups, uint32_t words, size_t count) {
    return vahepito_open_words(as, groups, words, &sender, 1, receivers, count);
}

static void drop_all(size_t count) {
    check(vahepito_drop(&sender) == VAHEPITO_DONE, "the sender is let go");
    for (size_t k = 0; k < count; k++) check(vahepito_drop(&receivers[k]) == VAHEPITO_DONE, "a receiver is let go");
}

/* What an opening refuses, and which of it first. No handle is changed by that. */
static void refused_openings(void) {
    const uint32_t groups[] = {0, 9, UINT32_MAX}, words[] = {0, 5, UINT32_MAX};
    vahepito_config no_sends = config;
    no_sends.per_sender = 0;
    check(open_queue(&no_sends, 0, 0, 0) == VAHEPITO_BAD_PER_SENDER, "groups are looked at after the configuration");
    for (int k = 0; k < 3; k++) {
        check(open_queue(&config, groups[k], words[k], 0) == VAHEPITO_BAD_GROUPS, "1 to 8, and then words");
        check(open_queue(&config, 1, words[k], 0) == VAHEPITO_BAD_WORDS, "1 to 4, and then handles");
    }
    check(open_queue(&config, 2, 4, IN_EACH) == VAHEPITO_BAD_HANDLES, "one for each receiver");
    check(open_queue(&config, 1, 1, 2 * IN_EACH) == VAHEPITO_BAD_HANDLES, "and no more");
    for (int k = 0; k < MOST_RECEIVERS; k++) check(!sender.live && !receivers[k].live, "no handle was changed");
}

/* The receivers of a group follow each other: each of them takes, and the first one of each group gets the item. The
 * opening doesn't read the padding of the configuration, which is not 0 here. */
static void stand_by_groups(uint32_t groups) {
    vahepito_config same;
    memset(&same, 0xff, sizeof same);
    same.senders = config.senders, same.receivers = config.receivers, same.capacity = config.capacity;
    same.bound = config.bound, same.life = config.life, same.per_sender = config.per_sender;
    check(open_queue(&same, groups, 1, groups * IN_EACH) == VAHEPITO_DONE, "the queue is opened");
    check(vahepito_try_send(&sender, 5, &number, &served) == VAHEPITO_ACCEPTED && number == 0, "a send is accepted");
    for (size_t k = 0; k < groups * IN_EACH; k++) {
        const uint32_t is_first = k % IN_EACH == 0;
        vahepito_word_item one;
        check(vahepito_try_take(&receivers[k], &one, &number, &served) == (is_first ? VAHEPITO_GOT : VAHEPITO_EMPTY),
              "receivers stand group by group");
        check(one.body == (is_first ? 5 : 0), "and a group gets an item once");
    }
    drop_all(groups * IN_EACH);
}

/* What a send of several words refuses: nothing is begun by it. */
static void refused_sends(void) {
    vahepito_handle empty = VAHEPITO_HANDLE_EMPTY;
    check(vahepito_begin_send_words(&empty, five, 5) == VAHEPITO_NO_PASS, "an empty handle has no pass");
    check(vahepito_begin_send_words(&receivers[0], five, 5) == VAHEPITO_WRONG_SIDE, "a receiver doesn't send");
    check(vahepito_begin_send_words(&sender, five, 0) == VAHEPITO_BAD_WORDS, "no word is no body");
    check(vahepito_begin_send_words(&sender, five, 5) == VAHEPITO_BAD_WORDS, "nor are five");
    number = served = 99;
    check(vahepito_try_send_words(&sender, five, 5, &number, &served) == VAHEPITO_BAD_WORDS, "a try tells so too");
    check(number == 0 && served == 0, "and no number");
    check(vahepito_begin_send_words(&sender, five, 1) == VAHEPITO_BEGUN, "a send is begun");
    check(vahepito_begin_send_words(&sender, five, 5) == VAHEPITO_BUSY, "and no second one");
    check(vahepito_turn_send(&sender, &number, &served) == VAHEPITO_ACCEPTED && number == 0, "it is the first one");
    check(vahepito_try_take_words(&receivers[0], &item, &number, &served) == VAHEPITO_GOT, "and taken");
}

/* An item of one word has no room for the bodies of a queue of several: nothing is taken by a call that gives one. */
static void no_room(void) {
    vahepito_word_item one = {99, 99, 99, 99};
    check(vahepito_try_send_words(&sender, five, 2, &number, &served) == VAHEPITO_ACCEPTED, "two words are sent");
    number = served = 99;
    check(vahepito_try_take(&receivers[0], &one, &number, &served) == VAHEPITO_WIDE, "one word has no room for them");
    check(one.place == 0 && one.sender == 0 && one.number == 0 && one.body == 0 && number == 0 && served == 0,
          "nothing is told");
    check(vahepito_turn_take_words(&receivers[0], &item, &number, &served) == VAHEPITO_NOT_BEGUN,
          "no take was begun by it");
    check(vahepito_begin_take(&receivers[0]) == VAHEPITO_BEGUN, "a take is begun");
    check(vahepito_turn_take(&receivers[0], &one, &number, &served) == VAHEPITO_WIDE, "its turn tells no word");
    check(vahepito_turn_take_words(&receivers[0], &item, &number, &served) == VAHEPITO_GOT && item.count == 2,
          "it goes on with all words");
}

/* One send of so many of the five words, by the call for one word if it is one, and its take. */
static void pass_words(size_t count, uint64_t place) {
    const uint32_t code = count == 1 ? vahepito_try_send(&sender, five[0], &number, &served)
                                     : vahepito_try_send_words(&sender, five, count, &number, &served);
    check(code == VAHEPITO_ACCEPTED && number == place && served == 1, "so many words are accepted");
    check(vahepito_try_take_words(&receivers[0], &item, &number, &served) == VAHEPITO_GOT, "and taken");
    check(item.place == place && item.sender == 1 && item.count == count, "as many as were sent");
    for (size_t at = 0; at < VAHEPITO_MOST_WORDS; at++)
        check(item.words[at] == (at < count ? five[at] : 0), "these, and 0 behind them");
}

/* A queue takes bodies of as many words as its opening says. */
static void most_words(uint32_t most) {
    check(open_queue(&config, 1, most, IN_EACH) == VAHEPITO_DONE, "a queue is opened");
    for (size_t count = 1; count <= most; count++) pass_words(count, count - 1);
    for (size_t count = most + 1; count <= 5; count++)
        check(vahepito_try_send_words(&sender, five, count, &number, &served) ==
                  (count < 5 ? VAHEPITO_LONG : VAHEPITO_BAD_WORDS),
              "more words are refused");
    drop_all(IN_EACH);
}

int main(void) {
    refused_openings();
    for (uint32_t groups = 1; groups <= 3; groups++) stand_by_groups(groups);
    check(open_queue(&config, 1, VAHEPITO_MOST_WORDS, IN_EACH) == VAHEPITO_DONE, "a queue is opened");
    refused_sends();
    no_room();
    drop_all(IN_EACH);
    for (uint32_t most = 1; most <= VAHEPITO_MOST_WORDS; most++) most_words(most);
    printf("bodies of one to %d words\n", VAHEPITO_MOST_WORDS);
    return 0;
}
