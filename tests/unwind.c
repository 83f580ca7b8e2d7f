/* Calls of the library, one after another on one thread, for a debugger that steps through them: tests/unwind.py. */
#include "handles.h"

/* Two passes of each side: the second one waits for the first, which serves both. */
int main(void) {
    const vahepito_config config = {.senders = 2, .receivers = 2, .capacity = 4, .bound = 4, .life = 1000, .per_sender = 100};
    vahepito_handle senders[2] = {VAHEPITO_HANDLE_EMPTY, VAHEPITO_HANDLE_EMPTY}, receivers[2] = {VAHEPITO_HANDLE_EMPTY, VAHEPITO_HANDLE_EMPTY};
    uint64_t words[2] = {5, 6}, number;
    uint32_t served;
    vahepito_item item;
    vahepito_open_words(&config, 1, 2, senders, 2, receivers, 2);
    vahepito_begin_send_words(&senders[0], words, 2);
    vahepito_begin_send_words(&senders[1], words, 1);
    vahepito_turn_send(&senders[1], &number, &served);
    vahepito_turn_send(&senders[0], &number, &served);
    vahepito_turn_send(&senders[1], &number, &served);
    vahepito_try_send(&senders[1], 8, &number, &served);
    vahepito_try_send_words(&senders[1], words, 2, &number, &served);
    vahepito_begin_take(&receivers[0]);
    vahepito_begin_take(&receivers[1]);
    vahepito_turn_take_words(&receivers[1], &item, &number, &served);
    vahepito_turn_take_words(&receivers[0], &item, &number, &served);
    vahepito_turn_take_words(&receivers[1], &item, &number, &served);
    vahepito_try_take_words(&receivers[1], &item, &number, &served);
    vahepito_accepted(&senders[0], &number);
    vahepito_taken(&receivers[0], 1, &number);
    vahepito_is_shut(&receivers[1], &number);
    vahepito_begin_close(&senders[0]);
    vahepito_turn_close(&senders[0], &number, &served);
    for (int k = 0; k < 2; k++) vahepito_drop(&senders[k]), vahepito_drop(&receivers[k]);
    return 0;
}
