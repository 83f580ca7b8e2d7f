/* An archive that replaces the proved library in a test, with another version or with other sizes. Its calls return
 * VERSION and ITEM_SIZE, and any other call of it ends the process. Without ITEM_SIZE it has the version alone, for a
 * library that is the proved one but for its version. */
#include <stddef.h>
#include <stdint.h>
#include <stdlib.h>

uint32_t vahepito_version(void) { return VERSION; }

#if defined(ITEM_SIZE)

void vahepito_sizes(size_t *config, size_t *pass, size_t *item, size_t *words_item) {
    *config = 32;
    *pass = 16;
    *item = 24;
    *words_item = ITEM_SIZE;
}

#define CALL(name) \
    void name(void) { abort(); }
CALL(vahepito_accepted)
CALL(vahepito_taken)
CALL(vahepito_is_shut)
CALL(vahepito_open_words)
CALL(vahepito_drop)
CALL(vahepito_begin_close)
CALL(vahepito_try_send)
CALL(vahepito_try_send_words)
CALL(vahepito_turn_send)
CALL(vahepito_turn_close)
CALL(vahepito_turn_take)
CALL(vahepito_turn_take_words)
CALL(vahepito_try_take)
CALL(vahepito_try_take_words)
#endif
