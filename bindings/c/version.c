/* Prints whether the library that is linked is the one of the header, and both versions. */
#include "vahepito.h"

#include <stdio.h>

int main(void) {
    const vahepito_attributes attributes = VAHEPITO_ATTRIBUTES;
    vahepito_queue *queue;
    const uint32_t code = vahepito_create_as(&attributes, &queue);
    if (code != VAHEPITO_DONE && code != VAHEPITO_BAD_VERSION) return 1;
    if (vahepito_check_version(VAHEPITO_VERSION) != code) return 2;
    if (vahepito_check_version(VAHEPITO_VERSION + 1) != VAHEPITO_BAD_VERSION ||
        vahepito_check_version(0) != VAHEPITO_BAD_VERSION)
        return 3;
    vahepito_queue *const other = vahepito_create(1);
    if ((other != NULL) != (code == VAHEPITO_DONE)) return 4;
    vahepito_destroy(other, NULL, NULL);
    printf("%s: library %u, header %d\n", code == VAHEPITO_DONE ? "fits" : "refused", (unsigned)vahepito_version(),
           VAHEPITO_VERSION);
    vahepito_destroy(queue, NULL, NULL);
    return 0;
}
