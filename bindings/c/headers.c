/* The headers in C99 to C23 and in C++11 to C++23: compiled by each compiler that is there, with all warnings. Run, it
 * makes calls that wait, on one thread, records some, and ends with status 0 if each returned what it has to. */
#ifndef _POSIX_C_SOURCE
#define _POSIX_C_SOURCE 200809L
#endif
#include "vahepito_record.h"
#include "vahepito.h"

#include <stdio.h>
#include <string.h>

/* A caller's own struct with a queue in it. */
struct service {
    vahepito_queue *queue;
};

/* One item through a queue with room for one, and the end. Gives how far that went: 0 where all was as it has to be. */
static int one_item(struct service *service) {
    const struct timespec soon = vahepito_after(2000000);
    vahepito_item item;
    uint64_t number;
    if (vahepito_send(service->queue, 7, &number) != VAHEPITO_ACCEPTED || number != 0) return 1;
    if (vahepito_length(service->queue) != 1 || vahepito_capacity(service->queue) != 1 ||
        vahepito_is_closed(service->queue))
        return 2;
    if (vahepito_send_now(service->queue, 9, NULL) != VAHEPITO_FULL) return 3;
    if (vahepito_send_until(service->queue, 9, &soon, NULL) != VAHEPITO_FULL) return 4;
    if (vahepito_take(service->queue, 1, &item, &number) != VAHEPITO_GOT) return 5;
    if (item.words[0] != 7 || item.count != 1 || item.place != 0 || item.sender < 1 || item.sender > 64 ||
        item.number < 1 || number != 0)
        return 6;
    if (vahepito_take_now(service->queue, 1, &item, &number) != VAHEPITO_EMPTY || item.count != 0) return 7;
    if (vahepito_take_until(service->queue, 1, NULL, &soon, NULL) != VAHEPITO_EMPTY) return 8;
    if (vahepito_length(service->queue) != 0) return 9;
    if (vahepito_close(service->queue, &number) != VAHEPITO_SHUT || number != 1) return 10;
    if (vahepito_close(service->queue, &number) != VAHEPITO_ALREADY || number != 1) return 11;
    if (!vahepito_is_closed(service->queue)) return 12;
    return vahepito_take(service->queue, 1, &item, &number) == VAHEPITO_ENDED && number == 1 ? 0 : 13;
}

/* An item of two words so, by the calls that wait. */
static int two_words(vahepito_queue *queue) {
    const uint64_t words[2] = {7, 8};
    const struct timespec soon = vahepito_after(2000000);
    vahepito_item item;
    if (vahepito_send_words(queue, words, 2, NULL) != VAHEPITO_ACCEPTED) return 14;
    if (vahepito_send_words_now(queue, words, 2, NULL) != VAHEPITO_FULL) return 15;
    if (vahepito_send_words_until(queue, words, 2, &soon, NULL) != VAHEPITO_FULL) return 16;
    if (vahepito_take(queue, 1, &item, NULL) != VAHEPITO_GOT) return 17;
    return item.count == 2 && item.words[0] == 7 && item.words[1] == 8 && item.words[2] == 0 ? 0 : 18;
}

/* Each code has a name and a sentence, and no other number has; and by four of them a call was done. */
static int texts(void) {
    uint32_t code, count = 0, done = 0;
    for (code = 0; code < 100; code++) {
        const int has_name = strcmp(vahepito_name(code), "no code") != 0;
        if (has_name != (strcmp(vahepito_text(code), "there is no such code") != 0)) return 32;
        count += (uint32_t)has_name, done += vahepito_is_done(code);
    }
    if (done != 4 || !vahepito_is_done(0) || !vahepito_is_done(17) || !vahepito_is_done(21) || !vahepito_is_done(23))
        return 35;
    switch ((enum vahepito_code)VAHEPITO_ENDED) {
    case VAHEPITO_ENDED: return count == 19 && strcmp(vahepito_name(VAHEPITO_ENDED), "ENDED") == 0 ? 0 : 33;
    default: return 34;
    }
}

/* Whether the file's next line is this one, but for the times. */
static int has_line(FILE *file, const char *due) {
    char line[200];
    const char *at;
    if (!fgets(line, sizeof line, file)) return 0;
    for (at = line; *at && *at == *due; at++, due++)
        while (*at == ':' && at[1] >= '0' && at[1] <= '9') memmove(line + (at - line) + 1, at + 2, strlen(at + 2) + 1);
    return *at == *due;
}

/* Seven calls, of which two are given up, and their log. */
static int recorded(void) {
    static vahepito_recorder mine;
    vahepito_log log;
    char name[] = "/tmp/vahepito.XXXXXX";
    const int place = mkstemp(name);
    FILE *file = place < 0 ? NULL : fdopen(place, "r");
    int same;
    if (!file || vahepito_log_open(&log, name) != 0) return 26;
    vahepito_recorder_open(&mine, &log);
    vahepito_begin_recorded_send(&mine, 7);
    vahepito_end_recorded_send(&mine, VAHEPITO_SENT);
    vahepito_begin_recorded_take(&mine);
    vahepito_end_recorded_take(&mine, VAHEPITO_TOOK, 7);
    vahepito_begin_recorded_take(&mine);
    vahepito_log_round(&log);
    vahepito_give_up(&mine);
    vahepito_begin_recorded_send(&mine, 8);
    vahepito_end_recorded_send(&mine, VAHEPITO_WAS_FULL);
    vahepito_begin_recorded_take(&mine);
    vahepito_end_recorded_take(&mine, VAHEPITO_FOUND_END, 0);
    vahepito_begin_recorded_close(&mine);
    vahepito_end_recorded_close(&mine);
    vahepito_begin_recorded_close(&mine);
    vahepito_give_up(&mine);
    if (vahepito_log_close(&log) != 0) return 27;
    same = has_line(file, "{\"thread\":\"0\",\"begin\":,\"end\":,\"send\":[7]}\n")
        && has_line(file, "{\"thread\":\"0\",\"begin\":,\"end\":,\"take\":[7]}\n")
        && has_line(file, "{\"thread\":\"0\",\"begin\":,\"take\":null}\n")
        && has_line(file, "{\"thread\":\"1\",\"begin\":,\"end\":,\"send\":[8],\"answer\":\"full\"}\n")
        && has_line(file, "{\"thread\":\"1\",\"begin\":,\"end\":,\"take\":null,\"answer\":\"ended\"}\n")
        && has_line(file, "{\"thread\":\"1\",\"begin\":,\"end\":,\"close\":true}\n")
        && has_line(file, "{\"thread\":\"1\",\"begin\":,\"close\":true}\n")
        && has_line(file, "{\"ends\":\"whole\"}\n")
        && !has_line(file, "");
    fclose(file);
    remove(name);
    return same ? 0 : 28;
}

/* More calls than a recorder holds, in a log of this many bytes at most: how it closes, an errno. */
static int many_calls(const char *path, uint64_t limit) {
    static vahepito_recorder mine;
    vahepito_log log;
    uint64_t item, before;
    int closes;
    if (vahepito_log_open(&log, path) != 0) return -1;
    log.limit = limit;
    vahepito_recorder_open(&mine, &log);
    for (item = 0; item < 1000; item++) {
        before = vahepito_log_now(&log);
        vahepito_begin_recorded_send(&mine, item);
        vahepito_end_recorded_send(&mine, VAHEPITO_SENT);
        if (mine.last < before || mine.last > vahepito_log_now(&log)) return -1;
    }
    if (vahepito_log_close(&log) == 0) return 0;
    closes = errno;
    /* It has been closed, so this writes nothing, and doesn't wait. */
    for (item = 0; item < 1000; item++) {
        vahepito_begin_recorded_send(&mine, item);
        vahepito_end_recorded_send(&mine, VAHEPITO_SENT);
    }
    return closes;
}

/* Logs that end early, by a limit and by a disk that is full. */
static int ends_early(void) {
    char name[] = "/tmp/vahepito.XXXXXX", text[20001];
    const int place = mkstemp(name);
    FILE *file = place < 0 ? NULL : fdopen(place, "r");
    const char *const last = "\n{\"ends\":\"early\"}\n";
    size_t size;
    if (!file || many_calls(name, 20000) != EFBIG) return 29;
    size = fread(text, 1, sizeof text, file);
    if (size > 20000 || size < 10000 || strncmp(text + size - strlen(last), last, strlen(last)) != 0) return 30;
    fclose(file);
    remove(name);
    return many_calls("/dev/full", UINT64_MAX) == ENOSPC ? 0 : 31;
}

int main(void) {
    vahepito_attributes attributes = VAHEPITO_ATTRIBUTES;
    struct service service = {NULL};
    vahepito_queue *queue;
    int failed;
    if (vahepito_version() != VAHEPITO_VERSION) return 19;
    attributes.groups = 9;
    if (vahepito_create_as(&attributes, &queue) != VAHEPITO_BAD_GROUPS || queue) return 20;
    if (!(service.queue = vahepito_create(1))) return 21;
    failed = one_item(&service);
    vahepito_destroy(service.queue, NULL, NULL);
    attributes.groups = 1, attributes.words = 2, attributes.capacity = 1;
    if (vahepito_create_as(&attributes, &queue) != VAHEPITO_DONE) return 22;
    if (!failed) failed = two_words(queue);
    vahepito_destroy(queue, NULL, NULL);
    vahepito_destroy(NULL, NULL, NULL);
    if (!failed) failed = texts();
    if (!failed) failed = recorded();
    return failed ? failed : ends_early();
}
