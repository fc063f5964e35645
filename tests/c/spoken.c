/*
 * A stream that one thread feeds, settles and drains while another sets its block and asks for what it waits, each
 * under a lock of the program. Of each setting the item is kept from which it is in force, and at the end each item is
 * what the settings make of it. Prints what is wrong, and with the thread sanitizer what races.
 */
#include <pthread.h>
#include <stdio.h>
#include <stdlib.h>
#include <string.h>

#include "magbelu.h"

enum { PIECE = 500, PIECES = 400, ITEMS = PIECE * PIECES, SETTINGS = 1000 };

static const char chain[] = "block = [{ name = \"src\", kind = \"vector_source\", type = \"short\" },"
                            " { name = \"add\", kind = \"add_const\", type = \"short\", value = 0 },"
                            " { name = \"out\", kind = \"vector_sink\", type = \"short\" }]\n"
                            "connect = [{ from = \"src\", to = \"add\" }, { from = \"add\", to = \"out\" }]\n";

static struct magbelu_stream stream = MAGBELU_NO_STREAM;
static pthread_mutex_t lock = PTHREAD_MUTEX_INITIALIZER;
static int16_t got[ITEMS];
static struct {
    uint64_t at;
    int64_t value;
} settings[SETTINGS];

static void must(int holds, const char *saying) {
    if (!holds) {
        printf("spoken: %s\n", saying);
        exit(1);
    }
}

static void *speak(void *none) {
    for (int64_t number = 0; number < SETTINGS; number++) {
        struct magbelu_reply reply;
        pthread_mutex_lock(&lock);
        reply = magbelu_stream_set(&stream, "add", 3, MAGBELU_NOW, number);
        must(reply.number == 0, "a setting was refused");
        settings[number].at = reply.value;
        settings[number].value = number;
        must(magbelu_stream_need(&stream, "add", 3).status == 0, "it does not tell what a block waits for");
        pthread_mutex_unlock(&lock);
    }
    return none;
}

/* Feeds a piece, and takes away what comes of it. */
static void move(int piece) {
    int16_t items[PIECE];
    struct magbelu_piece drained;
    for (int at = 0; at < PIECE; at++) {
        items[at] = (int16_t)((piece * PIECE + at) % 10000);
    }
    pthread_mutex_lock(&lock);
    must(magbelu_stream_feed(&stream, "src", 3, 0, items, sizeof items, NULL, 0).number == 0, "a feed was refused");
    magbelu_stream_settle(&stream);
    drained = magbelu_stream_drain(&stream, "out", 3, PIECE, 0, got + piece * PIECE, sizeof items, NULL, 0);
    must(drained.bytes_len == sizeof items, "a piece is not drained as it was fed");
    pthread_mutex_unlock(&lock);
}

int main(void) {
    pthread_t speaker;
    char error[256];
    uint64_t set = 0;
    must(magbelu_stream_open(&stream, chain, sizeof chain - 1, error, sizeof error).number == 0, "no stream is opened");
    must(pthread_create(&speaker, NULL, speak, NULL) == 0, "no thread is started");
    for (int piece = 0; piece < PIECES; piece++) {
        move(piece);
    }
    must(pthread_join(speaker, NULL) == 0, "the thread does not end");
    for (uint64_t at = 0; at < ITEMS; at++) {
        while (set < SETTINGS && settings[set].at <= at) {
            set++;
        }
        must(got[at] == (int16_t)(at % 10000 + (set > 0 ? (uint64_t)settings[set - 1].value : 0)),
             "an item is not what the settings make of it");
    }
    must(magbelu_stream_free(&stream).number == 0, "the stream is not freed");
    return 0;
}
