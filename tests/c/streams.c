/*
 * Calls of plants that stream: right ones and wrong ones, and drains into too little room.
 */
#include <string.h>

#include "calls.h"

static void drains(struct magbelu_stream *stream, uint64_t max, const char *wanted, size_t wanted_len, uint64_t held,
                   const char *lines) {
    char bytes[64], tags[256];
    struct magbelu_piece piece;
    memset(bytes, '-', sizeof bytes);
    /* What does not fit is not taken away. */
    piece = magbelu_stream_drain(stream, "out", 3, max, 0, bytes, wanted_len > 0 ? wanted_len - 1 : 0, tags,
                                 sizeof tags);
    must(piece.bytes_len == wanted_len && piece.tags_len == strlen(lines) && (wanted_len == 0 || bytes[0] == '-'),
         "a drain with too little room");
    if (lines[0] != 0) {
        piece = magbelu_stream_drain(stream, "out", 3, max, 0, bytes, sizeof bytes, tags, strlen(lines) - 1);
        must(piece.bytes_len == wanted_len && piece.tags_len == strlen(lines), "a drain with too little room for tags");
    }
    piece = magbelu_stream_drain(stream, "out", 3, max, 0, bytes, sizeof bytes, tags, sizeof tags);
    must(piece.status == 0 && piece.number == 0 && piece.held == held && piece.item_size == 2, "what a drain tells");
    must(piece.bytes_len == wanted_len && memcmp(bytes, wanted, wanted_len) == 0 && bytes[wanted_len] == '-',
         "the bytes of a drain");
    must(piece.tags_len == strlen(lines) && memcmp(tags, lines, piece.tags_len) == 0, "the tags of a drain");
}

static void levels_are(struct magbelu_stream *stream, const char *block, uint32_t status, uint32_t number,
                       uint64_t taken, uint64_t given, uint64_t waiting) {
    const struct magbelu_levels told = magbelu_stream_levels(stream, block, strlen(block));
    must(told.status == status && told.number == number && told.taken == taken && told.given == given &&
        told.waiting == waiting, "how far a block is");
}

static void none_streams(struct magbelu_stream *stream) {
    char bytes[4] = "abc";
    struct magbelu_piece piece;
    replied(magbelu_stream_item_size(stream, "src", 3), 1, 55, 0, 0, "an item's size");
    replied(magbelu_stream_feed(stream, "src", 3, 0, "\1\0", 2, NULL, 0), 1, 55, 0, 0, "a feed");
    replied(magbelu_stream_feed_numbers(stream, "src", 3, NULL, 0, NULL, 0), 1, 55, 0, 0, "a feed of numbers");
    replied(magbelu_stream_close(stream, "src", 3), 1, 55, 0, 0, "a close");
    replied(magbelu_stream_set(stream, "add", 3, MAGBELU_NOW, 1), 1, 55, 0, 0, "a setting");
    replied(magbelu_stream_set_taps(stream, "add", 3, MAGBELU_NOW, NULL, 0), 1, 55, 0, 0, "taps");
    replied(magbelu_stream_step(stream, "src", 3, 1), 1, 55, 0, 0, "a step");
    replied(magbelu_stream_settle(stream), 1, 55, 0, 0, "a settle");
    levels_are(stream, "src", 1, 55, 0, 0, 0);
    replied(magbelu_stream_need(stream, "src", 3), 1, 55, 0, 0, "a need");
    piece = magbelu_stream_drain(stream, "out", 3, 9, 0, bytes, sizeof bytes, NULL, 0);
    must(piece.status == 1 && piece.number == 55 && piece.bytes_len == 0 && bytes[0] == 'a', "a drain");
    replied(magbelu_stream_free(stream), 1, 55, 0, 0, "a second free");
}

static void stream_refusals(struct magbelu_stream *stream) {
    const struct magbelu_tag off = {9, 1, (const uint8_t *)"a", 1}, bad = {0, 1, (const uint8_t *)"a b", 3};
    struct magbelu_piece piece;
    char bytes[4] = "abc";
    replied(magbelu_stream_feed(stream, "out", 3, 0, "\1\0", 2, NULL, 0), 1, 21, 0, 0, "not a source");
    replied(magbelu_stream_feed(stream, "src", 3, 0, "\1\0\2", 3, NULL, 0), 1, 53, 0, 0, "a cut item");
    replied(magbelu_stream_feed(stream, "src", 3, 0, "\1\0", 2, &off, 1), 1, 25, 0, 0, "a tag on no item");
    replied(magbelu_stream_feed(stream, "src", 3, 0, "\1\0", 2, &bad, 1), 1, 58, 0, 0, "a key that is none");
    replied(magbelu_stream_feed(NULL, "src", 3, 0, "\1\0", 2, NULL, 0), 1, 54, 0, 0, "a stream at NULL");
    replied(magbelu_stream_need(stream, NULL, 3), 1, 54, 0, 0, "a name at NULL");
    replied(magbelu_stream_need(stream, "none", 4), 1, 20, 0, 0, "no such block");
    replied(magbelu_stream_step(stream, "none", 4, 1), 1, 20, 0, 0, "a step of no block");
    levels_are(stream, "none", 1, 20, 0, 0, 0);
    levels_are(NULL, "src", 1, 54, 0, 0, 0);
    must(magbelu_stream_levels(stream, NULL, 3).number == 54, "levels of a name at NULL");
    piece = magbelu_stream_drain(stream, "none", 4, 9, 0, bytes, sizeof bytes, NULL, 0);
    must(piece.status == 1 && piece.number == 20 && bytes[0] == 'a', "no such block");
    piece = magbelu_stream_drain(stream, "add", 3, 9, 0, bytes, sizeof bytes, NULL, 0);
    must(piece.status == 1 && piece.number == 22 && bytes[0] == 'a', "not a sink");
    piece = magbelu_stream_drain(stream, "out", 3, 9, 0, NULL, 4, NULL, 0);
    must(piece.status == 1 && piece.number == 54, "a buffer at NULL");
    /* It is no plant of which sinks are read. */
    piece = magbelu_read(&stream->plant, "out", 3, 0, 9, 0, bytes, sizeof bytes, NULL, 0);
    must(piece.status == 1 && piece.number == 55 && bytes[0] == 'a', "a read of a stream");
}

void streams(void) {
    struct magbelu_stream stream = MAGBELU_NO_STREAM;
    const struct magbelu_tag tag = {1, -7, (const uint8_t *)"burst", 5};
    const int64_t number = 300;
    const size_t len = strlen(chain);
    char error[64];
    none_streams(&stream);
    is(magbelu_stream_open(&stream, "x", 1, error, sizeof error), 1, 40, 0, error, "flow: refused 40 Syntax\n");
    is(magbelu_stream_open(NULL, chain, len, error, sizeof error), 1, 54, 0, error, "magbelu: refused 54 Null\n");
    is(magbelu_stream_open(&stream, chain, len, NULL, 0), 0, 0, 0, NULL, "");
    is(magbelu_stream_open(&stream, chain, len, NULL, 0), 1, 56, 0, NULL, "");
    stream_refusals(&stream);
    replied(magbelu_stream_need(&stream, "src", 3), 0, 0, MAGBELU_WAITS_FEED, 0, "a source waits to be fed");
    replied(magbelu_stream_need(&stream, "out", 3), 0, 0, MAGBELU_WAITS_ITEMS, 0, "a sink waits for items");
    replied(magbelu_stream_item_size(&stream, "src", 3), 0, 0, 0, 2, "an item's size");
    replied(magbelu_stream_feed(&stream, "src", 3, 0, "\1\0\2\0\3\0", 6, &tag, 1), 0, 0, 0, 3, "a feed");
    replied(magbelu_stream_need(&stream, "src", 3), 0, 0, MAGBELU_READY, 0, "a source that may act");
    replied(magbelu_stream_set(&stream, "add", 3, 2, 10), 0, 0, 0, 2, "a setting");
    replied(magbelu_stream_step(&stream, "src", 3, 2), 0, 0, MAGBELU_DID, 2, "two firings");
    replied(magbelu_stream_step(&stream, "add", 3, 1), 0, 0, MAGBELU_DID, 1, "a firing");
    levels_are(&stream, "src", 0, 0, 2, 2, 1);
    levels_are(&stream, "add", 0, 0, 1, 1, 1);
    levels_are(&stream, "out", 0, 0, 0, 0, 1);
    replied(magbelu_stream_settle(&stream), 3, 0, 0, 0, "an open source");
    drains(&stream, 2, "\2\0\3\0", 4, 3, "@1:burst=-7/0\n");
    drains(&stream, 9, "\15\0", 2, 3, "");
    drains(&stream, 9, "", 0, 3, "");
    levels_are(&stream, "add", 0, 0, 3, 3, 0);
    levels_are(&stream, "out", 0, 0, 3, 3, 0);
    replied(magbelu_stream_feed_numbers(&stream, "src", 3, &number, 1, NULL, 0), 0, 0, 0, 4, "a feed of numbers");
    replied(magbelu_stream_close(&stream, "src", 3), 0, 0, 0, 4, "a close");
    replied(magbelu_stream_settle(&stream), 0, 0, 0, 0, "all are done");
    replied(magbelu_stream_need(&stream, "out", 3), 0, 0, MAGBELU_DONE, 0, "a sink that is done");
    drains(&stream, 9, "\66\1", 2, 4, "");
    replied(magbelu_stream_free(&stream), 0, 0, 0, 0, "a free");
    none_streams(&stream);
}
