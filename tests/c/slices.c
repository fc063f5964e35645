/*
 * Calls about slices of time: the numbers of a plan, where slices begin, what has none, and runs in two slices, one of
 * them by blocks that go on where they stand.
 */
#include <string.h>

#include "calls.h"

/* Each item is the sum of four, of which every other is kept. */
static const char sums[] =
    "block = [{ name = \"src\", kind = \"vector_source\", type = \"short\" }, { name = \"sum\", kind = \"moving_sum\", type = \"short\", length = 4 },\n"
    "    { name = \"keep\", kind = \"keep_one_in_n\", type = \"short\", n = 2 }, { name = \"out\", kind = \"vector_sink\", type = \"short\" }]\n"
    "connect = [{ from = \"src\", to = \"sum\" }, { from = \"sum\", to = \"keep\" }, { from = \"keep\", to = \"out\" }]\n";

/* Each item is the sum of four, of which the first 25 are passed. */
static const char headed[] =
    "block = [{ name = \"src\", kind = \"vector_source\", type = \"short\" }, { name = \"sum\", kind = \"moving_sum\", type = \"short\", length = 4 },\n"
    "    { name = \"first\", kind = \"head\", type = \"short\", n = 25 }, { name = \"out\", kind = \"vector_sink\", type = \"short\" }]\n"
    "connect = [{ from = \"src\", to = \"sum\" }, { from = \"sum\", to = \"first\" }, { from = \"first\", to = \"out\" }]\n"
    "feed = [{ source = \"src\", items = [1] }]\n";

/* A block that keeps all that it was given, behind one that does not. */
static const char coded[] =
    "block = [{ name = \"src\", kind = \"vector_source\", type = \"byte\" }, { name = \"not\", kind = \"not\", type = \"byte\" },\n"
    "    { name = \"code\", kind = \"diff_encoder\", modulus = 2 }, { name = \"out\", kind = \"vector_sink\", type = \"byte\" }]\n"
    "connect = [{ from = \"src\", to = \"not\" }, { from = \"not\", to = \"code\" }, { from = \"code\", to = \"out\" }]\n";

/* One item for two at a port, and for one at the other. */
static const char uneven[] =
    "block = [{ name = \"src\", kind = \"vector_source\", type = \"byte\" }, { name = \"keep\", kind = \"keep_one_in_n\", type = \"byte\", n = 2 },\n"
    "    { name = \"add\", kind = \"add\", type = \"byte\" }, { name = \"out\", kind = \"vector_sink\", type = \"byte\" }]\n"
    "connect = [{ from = \"src\", to = \"keep\" }, { from = \"keep\", to = \"add\" }, { from = \"src\", to = \"add\", to_port = 1 }, { from = \"add\", to = \"out\" }]\n";

static void tells(struct magbelu_slicing told, uint32_t status, uint32_t number, uint32_t block, uint64_t iterations,
                  size_t sources, size_t sinks, const char *saying) {
    must(told.status == status && told.number == number && told.block == block && told.iterations == iterations,
         saying);
    must(told.source_count == sources && told.sink_count == sinks, saying);
}

static struct magbelu_stream opened(const char *file) {
    struct magbelu_stream stream = MAGBELU_NO_STREAM;
    must(magbelu_stream_open(&stream, file, strlen(file), NULL, 0).number == 0, "a graph of the slices");
    return stream;
}

static struct magbelu_stream opened_at(const char *file, uint64_t iterations) {
    struct magbelu_stream stream = MAGBELU_NO_STREAM;
    must(magbelu_stream_open_at(&stream, file, strlen(file), iterations, NULL, 0).number == 0, "a stream for a slice");
    return stream;
}

/* refuses_at FILE ITERATIONS NUMBER LINE: such a stream is refused so, and none is held */
static void refuses_at(const char *file, uint64_t iterations, uint32_t number, const char *line) {
    struct magbelu_stream stream = MAGBELU_NO_STREAM;
    char error[64];
    struct magbelu_answer answer = magbelu_stream_open_at(&stream, file, strlen(file), iterations, error, sizeof error);
    must(answer.status == 1 && answer.number == number && answer.output_len == 0, line);
    must(answer.error_len == strlen(line) && memcmp(error, line, strlen(line)) == 0, line);
    must(magbelu_stream_free(&stream).number == MAGBELU_NOT_OPEN, "a refused stream is held");
}

/* A slice reads the three items before its own that the first sum holds, and so two iterations of two items. */
static void plans_have_their_numbers(void) {
    struct magbelu_stream stream = opened(sums);
    struct magbelu_cut_source sources[2] = {{7, 7, 7}, {7, 7, 7}};
    struct magbelu_cut_sink sinks[2] = {{7, 7, 7}, {7, 7, 7}};
    tells(magbelu_stream_slices(&stream, 0, NULL, 0, NULL, 0), 0, 0, MAGBELU_NO_BLOCK, 2, 1, 1,
          "a plan with no room for rows");
    tells(magbelu_stream_slices(&stream, 0, NULL, 0, sinks, 2), 0, 0, MAGBELU_NO_BLOCK, 2, 1, 1,
          "a plan with room for sinks");
    must(sinks[0].block == 3 && sinks[0].period == 1 && sinks[0].drop == 2 && sinks[1].block == 7, "how a sink is cut");
    tells(magbelu_stream_slices(&stream, 0, sources, 2, sinks, 2), 0, 0, MAGBELU_NO_BLOCK, 2, 1, 1, "a plan");
    must(sources[0].block == 0 && sources[0].period == 2 && sources[0].overlap == 4 && sources[1].block == 7,
         "how a source is cut");
    magbelu_stream_free(&stream);
}

static void slices_begin_behind_the_overlap(void) {
    struct magbelu_stream stream = opened(sums);
    struct magbelu_cut_part parts[2] = {{7, 7, 7}, {7, 7, 7}};
    tells(magbelu_stream_slice(&stream, 0, 1, parts, 2), 1, MAGBELU_NO_CUT, MAGBELU_NO_BLOCK, 0, 0, 0,
          "a slice within the first overlap");
    tells(magbelu_stream_slice(&stream, 0, ((uint64_t)1 << 46) + 1, parts, 2), 1, MAGBELU_NO_CUT, MAGBELU_NO_BLOCK, 0,
          0, 0, "a slice too far behind");
    must(parts[0].block == 7, "a refusal writes");
    tells(magbelu_stream_slice(&stream, 0, 2, NULL, 0), 0, 0, MAGBELU_NO_BLOCK, 0, 0, 1, "a slice with no room");
    tells(magbelu_stream_slice(&stream, 0, 0, parts, 2), 0, 0, MAGBELU_NO_BLOCK, 0, 0, 1, "the first slice");
    must(parts[0].block == 3 && parts[0].drop == 0 && parts[0].stands == 0 && parts[1].block == 7,
         "the first slice drops something");
    tells(magbelu_stream_slice(&stream, 0, (uint64_t)1 << 46, parts, 2), 0, 0, MAGBELU_NO_BLOCK,
          ((uint64_t)1 << 46) - 2, 0, 1, "the last slice");
    must(parts[0].drop == 2 && parts[0].stands == (uint64_t)1 << 46, "where the last slice stands");
    magbelu_stream_free(&stream);
}

static void what_is_not_cut_is_told(void) {
    struct magbelu_stream stream = opened(coded), none = MAGBELU_NO_STREAM;
    struct magbelu_cut_part part = {7, 7, 7};
    tells(magbelu_stream_slices(&stream, 0, NULL, 0, NULL, 0), 1, MAGBELU_NO_SLICES, 2, 0, 0, 0,
          "a block that keeps all");
    tells(magbelu_stream_slice(&stream, 1, 5, &part, 1), 1, MAGBELU_NO_SLICES, 2, 0, 0, 0,
          "a slice of a block that keeps all");
    magbelu_stream_free(&stream);
    stream = opened(uneven);
    tells(magbelu_stream_slices(&stream, 0, NULL, 0, NULL, 0), 1, MAGBELU_NO_SLICES, MAGBELU_NO_BLOCK, 0, 0, 0,
          "rates without a balance");
    tells(magbelu_stream_slice(&stream, 0, 0, &part, 1), 1, MAGBELU_NO_SLICES, MAGBELU_NO_BLOCK, 0, 0, 0,
          "a slice of such rates");
    tells(magbelu_stream_slices(&stream, 0, NULL, 1, NULL, 0), 1, MAGBELU_NULL, MAGBELU_NO_BLOCK, 0, 0, 0,
          "sources at NULL");
    tells(magbelu_stream_slices(&stream, 0, NULL, 0, NULL, 1), 1, MAGBELU_NULL, MAGBELU_NO_BLOCK, 0, 0, 0,
          "sinks at NULL");
    tells(magbelu_stream_slice(&stream, 0, 0, NULL, 1), 1, MAGBELU_NULL, MAGBELU_NO_BLOCK, 0, 0, 0, "parts at NULL");
    tells(magbelu_stream_slices(NULL, 0, NULL, 0, NULL, 0), 1, MAGBELU_NULL, MAGBELU_NO_BLOCK, 0, 0, 0,
          "a stream at NULL");
    magbelu_stream_free(&stream);
    tells(magbelu_stream_slices(&none, 0, NULL, 0, NULL, 0), 1, MAGBELU_NOT_OPEN, MAGBELU_NO_BLOCK, 0, 0, 0,
          "a plan of no plant");
    tells(magbelu_stream_slice(&none, 0, 0, &part, 1), 1, MAGBELU_NOT_OPEN, MAGBELU_NO_BLOCK, 0, 0, 0,
          "a slice of no plant");
    must(part.block == 7, "a refusal writes");
}

/* runs STREAM FROM END OUT: feeds it the items FROM, FROM + 1, .. before END, and gives how many it gives */
static size_t runs(struct magbelu_stream *stream, uint64_t from, uint64_t end, int16_t *out, size_t room) {
    struct magbelu_piece piece;
    int64_t item;
    for (item = (int64_t)from; item < (int64_t)end; item++) {
        magbelu_stream_feed_numbers(stream, "src", 3, &item, 1, NULL, 0);
    }
    magbelu_stream_close(stream, "src", 3);
    must(magbelu_stream_settle(stream).status == 0, "a slice comes to its end");
    piece = magbelu_stream_drain(stream, "out", 3, MAGBELU_NOW, 0, out, room * sizeof *out, NULL, 0);
    magbelu_stream_free(stream);
    return piece.bytes_len / sizeof *out;
}

/* The sum of items 2j-2 to 2j+1 is 8j-2 where each is its own number; before the first item are zeros. */
static void slices_go_on_with_the_run(void) {
    struct magbelu_stream stream = opened(sums);
    struct magbelu_cut_part part;
    int16_t out[64];
    size_t count, at;
    struct magbelu_slicing told = magbelu_stream_slice(&stream, 0, 20, &part, 1);
    must(told.iterations == 18 && part.drop == 2 && part.stands == 20, "the slice that begins at iteration 20");
    count = runs(&stream, told.iterations * 2, 60, out, 64);
    must(count == 12, "how many items a slice gives");
    for (at = part.drop; at < count; at++) {
        must(out[at] == (int16_t)(8 * (part.stands + at - part.drop) - 2), "an item of a slice");
    }
    must(out[0] != 8 * 18 - 2, "what is dropped is right before");
    stream = opened(sums);
    must(runs(&stream, 0, 40, out, 64) == 20 && out[0] == 1 && out[19] == 8 * 19 - 2, "the slice before it");
}

/* Sum i is 4i-6. The slice that begins at iteration 20 reads three items before it, so 25 - 17 of its sums are among
 * the first 25. */
static void heads_go_on_where_they_stand(void) {
    struct magbelu_stream stream = opened(headed);
    struct magbelu_cut_part part;
    int16_t out[64];
    size_t count, at;
    struct magbelu_slicing told = magbelu_stream_slice(&stream, 0, 20, &part, 1);
    tells(told, 0, 0, 2, 17, 0, 1, "a slice of a head");
    must(part.drop == 3 && part.stands == 20, "where a slice of a head stands");
    tells(magbelu_stream_slices(&stream, 0, NULL, 0, NULL, 0), 0, 0, 2, 3, 1, 1, "a plan of a head");
    magbelu_stream_free(&stream);
    stream = opened_at(headed, 17);
    count = runs(&stream, 17, 60, out, 64);
    must(count == 8, "how many items a head passes in a slice");
    for (at = 3; at < count; at++) {
        must(out[at] == (int16_t)(4 * (17 + at) - 6), "an item of a slice of a head");
    }
    stream = opened_at(headed, 25);
    must(runs(&stream, 25, 60, out, 64) == 0, "a head that ended before passes something");
    /* (what the file feeds is none of what a slice reads) */
    stream = opened_at(headed, 0);
    must(runs(&stream, 0, 20, out, 64) == 20 && out[0] == 0 && out[19] == 4 * 19 - 6, "the slice before it");
}

static void streams_for_slices_are_refused(void) {
    struct magbelu_stream stream = opened(sums);
    must(magbelu_stream_open_at(&stream, sums, strlen(sums), 5, NULL, 0).number == MAGBELU_IS_OPEN,
         "a stream is held already");
    must(magbelu_stream_item_size(&stream, "src", 3).value == 2, "the stream that was held stays");
    magbelu_stream_free(&stream);
    refuses_at("x", 5, 40, "flow: refused 40 Syntax\n");
    refuses_at("[[block]]", 5, 42, "flow: refused 42 MissingKey block 0 name\n");
    refuses_at(coded, 0, MAGBELU_NO_SLICES, "");
    refuses_at(uneven, 5, MAGBELU_NO_SLICES, "");
    refuses_at(sums, ((uint64_t)1 << 46) + 1, MAGBELU_NO_CUT, "");
    stream = opened_at(sums, (uint64_t)1 << 46);
    magbelu_stream_free(&stream);
    must(magbelu_stream_open_at(NULL, sums, strlen(sums), 5, NULL, 0).number == MAGBELU_NULL, "a stream at NULL");
    must(magbelu_stream_open_at(&stream, NULL, 1, 5, NULL, 0).number == MAGBELU_NULL, "a file at NULL");
    must(magbelu_stream_open_at(&stream, sums, strlen(sums), 5, NULL, 1).number == MAGBELU_NULL, "a line at NULL");
}

void slices(void) {
    plans_have_their_numbers();
    slices_begin_behind_the_overlap();
    what_is_not_cut_is_told();
    slices_go_on_with_the_run();
    heads_go_on_where_they_stand();
    streams_for_slices_are_refused();
}
