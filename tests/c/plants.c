/*
 * Calls of plants that are held: right ones and wrong ones, and in two threads at the same time.
 */
#include <pthread.h>
#include <string.h>

#include "calls.h"

static void shows(struct magbelu_plant *plant, uint64_t from, uint64_t max, const char *wanted, size_t wanted_len,
                  uint64_t held, const char *lines) {
    char bytes[64], tags[256];
    struct magbelu_piece piece;
    memset(bytes, '-', sizeof bytes);
    piece = magbelu_read(plant, "out", 3, from, max, 0, bytes, sizeof bytes, tags, sizeof tags);
    must(piece.status == 0 && piece.number == 0 && piece.held == held && piece.item_size == 2, "what a read tells");
    must(piece.bytes_len == wanted_len && memcmp(bytes, wanted, wanted_len) == 0 && bytes[wanted_len] == '-',
         "the bytes of a read");
    must(piece.tags_len == strlen(lines) && memcmp(tags, lines, piece.tags_len) == 0, "the tags of a read");
    piece = magbelu_read(plant, "out", 3, from, max, 0, NULL, 0, NULL, 0);
    must(piece.bytes_len == wanted_len && piece.tags_len == strlen(lines), "a read without room");
}

static void not_open(struct magbelu_plant *plant) {
    char bytes[4] = "abc";
    struct magbelu_piece piece;
    replied(magbelu_item_size(plant, "src", 3), 1, 55, 0, 0, "an item's size");
    replied(magbelu_feed(plant, "src", 3, 0, "\1\0", 2, NULL, 0), 1, 55, 0, 0, "a feed");
    replied(magbelu_feed_numbers(plant, "src", 3, NULL, 0, NULL, 0), 1, 55, 0, 0, "a feed of numbers");
    replied(magbelu_close(plant, "src", 3), 1, 55, 0, 0, "a close");
    replied(magbelu_set(plant, "add", 3, MAGBELU_NOW, 1), 1, 55, 0, 0, "a setting");
    replied(magbelu_set_taps(plant, "add", 3, MAGBELU_NOW, NULL, 0), 1, 55, 0, 0, "taps");
    replied(magbelu_step(plant, "src", 3, 1), 1, 55, 0, 0, "a step");
    replied(magbelu_settle(plant), 1, 55, 0, 0, "a settle");
    replied(magbelu_block_count(plant), 1, 55, 0, 0, "how many blocks");
    replied(magbelu_connections(plant, NULL, 0), 1, 55, 0, 0, "connections");
    replied(magbelu_rooms(plant, NULL, 0), 1, 55, 0, 0, "rooms");
    replied(magbelu_firings(plant, NULL, 0), 1, 55, 0, 0, "firings");
    must(magbelu_setting(plant, 1, NULL, 0).number == 55 && magbelu_rates(plant, 1, NULL, 0).number == 55,
         "a setting and rates");
    must(magbelu_block(plant, 0, bytes, sizeof bytes, NULL, 0).number == 55 && bytes[0] == 'a', "a block");
    is(magbelu_draw(plant, MAGBELU_DOT, bytes, sizeof bytes), 1, 55, 0, NULL, "");
    piece = magbelu_read(plant, "out", 3, 0, 9, 0, bytes, sizeof bytes, NULL, 0);
    must(piece.status == 1 && piece.number == 55 && piece.bytes_len == 0 && bytes[0] == 'a', "a read");
    replied(magbelu_free(plant), 1, 55, 0, 0, "a second free");
}

/* block PLANT NUMBER NAME KIND ROLE INPUTS OUTPUTS: what the block is, of shorts */
static void block(struct magbelu_plant *plant, uint32_t number, const char *name, const char *kind, uint32_t role,
                  size_t inputs, size_t outputs) {
    char names[32], kinds[32];
    struct magbelu_listed listed;
    memset(names, '-', sizeof names);
    memset(kinds, '-', sizeof kinds);
    listed = magbelu_block(plant, number, names, sizeof names, kinds, sizeof kinds);
    must(listed.status == 0 && listed.number == 0 && listed.role == role, "what a block does");
    must(listed.name_len == strlen(name) && memcmp(names, name, listed.name_len) == 0 && names[listed.name_len] == '-',
         "the name of a block");
    must(listed.kind_len == strlen(kind) && memcmp(kinds, kind, listed.kind_len) == 0 && kinds[listed.kind_len] == '-',
         "its kind");
    must(listed.input_count == inputs && listed.output_count == outputs, "its ports");
    must((inputs == 0 || listed.input_type == MAGBELU_SHORT) && (outputs == 0 || listed.output_type == MAGBELU_SHORT),
         "the types of its items");
    /* (where one of the two does not fit, the other is written) */
    memset(names, '-', sizeof names);
    listed = magbelu_block(plant, number, names, listed.name_len, NULL, 0);
    must(listed.kind_len == strlen(kind) && memcmp(names, name, listed.name_len) == 0,
         "a block without room for its kind");
}

/* The chain of shorts, whose outputs hold 4,096 items each. */
static void graph_is_told(struct magbelu_plant *plant) {
    static const char dot[] = "digraph {\n  rankdir=LR;\n  node [shape=record];\n"
                              "  \"src\" [label=\"{src\\nvector_source\\nq 1|{<o0> 0}}\"];\n"
                              "  \"add\" [label=\"{{<i0> 0}|add\\nadd_const\\nvalue 1\\nq 1|{<o0> 0}}\"];\n"
                              "  \"out\" [label=\"{{<i0> 0}|out\\nvector_sink\\nq 1}\"];\n"
                              "  \"src\":o0:e -> \"add\":i0:w [label=\"short 4096\", color=\"#C8A000\"];\n"
                              "  \"add\":o0:e -> \"out\":i0:w [label=\"short 4096\", color=\"#C8A000\"];\n}\n";
    struct magbelu_connection rows[3] = {{9, 9, 9, 9}, {9, 9, 9, 9}, {9, 9, 9, 9}};
    struct magbelu_answer answer;
    char text[1024];
    replied(magbelu_block_count(plant), 0, 0, 0, 3, "how many blocks");
    block(plant, 0, "src", "vector_source", MAGBELU_SOURCE, 0, 1);
    block(plant, 1, "add", "add_const", MAGBELU_WORK, 1, 1);
    block(plant, 2, "out", "vector_sink", MAGBELU_SINK, 1, 0);
    must(magbelu_block(plant, 3, text, sizeof text, NULL, 0).number == 20, "a block beyond the last");
    must(magbelu_block(plant, 0, NULL, 1, NULL, 0).number == 54 && magbelu_block(NULL, 0, NULL, 0, NULL,
        0).number == 54, "a block at NULL");
    replied(magbelu_connections(plant, rows, 1), 0, 0, 0, 2, "connections without room");
    must(rows[0].from == 9, "nothing is written where not all fits");
    replied(magbelu_connections(plant, rows, 3), 0, 0, 0, 2, "connections");
    must(rows[0].from == 0 && rows[0].out_port == 0 && rows[0].to == 1 && rows[0].in_port == 0, "the first connection");
    must(rows[1].from == 1 && rows[1].to == 2 && rows[2].from == 9, "the second one, and no third");
    replied(magbelu_connections(plant, NULL, 1), 1, 54, 0, 0, "connections at NULL");
    memset(text, '-', sizeof text);
    answer = magbelu_draw(plant, MAGBELU_DOT, text, sizeof text);
    is(answer, 0, 0, strlen(dot), NULL, "");
    must(memcmp(text, dot, answer.output_len) == 0 && text[answer.output_len] == '-', "the drawing");
    is(magbelu_draw(plant, MAGBELU_DOT, NULL, 0), 0, 0, strlen(dot), NULL, "");
    answer = magbelu_draw(plant, MAGBELU_MERMAID, text, sizeof text);
    must(answer.status == 0 && memcmp(text, "flowchart LR\n", 13) == 0, "the drawing of Mermaid");
    is(magbelu_draw(NULL, MAGBELU_DOT, NULL, 0), 1, 54, 0, NULL, "");
}

/* setting PLANT NUMBER WHAT LEAST MOST VALUE COUNT: what of the block may be set */
static void setting(struct magbelu_plant *plant, uint32_t number, uint32_t what, int64_t least, int64_t most,
                    int64_t value, size_t count) {
    const struct magbelu_block_setting got = magbelu_setting(plant, number, NULL, 0);
    must(got.status == 0 && got.number == 0 && got.what == what && got.least == least && got.most == most,
         "what may be set");
    must(got.value == value && got.count == count, "the block's own");
}

/* rates PLANT NUMBER SHIFT SHIFTED GIVES INPUTS: what a firing of the block gives */
static void rates(struct magbelu_plant *plant, uint32_t number, uint32_t shift, uint64_t shifted, uint64_t gives,
                  size_t inputs) {
    const struct magbelu_block_rates got = magbelu_rates(plant, number, NULL, 0);
    must(got.status == 0 && got.number == 0 && got.shift == shift && got.shifted == shifted, "how a block shifts");
    must(got.gives == gives && got.input_count == inputs, "what it gives");
}

/* The same chain: what may be set, how much a firing moves, and how often each block fires. */
static void settings_and_rates(struct magbelu_plant *plant) {
    uint64_t rooms[3] = {9, 9, 9}, takes[2] = {9, 9};
    uint32_t firings[4] = {9, 9, 9, 9};
    int16_t taps[1] = {9};
    replied(magbelu_rooms(plant, rooms, 1), 0, 0, 0, 2, "rooms without room");
    must(rooms[0] == 9, "nothing is written where not all fits");
    replied(magbelu_rooms(plant, rooms, 3), 0, 0, 0, 2, "rooms");
    must(rooms[0] == 4096 && rooms[1] == 4096 && rooms[2] == 9, "the rooms of both connections");
    replied(magbelu_rooms(plant, NULL, 1), 1, 54, 0, 0, "rooms at NULL");
    setting(plant, 0, MAGBELU_FIXED, 0, 0, 0, 0);
    setting(plant, 1, MAGBELU_NUMBER, -32768, 32767, 1, 0);
    must(magbelu_setting(plant, 1, taps, 1).count == 0 && taps[0] == 9, "no taps");
    must(magbelu_setting(plant, 3, taps, 1).number == 20 && magbelu_setting(plant, 1, NULL, 1).number == 54,
         "no such block, and taps at NULL");
    rates(plant, 0, MAGBELU_ALIKE, 0, 1, 0);
    rates(plant, 1, MAGBELU_ALIKE, 0, 1, 1);
    must(magbelu_rates(plant, 1, takes, 2).input_count == 1 && takes[0] == 1 && takes[1] == 9, "what it takes");
    must(magbelu_rates(plant, 3, takes, 2).number == 20 && magbelu_rates(plant, 1, NULL, 1).number == 54,
         "no such block, and a table at NULL");
    replied(magbelu_firings(plant, firings, 2), 0, 0, MAGBELU_BALANCED, 3, "firings without room");
    must(firings[0] == 9, "nothing is written where not all fits");
    replied(magbelu_firings(plant, firings, 4), 0, 0, MAGBELU_BALANCED, 3, "firings");
    must(firings[0] == 1 && firings[1] == 1 && firings[2] == 1 && firings[3] == 9, "each block fires once");
    replied(magbelu_firings(plant, NULL, 1), 1, 54, 0, 0, "firings at NULL");
}

/*
 * A filter that keeps every third sum, two at a time, behind a block that leaves out five items, and one that puts four
 * zeros before. A firing of the filter takes six items and gives two, so the others fire six times for it, and the sink
 * twice.
 */
static void slow_filter(void) {
    static const char file[] =
        "block = [{ name = \"src\", kind = \"vector_source\", type = \"short\" }, { name = \"skip\", kind = \"skiphead\", type = \"short\", n = 5 },\n"
                               "    { name = \"zeros\", kind = \"delay\", type = \"short\", n = 4 },\n"
                               "    { name = \"fir\", kind = \"fir\", type = \"short\", taps = [1, -2, 3], decimation = 3, multiple = 2 },\n"
                               "    { name = \"out\", kind = \"vector_sink\", type = \"short\" }]\n"
                               "connect = [{ from = \"src\", to = \"skip\" }, { from = \"skip\", to = \"zeros\" }, { from = \"zeros\", to = \"fir\" }, "
                               "{ from = \"fir\", to = \"out\" }]\n";
    struct magbelu_stream stream = MAGBELU_NO_STREAM;
    int16_t taps[4] = {9, 9, 9, 9};
    uint64_t takes[1] = {9};
    uint32_t firings[5];
    struct magbelu_block_setting got;
    is(magbelu_stream_open(&stream, file, strlen(file), NULL, 0), 0, 0, 0, NULL, "");
    got = magbelu_stream_setting(&stream, 3, taps, 2);
    must(got.what == MAGBELU_TAPS && got.count == 3 && taps[0] == 9, "taps without room");
    got = magbelu_stream_setting(&stream, 3, taps, 4);
    must(got.count == 3 && taps[0] == 1 && taps[1] == -2 && taps[2] == 3 && taps[3] == 9, "taps");
    setting(&stream.plant, 3, MAGBELU_TAPS, 0, 0, 0, 3);
    rates(&stream.plant, 1, MAGBELU_SKIPS, 5, 1, 1);
    rates(&stream.plant, 2, MAGBELU_DELAYS, 4, 1, 1);
    rates(&stream.plant, 3, MAGBELU_ALIKE, 0, 2, 1);
    must(magbelu_stream_rates(&stream, 3, takes, 1).gives == 2 && takes[0] == 6, "what the filter takes");
    replied(magbelu_stream_firings(&stream, firings, 5), 0, 0, MAGBELU_BALANCED, 5, "firings");
    must(firings[0] == 6 && firings[1] == 6 && firings[2] == 6 && firings[3] == 1 && firings[4] == 2,
         "how often each block fires");
    replied(magbelu_stream_rooms(&stream, NULL, 0), 0, 0, 0, 4, "rooms");
    replied(magbelu_stream_free(&stream), 0, 0, 0, 0, "a free");
}

static void refusals(struct magbelu_plant *plant) {
    const struct magbelu_tag off = {9, 1, (const uint8_t *)"a", 1}, bad = {0, 1, (const uint8_t *)"a b", 3},
        null = {0, 1, NULL, 0};
    const int64_t wide[1] = {40000};
    struct magbelu_piece piece;
    char bytes[4] = "abc";
    replied(magbelu_item_size(plant, "out", 3), 1, 21, 0, 0, "not a source");
    replied(magbelu_feed(plant, "none", 4, 0, "\1\0", 2, NULL, 0), 1, 20, 0, 0, "no such block");
    replied(magbelu_feed(plant, "out", 3, 0, "\1\0", 2, NULL, 0), 1, 21, 0, 0, "not a source");
    replied(magbelu_feed(plant, "src", 3, 0, "\1\0\2", 3, NULL, 0), 1, 53, 0, 0, "a cut item");
    replied(magbelu_feed(plant, "src", 3, 0, "\1\0", 2, &off, 1), 1, 25, 0, 0, "a tag on no item");
    replied(magbelu_feed(plant, "src", 3, 0, "\1\0", 2, &bad, 1), 1, 58, 0, 0, "a key that is none");
    replied(magbelu_feed(plant, "src", 3, 0, "\1\0", 2, &null, 1), 1, 54, 0, 0, "a key at NULL");
    replied(magbelu_feed(plant, NULL, 3, 0, "\1\0", 2, NULL, 0), 1, 54, 0, 0, "a name at NULL");
    replied(magbelu_feed(plant, "src", 3, 0, NULL, 2, NULL, 0), 1, 54, 0, 0, "bytes at NULL");
    replied(magbelu_feed(NULL, "src", 3, 0, "\1\0", 2, NULL, 0), 1, 54, 0, 0, "a plant at NULL");
    replied(magbelu_feed_numbers(plant, "src", 3, wide, 1, NULL, 0), 1, 24, 0, 0, "a number out of range");
    replied(magbelu_set(plant, "src", 3, MAGBELU_NOW, 1), 1, 28, 0, 0, "no setting");
    replied(magbelu_set(plant, "add", 3, MAGBELU_NOW, 40000), 1, 29, 0, 0, "a wrong setting");
    replied(magbelu_set_taps(plant, "add", 3, MAGBELU_NOW, NULL, 0), 1, 29, 0, 0, "taps for a number");
    replied(magbelu_step(plant, "none", 4, 0), 1, 20, 0, 0, "a step of no block");
    piece = magbelu_read(plant, "add", 3, 0, 9, 0, bytes, sizeof bytes, NULL, 0);
    must(piece.status == 1 && piece.number == 22 && bytes[0] == 'a', "not a sink");
    piece = magbelu_read(plant, "out", 3, 99, 9, 0, bytes, sizeof bytes, NULL, 0);
    must(piece.status == 1 && piece.number == 31 && bytes[0] == 'a', "beyond the end");
}

void held(void) {
    struct magbelu_plant plant = MAGBELU_NO_PLANT;
    const struct magbelu_tag tags[2] = {{1, -7, (const uint8_t *)"burst", 5}, {2, 3, (const uint8_t *)"end", 3}};
    const int64_t numbers[2] = {-1, 300};
    const size_t len = strlen(chain);
    char error[64];
    not_open(&plant);
    is(magbelu_open(&plant, "x", 1, error, sizeof error), 1, 40, 0, error, "flow: refused 40 Syntax\n");
    not_open(&plant);
    is(magbelu_open(&plant, NULL, 1, error, sizeof error), 1, 54, 0, error, "magbelu: refused 54 Null\n");
    is(magbelu_open(NULL, chain, len, error, sizeof error), 1, 54, 0, error, "magbelu: refused 54 Null\n");
    is(magbelu_open(&plant, chain, len, NULL, 0), 0, 0, 0, NULL, "");
    is(magbelu_open(&plant, chain, len, NULL, 0), 1, 56, 0, NULL, "");
    refusals(&plant);
    graph_is_told(&plant);
    settings_and_rates(&plant);
    slow_filter();
    replied(magbelu_item_size(&plant, "src", 3), 0, 0, 0, 2, "an item's size");
    replied(magbelu_feed(&plant, "src", 3, 0, "\1\0\2\0\3\0", 6, tags, 2), 0, 0, 0, 3, "a feed");
    replied(magbelu_set(&plant, "add", 3, 2, 10), 0, 0, 0, 2, "a setting");
    replied(magbelu_step(&plant, "out", 3, 9), 0, 0, MAGBELU_WAITS_ITEMS, 0, "a sink waits");
    replied(magbelu_step(&plant, "src", 3, 0), 0, 0, MAGBELU_DID, 0, "no firing");
    replied(magbelu_step(&plant, "src", 3, 2), 0, 0, MAGBELU_DID, 2, "two firings");
    replied(magbelu_settle(&plant), 3, 0, 0, 0, "an open source");
    shows(&plant, 0, 9, "\2\0\3\0\15\0", 6, 3, "@1:burst=-7/0\n@2:end=3/0\n");
    shows(&plant, 2, 9, "\15\0", 2, 3, "@2:end=3/0\n");
    shows(&plant, 3, 9, "", 0, 3, "");
    replied(magbelu_set(&plant, "add", 3, 0, 10), 1, MAGBELU_LATE, 0, 3, "a late setting");
    must(strcmp(magbelu_name(27), "Late") == 0 &&
        strcmp(magbelu_reason(27), "the setting begins before the first item that is open") == 0,
        "a name and a reason");
    must(strcmp(magbelu_name(0), "") == 0 && strcmp(magbelu_reason(30), "") == 0,
         "the name and the reason of no refusal");
    replied(magbelu_feed(&plant, "src", 3, 1, "\0\1", 2, NULL, 0), 0, 0, 0, 4, "the highest byte first");
    replied(magbelu_feed_numbers(&plant, "src", 3, numbers, 2, NULL, 0), 0, 0, 0, 6, "a feed of numbers");
    replied(magbelu_feed(&plant, "src", 3, 0, NULL, 0, NULL, 0), 0, 0, 0, 6, "a feed of nothing");
    replied(magbelu_close(&plant, "src", 3), 0, 0, 0, 6, "a close");
    replied(magbelu_close(&plant, "src", 3), 1, 23, 0, 0, "closed before");
    replied(magbelu_settle(&plant), 0, 0, 0, 0, "all are done");
    replied(magbelu_step(&plant, "src", 3, 1), 0, 0, MAGBELU_DONE, 0, "a source that is done");
    shows(&plant, 3, 2, "\13\0\11\0", 4, 6, "");
    replied(magbelu_free(&plant), 0, 0, 0, 0, "a free");
    not_open(&plant);
    is(magbelu_open(&plant, chain, len, NULL, 0), 0, 0, 0, NULL, "");
    replied(magbelu_free(&plant), 0, 0, 0, 0, "a free");
}

/* A thread with a plant of its own. */
static void *works(void *value) {
    struct magbelu_plant plant = MAGBELU_NO_PLANT;
    int16_t items[1000], got[1000];
    const int16_t add = *(int16_t *)value;
    int turn, at;
    is(magbelu_open(&plant, chain, strlen(chain), NULL, 0), 0, 0, 0, NULL, "");
    replied(magbelu_set(&plant, "add", 3, MAGBELU_NOW, add), 0, 0, 0, 0, "a setting");
    for (turn = 0; turn < 50; turn++) {
        for (at = 0; at < 1000; at++) {
            items[at] = (int16_t)(turn + at);
        }
        replied(magbelu_feed(&plant, "src", 3, 0, items, sizeof items, NULL, 0), 0, 0, 0, 1000 * (uint64_t)(turn + 1),
                "a feed");
        replied(magbelu_settle(&plant), 3, 0, 0, 0, "a settle");
        must(magbelu_read(&plant, "out", 3, 1000 * (uint64_t)turn, 1000, 0, got, sizeof got, NULL,
                          0).bytes_len == sizeof got, "a read");
        for (at = 0; at < 1000; at++) {
            must(got[at] == turn + at + add, "an item");
        }
    }
    replied(magbelu_free(&plant), 0, 0, 0, 0, "a free");
    return NULL;
}

void threads(void) {
    pthread_t each[2];
    int16_t values[2] = {100, -100};
    must(pthread_create(&each[0], NULL, works, &values[0]) == 0 && pthread_create(&each[1], NULL, works,
        &values[1]) == 0, "no thread");
    must(pthread_join(each[0], NULL) == 0 && pthread_join(each[1], NULL) == 0, "no join");
}
