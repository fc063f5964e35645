/*
 * Magbelu from C99 and C++ (magbelu.hpp has classes over it): flowgraphs of signal blocks, on the thread of the caller.
 *
 * A graph file, a script and raw items go in as bytes, and texts and items come out into buffers of the caller. What a
 * call allocates it frees before it returns, but for a plant that the caller holds from `magbelu_open` to
 * `magbelu_free`. docs/user/C.md says how to build and link, and docs/user/FILES.md what stands in the files and the
 * texts.
 *
 * Each buffer is a pointer and a number of bytes. NULL may stand for one of 0 bytes; with more it is refused (54).
 * Buffers that a call writes must not overlap those that it reads, nor one another. Several threads may call at the
 * same time, since calls share nothing. Of the threads, one at a time calls a plant that is held.
 */
#ifndef MAGBELU_H
#define MAGBELU_H

#include <stdbool.h>
#include <stddef.h>
#include <stdint.h>

#ifdef __cplusplus
extern "C" {
#endif

/* The version of these calls. magbelu_version() gives that of the library which is linked or loaded: it has to be the
 * same. */
#define MAGBELU_VERSION 1

/*
 * What came of a call.
 *
 * status  0: done. 3: done, but the run came to rest before all blocks were done. 1: refused. 4: out of memory. (The
 *         exit status of the program `flow`.)
 * number  that of the refusal, as docs/user/REFUSALS.md lists them; 0 with status 0 and 3.
 * output_len  how many bytes the output has. If the buffer for it has fewer, nothing was written there.
 * error_len   how many bytes the line has that tells the refusal, as `flow: refused 7 Loop x` with a line feed; 0 where
 *             there is none.
 */
struct magbelu_answer {
    uint32_t status;
    uint32_t number;
    size_t output_len;
    size_t error_len;
};

/*
 * Bytes for a source: the items that they are go to the end of its tape, behind the file's own feeds. `name` has the
 * name of the block. A NULL pointer in a table is refused (54), even with a length of 0.
 */
struct magbelu_input {
    const uint8_t *name;
    size_t name_len;
    const uint8_t *bytes;
    size_t len;
};

/* What is wanted of a sink: with `tags` 0 the bytes of its items, else a line `@OFFSET:KEY=VALUE/SOURCE` for each of
 * its tags. */
struct magbelu_output {
    const uint8_t *name;
    size_t name_len;
    uint32_t tags;
};

/*
 * A plant that is held: a graph with its tapes, its buffers and how far it is. The struct is the caller's, and stands
 * where the caller likes; what it points to is the library's. Begin it with MAGBELU_NO_PLANT, hand it to the calls, and
 * touch no member. A struct that holds no plant, as one that was freed, is answered with 55; a second free too. A copy
 * of the struct is no second plant: once the plant was freed through one, the other must not be used.
 */
struct magbelu_plant {
    void *at;
    bool is_open;
};

#define MAGBELU_NO_PLANT {NULL, false}

/*
 * A plant that streams: it runs in constant memory for as long as it is fed, since it forgets what its sources have
 * taken and what was drained of its sinks. The rules of a plant's struct apply: begin it with MAGBELU_NO_STREAM, and
 * hand it to the calls magbelu_stream_... alone.
 */
struct magbelu_stream {
    struct magbelu_plant plant;
};

#define MAGBELU_NO_STREAM {MAGBELU_NO_PLANT}

/* The numbers of refusals. magbelu_reason tells when each comes. */
/* scripts/generate writes these lines from refusals.toml: numbers */
#define MAGBELU_DUPLICATE_NAME 1
#define MAGBELU_UNKNOWN_BLOCK 2
#define MAGBELU_PORT_RANGE 3
#define MAGBELU_INPUT_TAKEN 4
#define MAGBELU_PORT_GAP 5
#define MAGBELU_TYPE_MISMATCH 6
#define MAGBELU_LOOP 7
#define MAGBELU_TOO_FEW_PORTS 8
#define MAGBELU_TOO_LARGE 9
#define MAGBELU_BAD_PARAMETER 10
#define MAGBELU_ONE_TO_ONE 11
#define MAGBELU_GAIN 12
#define MAGBELU_NO_SUCH_BLOCK 20
#define MAGBELU_NOT_SOURCE 21
#define MAGBELU_NOT_SINK 22
#define MAGBELU_CLOSED 23
#define MAGBELU_ITEM_RANGE 24
#define MAGBELU_TAG_PLACE 25
#define MAGBELU_TAPE_FULL 26
#define MAGBELU_LATE 27
#define MAGBELU_NO_SETTING 28
#define MAGBELU_WRONG_SETTING 29
#define MAGBELU_BEYOND_END 31
#define MAGBELU_MEMORY 32
#define MAGBELU_SYNTAX 40
#define MAGBELU_UNKNOWN_KEY 41
#define MAGBELU_MISSING_KEY 42
#define MAGBELU_WRONG_TYPE 43
#define MAGBELU_UNKNOWN_KIND 44
#define MAGBELU_BAD_LINE 50
#define MAGBELU_WRITE 52
#define MAGBELU_CUT_ITEM 53
#define MAGBELU_NULL 54
#define MAGBELU_NOT_OPEN 55
#define MAGBELU_IS_OPEN 56
#define MAGBELU_LENGTHS 57
#define MAGBELU_BAD_KEY 58
#define MAGBELU_NO_SLICES 63
#define MAGBELU_NO_CUT 64
/* end of these lines: numbers */

/*
 * The place at which a graph file is refused. Lines and columns count from 1, columns and lengths in characters.
 *
 * status   0: the file is not refused. 1: it is. 4: out of memory.
 * number   that of the refusal; 0 with status 0.
 * line     the line; 0 if nothing is refused, or memory ran out for the place.
 * column   the first character of the word that is at fault.
 * length   how many characters it has on that line; 1 if no word stands there.
 * why_len  how many bytes the reason has. It is written if it fits its buffer.
 */
struct magbelu_fault_place {
    uint32_t status;
    uint32_t number;
    size_t line;
    size_t column;
    size_t length;
    size_t why_len;
};

/*
 * What came of a call of a held plant.
 *
 * status  0: done. 3: the plant came to rest before all blocks were done. 1: refused, and nothing changed. 4: out of
 *         memory.
 * number  that of the refusal (docs/user/REFUSALS.md, and those above); 0 with status 0 and 3.
 * what    of a step: MAGBELU_DID, MAGBELU_DONE, MAGBELU_WAITS_ITEMS or MAGBELU_WAITS_ROOM. Of magbelu_need:
 *         MAGBELU_READY, MAGBELU_DONE, MAGBELU_WAITS_ITEMS, MAGBELU_WAITS_ROOM or MAGBELU_WAITS_FEED. Of
 *         magbelu_firings: MAGBELU_BALANCED, MAGBELU_UNEVEN or MAGBELU_TOO_OFTEN.
 * value   of a feed and a close: how many items the tape has, or a source that streams was fed. Of a setting: the item
 *         from which it is in force; with number 27 the first one from which it could be. Of a step: how many firings
 *         were done, or the port at which the block waits. Of magbelu_need: that port. Of magbelu_item_size: that size.
 *         Of magbelu_block_count, magbelu_connections, magbelu_rooms and magbelu_firings: how many there are.
 */
struct magbelu_reply {
    uint32_t status;
    uint32_t number;
    uint32_t what;
    uint64_t value;
};

#define MAGBELU_DID 0
#define MAGBELU_DONE 1
#define MAGBELU_WAITS_ITEMS 2
#define MAGBELU_WAITS_ROOM 3
#define MAGBELU_READY 0
#define MAGBELU_WAITS_FEED 5

#define MAGBELU_BALANCED 0
#define MAGBELU_UNEVEN 1
#define MAGBELU_TOO_OFTEN 2

/*
 * What came of a read or a drain: how many items the sink has taken in all, how many bytes an item has, how many bytes
 * the items have that are shown, and how many the lines of their tags. Each of the two buffers is written where all
 * that belongs there fits.
 */
struct magbelu_piece {
    uint32_t status;
    uint32_t number;
    uint64_t held;
    size_t item_size;
    size_t bytes_len;
    size_t tags_len;
};

/* A tag that items are fed with: the place of its item on the tape, where the first is 0, its value, and its key of 1
 * to 16 letters, digits, `_`, `.` or `-`. */
struct magbelu_tag {
    uint64_t offset;
    int64_t value;
    const uint8_t *key;
    size_t key_len;
};

/* The place of a setting that is to be in force at once. */
#define MAGBELU_NOW UINT64_MAX

/*
 * What a block of a held graph is.
 *
 * status  0: done. 1: refused.
 * number  that of the refusal; 0 with status 0.
 * role    MAGBELU_WORK, MAGBELU_SOURCE, MAGBELU_SINK of a sink that keeps its items, or MAGBELU_NULL_SINK of one that
 *         drops them.
 * input_type, output_type    MAGBELU_BYTE, MAGBELU_SHORT or MAGBELU_INT. On a side without a port the type says
 *                            nothing.
 * input_count, output_count  how many inputs and outputs are connected. A source has no inputs but its tape.
 * name_len, kind_len         how many bytes its name has, and the name of its kind. Each is written if it fits its
 *                            buffer.
 */
struct magbelu_listed {
    uint32_t status;
    uint32_t number;
    uint32_t role;
    uint32_t input_type;
    uint32_t output_type;
    size_t input_count;
    size_t output_count;
    size_t name_len;
    size_t kind_len;
};

#define MAGBELU_WORK 0
#define MAGBELU_SOURCE 1
#define MAGBELU_SINK 2
#define MAGBELU_NULL_SINK 3

#define MAGBELU_BYTE 0
#define MAGBELU_SHORT 1
#define MAGBELU_INT 2

/* A connection of two blocks, which are numbered from 0, in the order of the file. */
struct magbelu_connection {
    uint32_t from;
    uint32_t to;
    size_t out_port;
    size_t in_port;
};

/*
 * What of a block may be set, and its own value of that, which is in force until another is set.
 *
 * status  0: done. 1: refused.
 * number  that of the refusal; 0 with status 0.
 * what    MAGBELU_FIXED where nothing may be set, MAGBELU_NUMBER, or MAGBELU_TAPS.
 * least, most, value  of a number the least and the greatest that magbelu_set takes, and the block's own; else 0.
 * count   of taps how many magbelu_set_taps takes, which is how many the block's own are; else 0.
 */
struct magbelu_block_setting {
    uint32_t status;
    uint32_t number;
    uint32_t what;
    int64_t least;
    int64_t most;
    int64_t value;
    size_t count;
};

#define MAGBELU_FIXED 0
#define MAGBELU_NUMBER 1
#define MAGBELU_TAPS 2

/*
 * What a firing of a block gives. If nothing is connected to its outputs, `gives` says nothing.
 *
 * status   0: done. 1: refused. 4: out of memory.
 * number   that of the refusal; 0 with status 0.
 * shift    MAGBELU_ALIKE if all firings take and give as many items. With MAGBELU_SKIPS the first `shifted` firings
 *          give nothing, and with MAGBELU_DELAYS they take nothing.
 * gives    how many items a firing gives on each output.
 * input_count  how many inputs are connected.
 */
struct magbelu_block_rates {
    uint32_t status;
    uint32_t number;
    uint32_t shift;
    uint64_t shifted;
    uint64_t gives;
    size_t input_count;
};

#define MAGBELU_ALIKE 0
#define MAGBELU_SKIPS 1
#define MAGBELU_DELAYS 2

/* What a drawing is written in: the language of Graphviz's `dot`, or that of Mermaid. */
#define MAGBELU_DOT 0
#define MAGBELU_MERMAID 1

/* Stands for no block. */
#define MAGBELU_NO_BLOCK UINT32_MAX

/*
 * How far a block of a plant that streams is, in items of the streams from their beginnings on.
 *
 * status   0: done. 1: refused.
 * number   that of the refusal; 0 with status 0.
 * taken    how many items it has taken of its first input, or of its tape if it is a source.
 * given    how many items it has given on each output, or taken if it is a sink.
 * waiting  how many items have come to its first input or its tape and are not taken yet.
 */
struct magbelu_levels {
    uint32_t status;
    uint32_t number;
    uint64_t taken;
    uint64_t given;
    uint64_t waiting;
};

/*
 * What came of a call about slices of time. A slice is a part of a run that is run for itself. It begins at an
 * iteration, in which each source gives its `period` items. To give what the whole run gives, it reads some iterations
 * before its own, and drops what these give.
 *
 * status      0: done. 1: refused. 4: out of memory. The plant stays as it is.
 * number      that of the refusal; 0 with status 0.
 * block       with MAGBELU_NO_SLICES the number of the first block whose items rest on all that it was given, or
 *             MAGBELU_NO_BLOCK if the rates have no balance, or slices would overlap too far. With 0 the number of the
 *             first block whose items rest on how many came before (`head`, `additive_scrambler`), or MAGBELU_NO_BLOCK.
 *             Open slices of a graph with such a block by magbelu_stream_open_at, those of another by
 *             magbelu_stream_open too. Blocks are numbered from 0, in the order of the file.
 * iterations  of magbelu_slices: how many iterations before its own a slice reads. Of magbelu_slice: how many
 *             iterations of each tape the slice leaves out.
 * source_count, sink_count  how many rows there are for sources, and for sinks that keep their items; magbelu_slice has
 *             none for sources. The rows of each table are written if all of them fit, in the order of the blocks.
 */
struct magbelu_slicing {
    uint32_t status;
    uint32_t number;
    uint32_t block;
    uint64_t iterations;
    size_t source_count;
    size_t sink_count;
};

/* How the tape of a source is cut: how many items it gives in an iteration, and how many items before its own a slice
 * reads. */
struct magbelu_cut_source {
    uint32_t block;
    uint64_t period;
    uint64_t overlap;
};

/* How the items of a sink are put together: how many it takes in an iteration, and how many a slice drops that does not
 * begin the run. */
struct magbelu_cut_sink {
    uint32_t block;
    uint64_t period;
    uint64_t drop;
};

/* What a slice gives a sink: how many of its items are dropped, and at which item of the whole stream the others
 * stand. */
struct magbelu_cut_part {
    uint32_t block;
    uint64_t drop;
    uint64_t stands;
};

/*
 * What the library exports. Here no pointer may be NULL, even where its length is 0: call these through the functions
 * below, which see to that. A pointer to no bytes may be any other.
 */
uint32_t magbelu_version(void);

struct magbelu_answer magbelu_bytes_check(const uint8_t *file, size_t file_len, uint8_t *output, size_t output_room,
                                          uint8_t *error, size_t error_room);

struct magbelu_answer magbelu_bytes_run(const uint8_t *file, size_t file_len, uint8_t *output, size_t output_room,
                                        uint8_t *error, size_t error_room);

struct magbelu_answer magbelu_bytes_script(const uint8_t *file, size_t file_len, const uint8_t *script,
                                           size_t script_len, uint8_t *output, size_t output_room, uint8_t *error,
                                           size_t error_room);

struct magbelu_answer magbelu_bytes_explain(const uint8_t *name, size_t name_len, const uint8_t *file, size_t file_len,
                                            uint8_t *output, size_t output_room, uint8_t *error, size_t error_room);

struct magbelu_fault_place magbelu_bytes_place(const uint8_t *file, size_t file_len, uint8_t *why, size_t why_room);

struct magbelu_answer magbelu_bytes_run_items(const uint8_t *file, size_t file_len, uint32_t big_endian,
                                              const struct magbelu_input *inputs, size_t input_count,
                                              const struct magbelu_output *outputs, size_t output_count, uint64_t *lens,
                                              size_t lens_room, uint8_t *bytes, size_t bytes_room, uint8_t *error,
                                              size_t error_room);

struct magbelu_answer magbelu_bytes_open(struct magbelu_plant *plant, const uint8_t *file, size_t file_len,
                                         uint8_t *error, size_t error_room);

struct magbelu_answer magbelu_bytes_open_stream(struct magbelu_plant *plant, const uint8_t *file, size_t file_len,
                                                uint8_t *error, size_t error_room);

struct magbelu_answer magbelu_bytes_open_stream_at(struct magbelu_plant *plant, const uint8_t *file, size_t file_len,
                                                   uint64_t iterations, uint8_t *error, size_t error_room);

struct magbelu_reply magbelu_bytes_free(struct magbelu_plant *plant);

struct magbelu_reply magbelu_bytes_item_size(struct magbelu_plant *plant, const uint8_t *source, size_t source_len);

struct magbelu_reply magbelu_bytes_feed(struct magbelu_plant *plant, const uint8_t *source, size_t source_len,
                                        uint32_t big_endian, const uint8_t *bytes, size_t len,
                                        const struct magbelu_tag *tags, size_t tag_count);

struct magbelu_reply magbelu_bytes_feed_numbers(struct magbelu_plant *plant, const uint8_t *source, size_t source_len,
                                                const int64_t *numbers, size_t count, const struct magbelu_tag *tags,
                                                size_t tag_count);

struct magbelu_reply magbelu_bytes_close(struct magbelu_plant *plant, const uint8_t *source, size_t source_len);

struct magbelu_reply magbelu_bytes_set(struct magbelu_plant *plant, const uint8_t *block, size_t block_len, uint64_t at,
                                       int64_t number);

struct magbelu_reply magbelu_bytes_set_taps(struct magbelu_plant *plant, const uint8_t *block, size_t block_len,
                                            uint64_t at, const int16_t *taps, size_t count);

struct magbelu_reply magbelu_bytes_step(struct magbelu_plant *plant, const uint8_t *block, size_t block_len,
                                        uint32_t max);

struct magbelu_reply magbelu_bytes_settle(struct magbelu_plant *plant);

struct magbelu_reply magbelu_bytes_need(struct magbelu_plant *plant, const uint8_t *block, size_t block_len);

struct magbelu_piece magbelu_bytes_read(struct magbelu_plant *plant, const uint8_t *sink, size_t sink_len,
                                        uint64_t from, uint64_t max, uint32_t big_endian, uint8_t *bytes,
                                        size_t bytes_room, uint8_t *tags, size_t tags_room);

struct magbelu_piece magbelu_bytes_drain(struct magbelu_plant *plant, const uint8_t *sink, size_t sink_len,
                                         uint64_t max, uint32_t big_endian, uint8_t *bytes, size_t bytes_room,
                                         uint8_t *tags, size_t tags_room);

struct magbelu_levels magbelu_bytes_levels(struct magbelu_plant *plant, const uint8_t *block, size_t block_len);

struct magbelu_reply magbelu_bytes_block_count(struct magbelu_plant *plant);

struct magbelu_listed magbelu_bytes_block(struct magbelu_plant *plant, uint32_t number, uint8_t *name, size_t name_room,
                                          uint8_t *kind, size_t kind_room);

struct magbelu_reply magbelu_bytes_connections(struct magbelu_plant *plant, struct magbelu_connection *connections,
                                               size_t room);

struct magbelu_answer magbelu_bytes_draw(struct magbelu_plant *plant, uint32_t format, uint8_t *output,
                                         size_t output_room);

struct magbelu_reply magbelu_bytes_rooms(struct magbelu_plant *plant, uint64_t *rooms, size_t room);

struct magbelu_block_setting magbelu_bytes_setting(struct magbelu_plant *plant, uint32_t number, int16_t *taps,
                                                   size_t room);

struct magbelu_block_rates magbelu_bytes_rates(struct magbelu_plant *plant, uint32_t number, uint64_t *takes,
                                               size_t room);

struct magbelu_reply magbelu_bytes_firings(struct magbelu_plant *plant, uint32_t *firings, size_t room);

struct magbelu_slicing magbelu_bytes_slices(struct magbelu_plant *plant, uint32_t tags,
                                            struct magbelu_cut_source *sources, size_t source_room,
                                            struct magbelu_cut_sink *sinks, size_t sink_room);

struct magbelu_slicing magbelu_bytes_slice(struct magbelu_plant *plant, uint32_t tags, uint64_t begins,
                                           struct magbelu_cut_part *parts, size_t part_room);

/*
 * Kernels over slices: each pointer with its number of items, `out` too. They answer 0. If the numbers differ, they
 * answer MAGBELU_LENGTHS and write nothing. Sums and products wrap. No pointer may be NULL, and `out` overlaps no
 * other.
 */
uint32_t magbelu_kernel_add_shorts(const int16_t *a, size_t a_len, const int16_t *b, size_t b_len, int16_t *out,
                                   size_t out_len);
uint32_t magbelu_kernel_add_ints(const int32_t *a, size_t a_len, const int32_t *b, size_t b_len, int32_t *out,
                                 size_t out_len);
uint32_t magbelu_kernel_add_number_shorts(const int16_t *a, size_t a_len, int16_t number, int16_t *out, size_t out_len);
uint32_t magbelu_kernel_add_number_ints(const int32_t *a, size_t a_len, int32_t number, int32_t *out, size_t out_len);
uint32_t magbelu_kernel_multiply_shorts(const int16_t *a, size_t a_len, int16_t number, int16_t *out, size_t out_len);
uint32_t magbelu_kernel_multiply_ints(const int32_t *a, size_t a_len, int32_t number, int32_t *out, size_t out_len);
uint32_t magbelu_kernel_and_bytes(const uint8_t *a, size_t a_len, const uint8_t *b, size_t b_len, uint8_t *out,
                                  size_t out_len);
uint32_t magbelu_kernel_and_shorts(const int16_t *a, size_t a_len, const int16_t *b, size_t b_len, int16_t *out,
                                   size_t out_len);
uint32_t magbelu_kernel_and_ints(const int32_t *a, size_t a_len, const int32_t *b, size_t b_len, int32_t *out,
                                 size_t out_len);
uint32_t magbelu_kernel_or_bytes(const uint8_t *a, size_t a_len, const uint8_t *b, size_t b_len, uint8_t *out,
                                 size_t out_len);
uint32_t magbelu_kernel_or_shorts(const int16_t *a, size_t a_len, const int16_t *b, size_t b_len, int16_t *out,
                                  size_t out_len);
uint32_t magbelu_kernel_or_ints(const int32_t *a, size_t a_len, const int32_t *b, size_t b_len, int32_t *out,
                                size_t out_len);
uint32_t magbelu_kernel_xor_bytes(const uint8_t *a, size_t a_len, const uint8_t *b, size_t b_len, uint8_t *out,
                                  size_t out_len);
uint32_t magbelu_kernel_xor_shorts(const int16_t *a, size_t a_len, const int16_t *b, size_t b_len, int16_t *out,
                                   size_t out_len);
uint32_t magbelu_kernel_xor_ints(const int32_t *a, size_t a_len, const int32_t *b, size_t b_len, int32_t *out,
                                 size_t out_len);

/* (not for callers) */
struct magbelu_row {
    uint32_t number;
    const char *name;
    const char *reason;
};

static inline const struct magbelu_row *magbelu_row_of(uint32_t number) {
    static const struct magbelu_row rows[] = {
        /* scripts/generate writes these lines from refusals.toml: rows */
        {1, "DuplicateName", "two blocks have the name"},
        {2, "UnknownBlock", "the connection names no block"},
        {3, "PortRange", "the block's kind has no such port, or it is negative"},
        {4, "InputTaken", "the input has a connection already"},
        {5, "PortGap", "the port is not used and a higher one is"},
        {6, "TypeMismatch", "the ends of the connection to this input have different types"},
        {7, "Loop", "the block reaches itself"},
        {8, "TooFewPorts", "the block uses fewer ports than its kind needs"},
        {9, "TooLarge", "there are too many"},
        {10, "BadParameter", "its value is outside its range"},
        {11, "OneToOne", "`tags = \"one\"`, with different numbers of inputs and outputs"},
        {12, "Gain", "at this block the product of the gains along a path exceeds 2^24"},
        {20, "NoSuchBlock", "no block of the graph has this name"},
        {21, "NotSource", "the block is no vector_source"},
        {22, "NotSink", "the block is no vector_sink"},
        {23, "Closed", "the source is closed"},
        {24, "ItemRange", "an item is outside the range of the source's type"},
        {25, "TagPlace", "a tag lies on none of the items that it is fed with"},
        {26, "TapeFull", "the source would be fed more items than it takes"},
        {27, "Late", "the setting begins before the first item that is open"},
        {28, "NoSetting", "the block has no setting"},
        {29, "WrongSetting", "the numbers are outside the setting's range, or of another count"},
        {31, "BeyondEnd", "the read begins behind what the sink holds"},
        {32, "Memory", "memory ran out"},
        {40, "Syntax", "the text is not TOML in UTF-8"},
        {41, "UnknownKey", "the table has a key that such a table does not have"},
        {42, "MissingKey", "the key is missing"},
        {43, "WrongType", "the value at the key has another type"},
        {44, "UnknownKind", "there is no such kind"},
        {50, "BadLine", "the line of this number is no command"},
        {52, "Write", "memory for the output ran out"},
        {53, "CutItem", "the bytes end in the midst of an item"},
        {54, "Null", "a pointer is NULL, and its length is not 0"},
        {55, "NotOpen", "no plant is held, or it was freed"},
        {56, "IsOpen", "a plant is held already"},
        {57, "Lengths", "the slices of a kernel differ in length"},
        {58, "BadKey", "the key of a tag is not 1 to 16 letters, digits, `_`, `.` or `-`"},
        {63, "NoSlices", "a block keeps all that it was given, the rates have no balance, or slices would overlap too far"},
        {64, "NoCut", "a slice begins at the first iteration, or from the overlap on"},
        /* end of these lines: rows */
        {0, "", ""},
    };
    const struct magbelu_row *row = rows;
    while (row->number != 0 && row->number != number) {
        row++;
    }
    return row;
}

/*
 * The name of the refusal of this number, as `Late`, and the reason, as `the setting begins before the first item that
 * is open`. Both are empty of a number that no call here gives. magbelu_explain shows the place in a file that is
 * refused.
 */
static inline const char *magbelu_name(uint32_t number) { return magbelu_row_of(number)->name; }

static inline const char *magbelu_reason(uint32_t number) { return magbelu_row_of(number)->reason; }

/* (not for callers) */
static inline int magbelu_is_null(const void *at, size_t len) { return at == NULL && len != 0; }

static inline const uint8_t *magbelu_read_at(const void *at) { return (const uint8_t *)(at != NULL ? at : ""); }

static inline uint8_t *magbelu_write_at(void *at, uint64_t *none) {
    return (uint8_t *)(at != NULL ? at : (void *)none);
}

static inline struct magbelu_answer magbelu_refused_null(char *error, size_t error_room) {
    static const char line[] = "magbelu: refused 54 Null\n";
    struct magbelu_answer answer = {1, MAGBELU_NULL, 0, sizeof line - 1};
    size_t i;
    if (error != NULL && sizeof line - 1 <= error_room) {
        for (i = 0; i < sizeof line - 1; i++) {
            error[i] = line[i];
        }
    }
    return answer;
}

/*
 * Reports the graph of a file, as `flow check FILE` does: its blocks, its connections, its rates.
 *
 * `file` has the text of the graph file. The output goes to `output` if it fits into `output_room` bytes; the line of a
 * refusal goes to `error` if it fits into `error_room`. Neither has a 0 at its end. To learn how much room is needed,
 * call with a room of 0 first.
 */
static inline struct magbelu_answer magbelu_check(const void *file, size_t file_len, char *output, size_t output_room,
                                                  char *error, size_t error_room) {
    uint64_t none = 0;
    if (magbelu_is_null(file, file_len) || magbelu_is_null(output, output_room) || magbelu_is_null(error, error_room)) {
        return magbelu_refused_null(error, error_room);
    }
    return magbelu_bytes_check(magbelu_read_at(file), file_len, magbelu_write_at(output, &none), output_room,
                               magbelu_write_at(error, &none), error_room);
}

/*
 * Runs the graph of a file on this thread until it comes to rest, and tells what its sinks hold, as `flow run
 * --one-thread FILE` does: the sources are fed what the file says, and closed. Status 3 where it came to rest before
 * all blocks were done.
 */
static inline struct magbelu_answer magbelu_run(const void *file, size_t file_len, char *output, size_t output_room,
                                                char *error, size_t error_room) {
    uint64_t none = 0;
    if (magbelu_is_null(file, file_len) || magbelu_is_null(output, output_room) || magbelu_is_null(error, error_room)) {
        return magbelu_refused_null(error, error_room);
    }
    return magbelu_bytes_run(magbelu_read_at(file), file_len, magbelu_write_at(output, &none), output_room,
                             magbelu_write_at(error, &none), error_room);
}

/*
 * Makes a call of the graph for each line of `script` (feed, close, set, step, read ..), as `flow script FILE` does.
 * The output has a reply for each, also where a later line is refused: then it has those of the lines before it.
 */
static inline struct magbelu_answer magbelu_script(const void *file, size_t file_len, const void *script,
                                                   size_t script_len, char *output, size_t output_room, char *error,
                                                   size_t error_room) {
    uint64_t none = 0;
    if (magbelu_is_null(file, file_len) || magbelu_is_null(script, script_len) ||
        magbelu_is_null(output, output_room) || magbelu_is_null(error, error_room)) {
        return magbelu_refused_null(error, error_room);
    }
    return magbelu_bytes_script(magbelu_read_at(file), file_len, magbelu_read_at(script), script_len,
                                magbelu_write_at(output, &none), output_room, magbelu_write_at(error, &none),
                                error_room);
}

/*
 * Shows where a graph file is refused. The answer and its line are those of magbelu_open, and the output has the place
 * in the file and what stands or may stand there, as lines for a person, which `flow --explain FILE` writes too:
 *
 *     --> graph.toml:9:1
 *      |
 *    9 | valu = 10
 *      | ^ a block of the kind add_const has no key `valu`; it has: name, kind, type, value, tags, multiple, capacity
 *
 * `name` is what the file is called there; one that is no UTF-8 is shown as `?`. The output is empty if the file is not
 * refused, or if memory runs out for these lines. Call it after another call has refused the file: it reads the file
 * anew.
 */
static inline struct magbelu_answer magbelu_explain(const void *name, size_t name_len, const void *file,
                                                    size_t file_len, char *output, size_t output_room, char *error,
                                                    size_t error_room) {
    uint64_t none = 0;
    if (magbelu_is_null(name, name_len) || magbelu_is_null(file, file_len) || magbelu_is_null(output, output_room) ||
        magbelu_is_null(error, error_room)) {
        return magbelu_refused_null(error, error_room);
    }
    return magbelu_bytes_explain(magbelu_read_at(name), name_len, magbelu_read_at(file), file_len,
                                 magbelu_write_at(output, &none), output_room, magbelu_write_at(error, &none),
                                 error_room);
}

/*
 * Tells at which word a graph file is refused, for a program that marks the place itself, and in `why` the reason that
 * magbelu_explain shows below that word. It tells nothing of a file that is not refused. Call it after another call has
 * refused the file: it reads the file anew.
 */
static inline struct magbelu_fault_place magbelu_place(const void *file, size_t file_len, char *why, size_t why_room) {
    uint64_t none = 0;
    if (magbelu_is_null(file, file_len) || magbelu_is_null(why, why_room)) {
        struct magbelu_fault_place place = {1, MAGBELU_NULL, 0, 0, 0, 0};
        return place;
    }
    return magbelu_bytes_place(magbelu_read_at(file), file_len, magbelu_write_at(why, &none), why_room);
}

/*
 * Runs the graph of a file between raw items, as `flow run --one-thread -i .. -o ..` does. Raw items stand one behind
 * the other without a header: 1, 2 or 4 bytes each, in two's complement, the lowest byte first, or with `big_endian`
 * other than 0 the highest.
 *
 * Each input is fed in turn, then all sources are closed and the graph runs until it comes to rest. `bytes` has then
 * what the outputs ask for, one behind the other, and `lens` how many bytes each of them has. Each is written where all
 * of it fits: the answer's `output_len` is the number of all bytes, and a call with `bytes_room` 0 and room for `lens`
 * tells all lengths. A refusal names the entry of its table, as `flow: refused 22 NotSink output 0`.
 */
static inline struct magbelu_answer magbelu_run_items(const void *file, size_t file_len, uint32_t big_endian,
                                                      const struct magbelu_input *inputs, size_t input_count,
                                                      const struct magbelu_output *outputs, size_t output_count,
                                                      uint64_t *lens, size_t lens_room, void *bytes, size_t bytes_room,
                                                      char *error, size_t error_room) {
    const struct magbelu_input no_input = {(const uint8_t *)"", 0, (const uint8_t *)"", 0};
    const struct magbelu_output no_output = {(const uint8_t *)"", 0, 0};
    uint64_t none = 0;
    size_t i;
    if (magbelu_is_null(file, file_len) || magbelu_is_null(inputs, input_count) ||
        magbelu_is_null(outputs, output_count) || magbelu_is_null(lens, lens_room) ||
        magbelu_is_null(bytes, bytes_room) || magbelu_is_null(error, error_room)) {
        return magbelu_refused_null(error, error_room);
    }
    /* (of a table's own pointers one to no bytes has to be a pointer too) */
    for (i = 0; i < input_count; i++) {
        if (inputs[i].name == NULL || inputs[i].bytes == NULL) {
            return magbelu_refused_null(error, error_room);
        }
    }
    for (i = 0; i < output_count; i++) {
        if (outputs[i].name == NULL) {
            return magbelu_refused_null(error, error_room);
        }
    }
    return magbelu_bytes_run_items(magbelu_read_at(file), file_len, big_endian, inputs != NULL ? inputs : &no_input,
                                   input_count, outputs != NULL ? outputs : &no_output, output_count,
                                   lens != NULL ? lens : &none, lens_room, magbelu_write_at(bytes, &none), bytes_room,
                                   magbelu_write_at(error, &none), error_room);
}

/* (not for callers) */
static inline struct magbelu_reply magbelu_null_reply(void) {
    struct magbelu_reply reply = {1, MAGBELU_NULL, 0, 0};
    return reply;
}

static inline int magbelu_has_null_key(const struct magbelu_tag *tags, size_t tag_count) {
    size_t i;
    if (magbelu_is_null(tags, tag_count)) {
        return 1;
    }
    for (i = 0; i < tag_count; i++) {
        if (tags[i].key == NULL) {
            return 1;
        }
    }
    return 0;
}

/*
 * Opens the plant of a graph file, with what the file feeds, for many calls. `plant` must hold none. The answer has no
 * output; a refusal of the file has a line, as of magbelu_run. Free the plant when it is no longer needed.
 */
static inline struct magbelu_answer magbelu_open(struct magbelu_plant *plant, const void *file, size_t file_len,
                                                 char *error, size_t error_room) {
    uint64_t none = 0;
    if (plant == NULL || magbelu_is_null(file, file_len) || magbelu_is_null(error, error_room)) {
        return magbelu_refused_null(error, error_room);
    }
    return magbelu_bytes_open(plant, magbelu_read_at(file), file_len, magbelu_write_at(error, &none), error_room);
}

/* Frees the plant that is held. */
static inline struct magbelu_reply magbelu_free(struct magbelu_plant *plant) {
    return plant == NULL ? magbelu_null_reply() : magbelu_bytes_free(plant);
}

/* Tells how many bytes an item of a source has: 1, 2 or 4. */
static inline struct magbelu_reply magbelu_item_size(struct magbelu_plant *plant, const void *source,
                                                     size_t source_len) {
    if (plant == NULL || magbelu_is_null(source, source_len)) {
        return magbelu_null_reply();
    }
    return magbelu_bytes_item_size(plant, magbelu_read_at(source), source_len);
}

/*
 * Puts the items that raw bytes are at the end of a source's tape, with tags on them (NULL and 0 for none). With bytes
 * that end within an item it is refused 53, and then nothing is fed.
 */
static inline struct magbelu_reply magbelu_feed(struct magbelu_plant *plant, const void *source, size_t source_len,
                                                uint32_t big_endian, const void *bytes, size_t len,
                                                const struct magbelu_tag *tags, size_t tag_count) {
    const struct magbelu_tag no_tag = {0, 0, (const uint8_t *)"", 0};
    if (plant == NULL || magbelu_is_null(source, source_len) || magbelu_is_null(bytes, len) ||
        magbelu_has_null_key(tags, tag_count)) {
        return magbelu_null_reply();
    }
    return magbelu_bytes_feed(plant, magbelu_read_at(source), source_len, big_endian, magbelu_read_at(bytes), len,
                              tags != NULL ? tags : &no_tag, tag_count);
}

/* The same of numbers. Each must be an item of the source's type. */
static inline struct magbelu_reply magbelu_feed_numbers(struct magbelu_plant *plant, const void *source,
                                                        size_t source_len, const int64_t *numbers, size_t count,
                                                        const struct magbelu_tag *tags, size_t tag_count) {
    const struct magbelu_tag no_tag = {0, 0, (const uint8_t *)"", 0};
    const int64_t none = 0;
    if (plant == NULL || magbelu_is_null(source, source_len) || magbelu_is_null(numbers, count) ||
        magbelu_has_null_key(tags, tag_count)) {
        return magbelu_null_reply();
    }
    return magbelu_bytes_feed_numbers(plant, magbelu_read_at(source), source_len, numbers != NULL ? numbers : &none,
                                      count, tags != NULL ? tags : &no_tag, tag_count);
}

/* Closes a source's tape: nothing more comes. */
static inline struct magbelu_reply magbelu_close(struct magbelu_plant *plant, const void *source, size_t source_len) {
    if (plant == NULL || magbelu_is_null(source, source_len)) {
        return magbelu_null_reply();
    }
    return magbelu_bytes_close(plant, magbelu_read_at(source), source_len);
}

/* Sets a block's number, from this item of its first input on, or MAGBELU_NOW. */
static inline struct magbelu_reply magbelu_set(struct magbelu_plant *plant, const void *block, size_t block_len,
                                               uint64_t at, int64_t number) {
    if (plant == NULL || magbelu_is_null(block, block_len)) {
        return magbelu_null_reply();
    }
    return magbelu_bytes_set(plant, magbelu_read_at(block), block_len, at, number);
}

/* Sets a filter's taps, from this item of its input on, or MAGBELU_NOW. */
static inline struct magbelu_reply magbelu_set_taps(struct magbelu_plant *plant, const void *block, size_t block_len,
                                                    uint64_t at, const int16_t *taps, size_t count) {
    const int16_t none = 0;
    if (plant == NULL || magbelu_is_null(block, block_len) || magbelu_is_null(taps, count)) {
        return magbelu_null_reply();
    }
    return magbelu_bytes_set_taps(plant, magbelu_read_at(block), block_len, at, taps != NULL ? taps : &none, count);
}

/* Does at most `max` firings of a block. */
static inline struct magbelu_reply magbelu_step(struct magbelu_plant *plant, const void *block, size_t block_len,
                                                uint32_t max) {
    if (plant == NULL || magbelu_is_null(block, block_len)) {
        return magbelu_null_reply();
    }
    return magbelu_bytes_step(plant, magbelu_read_at(block), block_len, max);
}

/* Steps all blocks until none can act. The status is 0 if all are done, and else 3: a source is open, or the graph
 * stalled. */
static inline struct magbelu_reply magbelu_settle(struct magbelu_plant *plant) {
    return plant == NULL ? magbelu_null_reply() : magbelu_bytes_settle(plant);
}

/*
 * Shows what a sink holds from item `from` on, at most `max` items: their bytes in `bytes`, and for each of their tags
 * a line `@OFFSET:KEY=VALUE/SOURCE` in `tags`. A sink that holds fewer than `from` items is refused 31.
 */
static inline struct magbelu_piece magbelu_read(struct magbelu_plant *plant, const void *sink, size_t sink_len,
                                                uint64_t from, uint64_t max, uint32_t big_endian, void *bytes,
                                                size_t bytes_room, char *tags, size_t tags_room) {
    uint64_t none = 0, more = 0;
    if (plant == NULL || magbelu_is_null(sink, sink_len) || magbelu_is_null(bytes, bytes_room) ||
        magbelu_is_null(tags, tags_room)) {
        struct magbelu_piece piece = {1, MAGBELU_NULL, 0, 0, 0, 0};
        return piece;
    }
    return magbelu_bytes_read(plant, magbelu_read_at(sink), sink_len, from, max, big_endian,
                              magbelu_write_at(bytes, &none), bytes_room, magbelu_write_at(tags, &more), tags_room);
}

/*
 * Tells what a block waits for: it may act (MAGBELU_READY) or is done, it waits for items at an input or for room at an
 * output, or it is a source that waits to be fed or closed.
 */
static inline struct magbelu_reply magbelu_need(struct magbelu_plant *plant, const void *block, size_t block_len) {
    if (plant == NULL || magbelu_is_null(block, block_len)) {
        return magbelu_null_reply();
    }
    return magbelu_bytes_need(plant, magbelu_read_at(block), block_len);
}

/* Tells how many blocks the graph has. They are numbered from 0, in the order of the file. */
static inline struct magbelu_reply magbelu_block_count(struct magbelu_plant *plant) {
    return plant == NULL ? magbelu_null_reply() : magbelu_bytes_block_count(plant);
}

/*
 * Tells of the block of this number what it is, with its name in `name` and that of its kind in `kind`, each where it
 * fits. Neither has a 0 at its end. A number that no block has is refused 20.
 */
static inline struct magbelu_listed magbelu_block(struct magbelu_plant *plant, uint32_t number, char *name,
                                                  size_t name_room, char *kind, size_t kind_room) {
    uint64_t none = 0, more = 0;
    if (plant == NULL || magbelu_is_null(name, name_room) || magbelu_is_null(kind, kind_room)) {
        struct magbelu_listed listed = {1, MAGBELU_NULL, 0, 0, 0, 0, 0, 0, 0};
        return listed;
    }
    return magbelu_bytes_block(plant, number, magbelu_write_at(name, &none), name_room, magbelu_write_at(kind, &more),
                               kind_room);
}

/* Tells how many connections the graph has. If all of them fit into the table, they are there, in the order of the
 * file. */
static inline struct magbelu_reply magbelu_connections(struct magbelu_plant *plant,
                                                       struct magbelu_connection *connections, size_t room) {
    struct magbelu_connection none;
    if (plant == NULL || magbelu_is_null(connections, room)) {
        return magbelu_null_reply();
    }
    return magbelu_bytes_connections(plant, connections != NULL ? connections : &none, room);
}

/*
 * Draws the graph, as `flow draw --format FORMAT FILE` does. If the text in the format fits, it is in `output`;
 * Graphviz's `dot` or Mermaid makes a picture of it. It has no 0 at its end, and the answer no line.
 */
static inline struct magbelu_answer magbelu_draw(struct magbelu_plant *plant, uint32_t format, char *output,
                                                 size_t output_room) {
    uint64_t none = 0;
    if (plant == NULL || magbelu_is_null(output, output_room)) {
        struct magbelu_answer answer = {1, MAGBELU_NULL, 0, 0};
        return answer;
    }
    return magbelu_bytes_draw(plant, format, magbelu_write_at(output, &none), output_room);
}

/*
 * Tells how many connections there are. If all of them fit into the table, it has for each how many items the buffer
 * behind it has room for, in the order of magbelu_connections.
 */
static inline struct magbelu_reply magbelu_rooms(struct magbelu_plant *plant, uint64_t *rooms, size_t room) {
    uint64_t none = 0;
    if (plant == NULL || magbelu_is_null(rooms, room)) {
        return magbelu_null_reply();
    }
    return magbelu_bytes_rooms(plant, rooms != NULL ? rooms : &none, room);
}

/* Tells what of the block of this number may be set. If its own taps fit, they are in `taps`. A number that no block
 * has is refused 20. */
static inline struct magbelu_block_setting magbelu_setting(struct magbelu_plant *plant, uint32_t number, int16_t *taps,
                                                           size_t room) {
    int16_t none = 0;
    if (plant == NULL || magbelu_is_null(taps, room)) {
        struct magbelu_block_setting setting = {1, MAGBELU_NULL, 0, 0, 0, 0, 0};
        return setting;
    }
    return magbelu_bytes_setting(plant, number, taps != NULL ? taps : &none, room);
}

/*
 * Tells what a firing of the block of this number takes of each connected input, in `takes` where all of them fit, and
 * gives on each output. A number that no block has is refused 20.
 */
static inline struct magbelu_block_rates magbelu_rates(struct magbelu_plant *plant, uint32_t number, uint64_t *takes,
                                                       size_t room) {
    uint64_t none = 0;
    if (plant == NULL || magbelu_is_null(takes, room)) {
        struct magbelu_block_rates rates = {1, MAGBELU_NULL, 0, 0, 0, 0};
        return rates;
    }
    return magbelu_bytes_rates(plant, number, takes != NULL ? takes : &none, room);
}

/*
 * Tells how many blocks there are. If all of them fit into the table, it has for each how often it fires in an
 * iteration. If no numbers of firings leave all buffers as they were (MAGBELU_UNEVEN), or the least are too many
 * (MAGBELU_TOO_OFTEN), nothing is written, and the value is 0.
 */
static inline struct magbelu_reply magbelu_firings(struct magbelu_plant *plant, uint32_t *firings, size_t room) {
    uint32_t none = 0;
    if (plant == NULL || magbelu_is_null(firings, room)) {
        return magbelu_null_reply();
    }
    return magbelu_bytes_firings(plant, firings != NULL ? firings : &none, room);
}

/* (not for callers) */
static inline struct magbelu_slicing magbelu_null_slicing(void) {
    struct magbelu_slicing slicing = {1, MAGBELU_NULL, MAGBELU_NO_BLOCK, 0, 0, 0};
    return slicing;
}

/*
 * Tells how the runs of the graph are cut into slices of time: in `sources` how each source is cut, in `sinks` each
 * sink that keeps its items. A slice gives the items of the whole run, and with `tags` other than 0 its tags too, for
 * which it may have to overlap further.
 */
static inline struct magbelu_slicing magbelu_slices(struct magbelu_plant *plant, uint32_t tags,
                                                    struct magbelu_cut_source *sources, size_t source_room,
                                                    struct magbelu_cut_sink *sinks, size_t sink_room) {
    struct magbelu_cut_source no_source = {0, 0, 0};
    struct magbelu_cut_sink no_sink = {0, 0, 0};
    if (plant == NULL || magbelu_is_null(sources, source_room) || magbelu_is_null(sinks, sink_room)) {
        return magbelu_null_slicing();
    }
    return magbelu_bytes_slices(plant, tags, sources != NULL ? sources : &no_source, source_room,
                                sinks != NULL ? sinks : &no_sink, sink_room);
}

/*
 * Tells of the slice that begins at an iteration what it leaves out: `iterations` of each tape, and in `parts` of each
 * sink that keeps its items how many are dropped. The slice that ends where another begins is a stream that
 * magbelu_stream_open_at opens, whose sources are fed their items from iteration `iterations` up to that one, and
 * closed there; the last is fed to the end. Behind what is dropped, each sink gives what the whole run gives from item
 * `stands` on, up to where the next slice stands. An offset of a tag is less by what was left out of the tape, and one
 * that comes to a sink less by `stands - drop`. An iteration within the first overlap, or behind the 2^46th, is refused
 * with MAGBELU_NO_CUT.
 */
static inline struct magbelu_slicing magbelu_slice(struct magbelu_plant *plant, uint32_t tags, uint64_t begins,
                                                   struct magbelu_cut_part *parts, size_t part_room) {
    struct magbelu_cut_part no_part = {0, 0, 0};
    if (plant == NULL || magbelu_is_null(parts, part_room)) {
        return magbelu_null_slicing();
    }
    return magbelu_bytes_slice(plant, tags, begins, parts != NULL ? parts : &no_part, part_room);
}

/* (not for callers) */
static inline struct magbelu_plant *magbelu_streaming(struct magbelu_stream *stream) {
    return stream != NULL ? &stream->plant : NULL;
}

/*
 * Opens the plant of a graph file so that it streams, as magbelu_open opens one. The calls below are those of a plant,
 * but for magbelu_stream_drain and magbelu_stream_levels; where they speak of a tape, it is all that the source was
 * fed.
 */
static inline struct magbelu_answer magbelu_stream_open(struct magbelu_stream *stream, const void *file,
                                                        size_t file_len, char *error, size_t error_room) {
    uint64_t none = 0;
    if (stream == NULL || magbelu_is_null(file, file_len) || magbelu_is_null(error, error_room)) {
        return magbelu_refused_null(error, error_room);
    }
    return magbelu_bytes_open_stream(&stream->plant, magbelu_read_at(file), file_len, magbelu_write_at(error, &none),
                                     error_room);
}

/*
 * Opens such a plant for a slice, which leaves out so many iterations of each tape, as magbelu_slice tells: each block
 * goes on where it stands after these. Nothing is fed to it, since what the file feeds stands at the front of the
 * tapes: feed each source the rest of its tape. Items, tags and settings are numbered from where the slice begins. A
 * file that magbelu_stream_open refuses is refused alike, one whose graph is not cut with MAGBELU_NO_SLICES, and more
 * than 2^46 iterations with MAGBELU_NO_CUT: these two have no line.
 */
static inline struct magbelu_answer magbelu_stream_open_at(struct magbelu_stream *stream, const void *file,
                                                           size_t file_len, uint64_t iterations, char *error,
                                                           size_t error_room) {
    uint64_t none = 0;
    if (stream == NULL || magbelu_is_null(file, file_len) || magbelu_is_null(error, error_room)) {
        return magbelu_refused_null(error, error_room);
    }
    return magbelu_bytes_open_stream_at(&stream->plant, magbelu_read_at(file), file_len, iterations,
                                        magbelu_write_at(error, &none), error_room);
}

static inline struct magbelu_reply magbelu_stream_free(struct magbelu_stream *stream) {
    return magbelu_free(magbelu_streaming(stream));
}

static inline struct magbelu_reply magbelu_stream_item_size(struct magbelu_stream *stream, const void *source,
                                                            size_t source_len) {
    return magbelu_item_size(magbelu_streaming(stream), source, source_len);
}

static inline struct magbelu_reply magbelu_stream_feed(struct magbelu_stream *stream, const void *source,
                                                       size_t source_len, uint32_t big_endian, const void *bytes,
                                                       size_t len, const struct magbelu_tag *tags, size_t tag_count) {
    return magbelu_feed(magbelu_streaming(stream), source, source_len, big_endian, bytes, len, tags, tag_count);
}

static inline struct magbelu_reply magbelu_stream_feed_numbers(struct magbelu_stream *stream, const void *source,
                                                               size_t source_len, const int64_t *numbers, size_t count,
                                                               const struct magbelu_tag *tags, size_t tag_count) {
    return magbelu_feed_numbers(magbelu_streaming(stream), source, source_len, numbers, count, tags, tag_count);
}

static inline struct magbelu_reply magbelu_stream_close(struct magbelu_stream *stream, const void *source,
                                                        size_t source_len) {
    return magbelu_close(magbelu_streaming(stream), source, source_len);
}

static inline struct magbelu_reply magbelu_stream_set(struct magbelu_stream *stream, const void *block,
                                                      size_t block_len, uint64_t at, int64_t number) {
    return magbelu_set(magbelu_streaming(stream), block, block_len, at, number);
}

static inline struct magbelu_reply magbelu_stream_set_taps(struct magbelu_stream *stream, const void *block,
                                                           size_t block_len, uint64_t at, const int16_t *taps,
                                                           size_t count) {
    return magbelu_set_taps(magbelu_streaming(stream), block, block_len, at, taps, count);
}

static inline struct magbelu_reply magbelu_stream_step(struct magbelu_stream *stream, const void *block,
                                                       size_t block_len, uint32_t max) {
    return magbelu_step(magbelu_streaming(stream), block, block_len, max);
}

static inline struct magbelu_reply magbelu_stream_settle(struct magbelu_stream *stream) {
    return magbelu_settle(magbelu_streaming(stream));
}

static inline struct magbelu_reply magbelu_stream_need(struct magbelu_stream *stream, const void *block,
                                                       size_t block_len) {
    return magbelu_need(magbelu_streaming(stream), block, block_len);
}

/* Tells how far a block is. What is set at items from `taken` on is in force. */
static inline struct magbelu_levels magbelu_stream_levels(struct magbelu_stream *stream, const void *block,
                                                          size_t block_len) {
    if (stream == NULL || magbelu_is_null(block, block_len)) {
        struct magbelu_levels levels = {1, MAGBELU_NULL, 0, 0, 0};
        return levels;
    }
    return magbelu_bytes_levels(&stream->plant, magbelu_read_at(block), block_len);
}

static inline struct magbelu_reply magbelu_stream_block_count(struct magbelu_stream *stream) {
    return magbelu_block_count(magbelu_streaming(stream));
}

static inline struct magbelu_listed magbelu_stream_block(struct magbelu_stream *stream, uint32_t number, char *name,
                                                         size_t name_room, char *kind, size_t kind_room) {
    return magbelu_block(magbelu_streaming(stream), number, name, name_room, kind, kind_room);
}

static inline struct magbelu_reply magbelu_stream_connections(struct magbelu_stream *stream,
                                                              struct magbelu_connection *connections, size_t room) {
    return magbelu_connections(magbelu_streaming(stream), connections, room);
}

static inline struct magbelu_answer magbelu_stream_draw(struct magbelu_stream *stream, uint32_t format, char *output,
                                                        size_t output_room) {
    return magbelu_draw(magbelu_streaming(stream), format, output, output_room);
}

static inline struct magbelu_reply magbelu_stream_rooms(struct magbelu_stream *stream, uint64_t *rooms, size_t room) {
    return magbelu_rooms(magbelu_streaming(stream), rooms, room);
}

static inline struct magbelu_block_setting magbelu_stream_setting(struct magbelu_stream *stream, uint32_t number,
    int16_t *taps, size_t room) {
    return magbelu_setting(magbelu_streaming(stream), number, taps, room);
}

static inline struct magbelu_block_rates magbelu_stream_rates(struct magbelu_stream *stream, uint32_t number,
                                                              uint64_t *takes, size_t room) {
    return magbelu_rates(magbelu_streaming(stream), number, takes, room);
}

static inline struct magbelu_reply magbelu_stream_firings(struct magbelu_stream *stream, uint32_t *firings,
                                                          size_t room) {
    return magbelu_firings(magbelu_streaming(stream), firings, room);
}

static inline struct magbelu_slicing magbelu_stream_slices(struct magbelu_stream *stream, uint32_t tags,
                                                           struct magbelu_cut_source *sources, size_t source_room,
                                                           struct magbelu_cut_sink *sinks, size_t sink_room) {
    return magbelu_slices(magbelu_streaming(stream), tags, sources, source_room, sinks, sink_room);
}

static inline struct magbelu_slicing magbelu_stream_slice(struct magbelu_stream *stream, uint32_t tags, uint64_t begins,
                                                          struct magbelu_cut_part *parts, size_t part_room) {
    return magbelu_slice(magbelu_streaming(stream), tags, begins, parts, part_room);
}

/*
 * Takes at most `max` items away of those that a sink has taken and that were not drained yet: their bytes are in
 * `bytes` then, and in `tags` a line `@OFFSET:KEY=VALUE/SOURCE` for each of their tags, whose offset counts from the
 * first item that the sink ever took. If one of the two does not fit, nothing is taken away, and the lengths tell how
 * much room is needed.
 */
static inline struct magbelu_piece magbelu_stream_drain(struct magbelu_stream *stream, const void *sink,
                                                        size_t sink_len, uint64_t max, uint32_t big_endian, void *bytes,
                                                        size_t bytes_room, char *tags, size_t tags_room) {
    uint64_t none = 0, more = 0;
    if (stream == NULL || magbelu_is_null(sink, sink_len) || magbelu_is_null(bytes, bytes_room) ||
        magbelu_is_null(tags, tags_room)) {
        struct magbelu_piece piece = {1, MAGBELU_NULL, 0, 0, 0, 0};
        return piece;
    }
    return magbelu_bytes_drain(&stream->plant, magbelu_read_at(sink), sink_len, max, big_endian,
                               magbelu_write_at(bytes, &none), bytes_room, magbelu_write_at(tags, &more), tags_room);
}

#ifdef __cplusplus
}
#endif

#endif
