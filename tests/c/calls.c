/*
 * Calls of c/magbelu.h. With `check FILE`, `run FILE`, `script FILE LINES` or `items FILE [-b] [-i NAME=PATH].. [-o
 * NAME=PATH].. [-t NAME=PATH]..` it writes what the call gives, and ends with its status. With `wrong` it makes calls
 * that are wrong, and tests what they answer; with `held` it makes the calls of plants.c, streams.c and kernels.c.
 */
#include <stdio.h>
#include <stdlib.h>
#include <string.h>

#include "calls.h"

enum { MOST = 16 };

struct text {
    char *at;
    size_t len;
};

static void fail(const char *saying) {
    fprintf(stderr, "calls: %s\n", saying);
    exit(99);
}

void must(int holds, const char *saying) {
    if (!holds) {
        fail(saying);
    }
}

/* (malloc(0) may give NULL) */
static char *room_for(size_t len) {
    char *at = malloc(len + 1);
    must(at != NULL, "no memory");
    return at;
}

static struct text read_file(const char *path) {
    struct text text = {NULL, 0};
    size_t room = 4096, got;
    FILE *file = fopen(path, "rb");
    must(file != NULL, path);
    text.at = room_for(room);
    while ((got = fread(text.at + text.len, 1, room - text.len, file)) > 0) {
        text.len += got;
        if (text.len == room) {
            char *more = room_for(2 * room);
            memcpy(more, text.at, text.len);
            free(text.at);
            text.at = more;
            room *= 2;
        }
    }
    fclose(file);
    return text;
}

static int end(struct magbelu_answer answer, const char *output, const char *error) {
    fwrite(output, 1, answer.output_len, stdout);
    fwrite(error, 1, answer.error_len, stderr);
    must((answer.number == 0) == (answer.status == 0 || answer.status == 3),
         "a number without a refusal, or none with one");
    must((answer.number == 0) == (answer.error_len == 0), "a line without a refusal, or none with one");
    return (int)answer.status;
}

static struct magbelu_answer ask(const char *what, struct text file, struct text lines, char *output,
                                 size_t output_room, char *error, size_t error_room) {
    if (strcmp(what, "check") == 0) {
        return magbelu_check(file.at, file.len, output, output_room, error, error_room);
    }
    if (strcmp(what, "run") == 0) {
        return magbelu_run(file.at, file.len, output, output_room, error, error_room);
    }
    return magbelu_script(file.at, file.len, lines.at, lines.len, output, output_room, error, error_room);
}

/* First with no room, then with just enough. */
static int texts(const char *what, const char *path, const char *script) {
    struct text file = read_file(path), lines = {NULL, 0};
    struct magbelu_answer lengths, answer;
    char *output, *error;
    int status;
    if (script != NULL) {
        lines = read_file(script);
    }
    lengths = ask(what, file, lines, NULL, 0, NULL, 0);
    output = room_for(lengths.output_len);
    error = room_for(lengths.error_len);
    output[lengths.output_len] = 'X';
    error[lengths.error_len] = 'Y';
    if (lengths.output_len > 0 && lengths.error_len > 0) {
        answer = ask(what, file, lines, output, lengths.output_len - 1, error, lengths.error_len - 1);
        must(memcmp(&answer, &lengths, sizeof answer) == 0, "less room gives another answer");
    }
    answer = ask(what, file, lines, output, lengths.output_len, error, lengths.error_len);
    must(memcmp(&answer, &lengths, sizeof answer) == 0, "more room gives another answer");
    must(output[lengths.output_len] == 'X' && error[lengths.error_len] == 'Y', "a call writes behind its buffer");
    status = end(answer, output, error);
    free(output);
    free(error);
    free(file.at);
    free(lines.at);
    return status;
}

static int items(int count, char **words) {
    struct text file = read_file(words[0]), fed[MOST];
    struct magbelu_input inputs[MOST];
    struct magbelu_output outputs[MOST];
    const char *paths[MOST];
    uint64_t lens[MOST], place = 0;
    size_t input_count = 0, output_count = 0, i;
    uint32_t big_endian = 0;
    struct magbelu_answer answer;
    char *bytes, error[4096];
    int status, at;
    for (at = 1; at < count; at++) {
        char *path = strchr(words[at], '=');
        if (strcmp(words[at], "-b") == 0) {
            big_endian = 1;
        } else if (strcmp(words[at], "-i") == 0) {
            must(++at < count && (path = strchr(words[at], '=')) != NULL && input_count < MOST, "a word of an input");
            fed[input_count] = read_file(path + 1);
            inputs[input_count].name = (const uint8_t *)words[at];
            inputs[input_count].name_len = (size_t)(path - words[at]);
            inputs[input_count].bytes = (const uint8_t *)fed[input_count].at;
            inputs[input_count].len = fed[input_count].len;
            input_count++;
        } else {
            outputs[output_count].tags = strcmp(words[at], "-t") == 0;
            must(++at < count && (path = strchr(words[at], '=')) != NULL && output_count < MOST, "a word of an output");
            outputs[output_count].name = (const uint8_t *)words[at];
            outputs[output_count].name_len = (size_t)(path - words[at]);
            paths[output_count++] = path + 1;
        }
    }
    answer = magbelu_run_items(file.at, file.len, big_endian, inputs, input_count, outputs, output_count, NULL, 0, NULL,
                               0, error, sizeof error);
    bytes = room_for(answer.output_len);
    answer = magbelu_run_items(file.at, file.len, big_endian, inputs, input_count, outputs, output_count, lens, MOST,
                               bytes, answer.output_len, error, sizeof error);
    for (i = 0; i < output_count && answer.number == 0; i++) {
        FILE *output = fopen(paths[i], "wb");
        must(output != NULL && place + lens[i] <= answer.output_len, "the lengths of the outputs");
        fwrite(bytes + place, 1, (size_t)lens[i], output);
        fclose(output);
        place += lens[i];
    }
    must(answer.number != 0 || place == answer.output_len, "the sum of the lengths of the outputs");
    answer.output_len = 0;
    status = end(answer, bytes, error);
    for (i = 0; i < input_count; i++) {
        free(fed[i].at);
    }
    free(bytes);
    free(file.at);
    return status;
}

const char chain[] = "block = [{ name = \"src\", kind = \"vector_source\", type = \"short\" }, { name = \"add\", kind = \"add_const\", type = \"short\", value = 1 },\n"
                     "{ name = \"out\", kind = \"vector_sink\", type = \"short\" }]\n"
                     "connect = [{ from = \"src\", to = \"add\" }, { from = \"add\", to = \"out\" }]\n";

void is(struct magbelu_answer answer, uint32_t status, uint32_t number, size_t output_len, const char *error,
        const char *line) {
    must(answer.status == status && answer.number == number && answer.output_len == output_len, line);
    must(answer.error_len == strlen(line), line);
    must(error == NULL || memcmp(error, line, strlen(line)) == 0, line);
}

void replied(struct magbelu_reply reply, uint32_t status, uint32_t number, uint32_t what, uint64_t value,
             const char *saying) {
    must(reply.status == status && reply.number == number && reply.what == what && reply.value == value, saying);
}

/* The places of faults in files, as `flow --explain` shows them. */
static void explained(char *text, size_t text_room, char *error, size_t error_room) {
    static const char file[] = "[[block]]", line[] = "flow: refused 42 MissingKey block 0 name\n";
    static const char place[] = " --> a:1:1\n  |\n1 | [[block]]\n  | ^ a block needs the key `name`: a text\n";
    static const char feed[] = "feed = [{ source = \"src\", items = [40000] }]";
    char fed[sizeof chain + sizeof feed - 2];
    const size_t len = sizeof file - 1, place_len = sizeof place - 1;
    is(magbelu_explain("a", 1, file, len, text, text_room, error, error_room), 1, 42, place_len, error, line);
    must(memcmp(text, place, place_len) == 0, "the place of a fault");
    /* A name that is no text. */
    is(magbelu_explain("\377", 1, file, len, text, text_room, error, error_room), 1, 42, place_len, error, line);
    must(memcmp(text, " --> ?:1:1\n", 11) == 0, "the name of a file");
    /* Without room, and with less than is needed. */
    is(magbelu_explain("a", 1, file, len, NULL, 0, NULL, 0), 1, 42, place_len, NULL, line);
    memset(text, '-', text_room);
    is(magbelu_explain("a", 1, file, len, text, place_len - 1, error, error_room), 1, 42, place_len, error, line);
    must(text[0] == '-' && text[place_len - 1] == '-', "a place that does not fit was written");
    /* A feed that is refused. */
    memcpy(fed, chain, sizeof chain - 1);
    memcpy(fed + sizeof chain - 1, feed, sizeof feed - 1);
    is(magbelu_explain("a", 1, fed, sizeof fed, text, text_room, error, error_room), 1, 24, 155, error,
       "flow: refused 24 ItemRange feed 0\n");
    must(memcmp(text, " --> a:4:36\n", 12) == 0, "the place of an item");
    /* Files that are not refused. */
    is(magbelu_explain("a", 1, chain, sizeof chain - 1, text, text_room, error, error_room), 0, 0, 0, NULL, "");
    is(magbelu_explain(NULL, 0, NULL, 0, NULL, 0, NULL, 0), 0, 0, 0, NULL, "");
    is(magbelu_explain(NULL, 1, file, len, text, text_room, error, error_room), 1, 54, 0, error,
       "magbelu: refused 54 Null\n");
    is(magbelu_explain("a", 1, NULL, 1, text, text_room, error, error_room), 1, 54, 0, error,
       "magbelu: refused 54 Null\n");
}

/* A file is refused at a word, as places count: lines and columns from 1, in characters. */
static void placed_at(const void *file, size_t len, uint32_t number, size_t line, size_t column, size_t length) {
    char why[1024];
    const struct magbelu_fault_place got = magbelu_place(file, len, why, sizeof why);
    must(got.status == 1 && got.number == number, "the refusal of a place");
    must(got.line == line && got.column == column && got.length == length, "the place of a word");
    must(got.why_len > 0 && got.why_len < sizeof why, "the length of a reason");
}

static void nowhere(struct magbelu_fault_place got, uint32_t status, uint32_t number, const char *saying) {
    must(got.status == status && got.number == number, saying);
    must(got.line == 0 && got.column == 0 && got.length == 0 && got.why_len == 0, saying);
}

/* The places of faults in files, in numbers. */
static void placed(void) {
    static const char file[] = "[[block]]", reason[] = "a block needs the key `name`: a text";
    static const char kind[] = "[[block]]\nname = \"a\"\nkind = \"n\303\274ll\"\n";
    static const char point[] = "block = [{ name = \"a\", kind = \"add_const\", type = \"byte\", value = 1.5 }]";
    static const char long_text[] = "[[block]]\nname = \"\"\"a\nb\"\"\"\nkind = \"abs\"\ntype = \"byte\"\n";
    const size_t len = sizeof file - 1, reason_len = sizeof reason - 1;
    char why[64] = {0};
    struct magbelu_fault_place got = magbelu_place(file, len, why, sizeof why);
    must(got.why_len == reason_len && memcmp(why, reason, reason_len) == 0, "the reason of a fault");
    placed_at(file, len, 42, 1, 1, 1);
    /* A character of two bytes, a number with a point, and what goes on behind its line. */
    placed_at(kind, sizeof kind - 1, 44, 3, 8, 6);
    placed_at(point, sizeof point - 1, 43, 1, 67, 3);
    placed_at(long_text, sizeof long_text - 1, 10, 2, 8, 4);
    placed_at("a b", 3, 40, 1, 3, 1);
    /* Without room, and with less than is needed. */
    must(magbelu_place(file, len, NULL, 0).why_len == reason_len, "a reason without room");
    why[0] = '-';
    must(magbelu_place(file, len, why, reason_len - 1).why_len == reason_len && why[0] == '-',
         "a reason that does not fit was written");
    /* Files that are not refused, and NULL. */
    nowhere(magbelu_place(chain, sizeof chain - 1, why, sizeof why), 0, 0, "no place");
    nowhere(magbelu_place(NULL, 0, NULL, 0), 0, 0, "no place in no file");
    nowhere(magbelu_place(NULL, 1, why, sizeof why), 1, 54, "no file");
    nowhere(magbelu_place(file, len, NULL, 1), 1, 54, "no room");
}

static void wrong(void) {
    static const char null_line[] = "magbelu: refused 54 Null\n";
    static const char bad_line[] = "close src\nfeed src 1\nnonsense\nclose src\n";
    static const char refused[] = "feed none 1\nfeed out 1\nfeed src 99999\nread src 0 1\nset src now 1\n";
    const size_t len = sizeof chain - 1;
    struct magbelu_input input = {(const uint8_t *)"src", 3, (const uint8_t *)"\1\0\2", 3};
    struct magbelu_output output = {(const uint8_t *)"out", 3, 0};
    uint64_t lens[2] = {7, 7};
    char text[256], error[256];
    must(magbelu_version() == MAGBELU_VERSION, "the version");

    /* NULL with a length, and without one. */
    is(magbelu_check(NULL, 1, text, sizeof text, error, sizeof error), 1, 54, 0, error, null_line);
    is(magbelu_check(chain, len, NULL, 1, error, sizeof error), 1, 54, 0, error, null_line);
    is(magbelu_run(chain, len, text, sizeof text, NULL, 1), 1, 54, 0, NULL, null_line);
    is(magbelu_script(chain, len, NULL, 1, text, sizeof text, error, sizeof error), 1, 54, 0, error, null_line);
    is(magbelu_check(NULL, 0, text, sizeof text, error, sizeof error), 0, 0,
       strlen("blocks 0\nconnections 0\nrates balanced\n"), NULL, "");
    is(magbelu_script(chain, len, NULL, 0, NULL, 0, NULL, 0), 0, 0, 0, NULL, "");

    /* Text that is no graph file, and lines that are no script; what does not fit is not written. */
    is(magbelu_run("\377\0", 2, text, sizeof text, error, sizeof error), 1, 40, 0, error, "flow: refused 40 Syntax\n");
    memset(error, '-', sizeof error);
    is(magbelu_run("x", 1, text, sizeof text, error, 23), 1, 40, 0, NULL, "flow: refused 40 Syntax\n");
    must(error[0] == '-' && error[23] == '-', "a line that does not fit was written");
    is(magbelu_script(chain, len, bad_line, strlen(bad_line), text, sizeof text, error, sizeof error), 1, 50,
       strlen("closed 0\nrefused 23\n"), error, "flow: refused 50 BadLine 3\n");
    must(memcmp(text, "closed 0\nrefused 23\n", 20) == 0, "the replies before a bad line");
    is(magbelu_script(chain, len, refused, strlen(refused), text, sizeof text, error, sizeof error), 0, 0,
       5 * strlen("refused 20\n"), NULL, "");
    must(memcmp(text, "refused 20\nrefused 21\nrefused 24\nrefused 22\nrefused 28\n", 55) == 0, "refusals as replies");

    explained(text, sizeof text, error, sizeof error);
    placed();

    /* Tables. */
    is(magbelu_run_items(chain, len, 0, &input, 1, &output, 1, lens, 1, text, sizeof text, error, sizeof error), 1, 53,
       0, error, "flow: refused 53 CutItem input 0\n");
    must(lens[0] == 7, "lengths of a run that was refused");
    input.len = 2;
    is(magbelu_run_items(chain, len, 0, &input, 1, &output, 1, lens, 2, text, sizeof text, error, sizeof error), 0, 0,
       2, NULL, "");
    must(text[0] == 2 && text[1] == 0 && lens[0] == 2 && lens[1] == 7, "1 + 1");
    is(magbelu_run_items(chain, len, 1, &input, 1, &output, 1, lens, 2, text, sizeof text, error, sizeof error), 0, 0,
       2, NULL, "");
    must(text[0] == 1 && text[1] == 1, "256 + 1");
    text[0] = 'Z';
    is(magbelu_run_items(chain, len, 0, &input, 1, &output, 1, lens, 2, text, 1, error, sizeof error), 0, 0, 2, NULL,
       "");
    must(text[0] == 'Z', "bytes that do not fit were written");
    is(magbelu_run_items(chain, len, 0, NULL, 0, NULL, 0, NULL, 0, NULL, 0, NULL, 0), 0, 0, 0, NULL, "");
    is(magbelu_run_items(chain, len, 0, NULL, 1, NULL, 0, NULL, 0, NULL, 0, error, sizeof error), 1, 54, 0, error,
       null_line);
    input.name = (const uint8_t *)"none";
    input.name_len = 4;
    is(magbelu_run_items(chain, len, 0, &input, 1, &output, 1, lens, 1, text, sizeof text, error, sizeof error), 1, 20,
       0, error, "flow: refused 20 NoSuchBlock input 0\n");
    input.name = (const uint8_t *)"out";
    input.name_len = 3;
    is(magbelu_run_items(chain, len, 0, &input, 1, &output, 1, lens, 1, text, sizeof text, error, sizeof error), 1, 21,
       0, error, "flow: refused 21 NotSource input 0\n");
    output.name = (const uint8_t *)"add";
    is(magbelu_run_items(chain, len, 0, NULL, 0, &output, 1, lens, 1, text, sizeof text, error, sizeof error), 1, 22, 0,
       error, "flow: refused 22 NotSink output 0\n");
    output.name = NULL;
    is(magbelu_run_items(chain, len, 0, NULL, 0, &output, 1, lens, 1, text, sizeof text, error, sizeof error), 1, 54, 0,
       error, null_line);
}

int main(int count, char **words) {
    if (count == 2 && strcmp(words[1], "wrong") == 0) {
        wrong();
        return 0;
    }
    if (count == 2 && strcmp(words[1], "held") == 0) {
        held();
        streams();
        slices();
        threads();
        kernels();
        return 0;
    }
    if (count >= 3 && strcmp(words[1], "items") == 0) {
        return items(count - 2, words + 2);
    }
    must(count == 3 || count == 4, "which call?");
    return texts(words[1], words[2], count == 4 ? words[3] : NULL);
}
