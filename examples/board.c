#define _POSIX_C_SOURCE 200809L /* access, fileno, fsync */

/*
 * board: keeps an update store in a file, as a board keeps its own in flash, and makes the update
 * calls on it. `board -h` shows the usage.
 *
 * Every file is written under a name that didn't exist. An accepted write then takes the store's
 * place by a rename: the file holds the old store or the new one, whole.
 */
#include <errno.h>
#include <inttypes.h>
#include <stdarg.h>
#include <stdio.h>
#include <stdlib.h>
#include <string.h>
#include <unistd.h>

#include "update_store.h"

/* Exit status, and what the functions here give back: TROUBLE is told where it is found. */
enum { DONE = 0, REFUSED = 1, TROUBLE = 2 };

enum { LARGEST_STORE = UPDATE_STORE_BLOCKS_MAX * UPDATE_STORE_BLOCK_SIZE };

/* One byte more than the largest store, so that a longer file shows. */
struct bytes {
    size_t length;
    uint8_t at[LARGEST_STORE + 1];
};

/* What the command line asks for, the buffers that are lent to the library, and its answer. */
struct request {
    const char *path;           /* the file of the store */
    const char *output;         /* -o, or null */
    char **operands;            /* behind the command's name */
    bool loading;               /* -l */
    bool has_read_back;         /* -r */
    uint32_t read_back;
    size_t processors;          /* -p */
    uint32_t signatures[UPDATE_STORE_PROCESSORS_MAX];
    uint8_t platforms[UPDATE_STORE_PROCESSORS_MAX];
    struct bytes store;
    struct bytes candidate;
    struct bytes destination;
    uint32_t answer[UPDATE_STORE_ANSWER_WORDS];
};

static const char usage[] =
    "usage: board [options] STORE COMMAND ..\n"
    "\n"
    "  create N                 make the file STORE with N unused blocks, 1 to 32\n"
    "  presence                 the presence call\n"
    "  enable                   turn loading on (for this run only, see -l)\n"
    "  query                    give the loading state\n"
    "  write FILE               put the update in FILE into the store\n"
    "  read BLOCK               read an unused block, or the update that begins at BLOCK\n"
    "  load SIGNATURE PLATFORM  choose the update of a processor at start-up\n"
    "  map                      what the store holds, a line for each block\n"
    "\n"
    "  -l                       loading is on at the start, else off. A board keeps this state\n"
    "                           in memory, this program keeps it nowhere: give -l with load\n"
    "  -o FILE                  read: save the blocks; load: save the data bytes, if an update\n"
    "                           is chosen. FILE must not exist\n"
    "  -p SIGNATURE:PLATFORM    write: a processor of the board, 1 to 8 times\n"
    "  -r REVISION              write: the revision that the processor read back. Without -r it\n"
    "                           is the one in FILE, as if the processor had taken the update\n"
    "  -h                       this text\n"
    "\n"
    "SIGNATURE and REVISION are hex (650 or 0x650), N, BLOCK and PLATFORM decimal. An accepted\n"
    "write goes to STORE.new, which then takes the place of STORE. Exit status: 0 success,\n"
    "1 refused call, 2 bad arguments or a file that can't be read or written.\n";

static int complain(const char *format, ...)
{
    va_list values;
    va_start(values, format);
    fputs("board: ", stderr);
    vfprintf(stderr, format, values);
    fputc('\n', stderr);
    va_end(values);
    return TROUBLE;
}

/* ---- Numbers ---- */

/* Reads a number of base 10 or 16, 0 to `greatest`: digits only, no sign, no space. */
static int number(const char *name, const char *text, int base, uint32_t greatest, uint32_t *value)
{
    bool prefixed = base == 16 && text[0] == '0' && (text[1] == 'x' || text[1] == 'X');
    const char *digits = prefixed ? text + 2 : text;
    const char *known = base == 16 ? "0123456789abcdefABCDEF" : "0123456789";
    if (*digits == '\0' || digits[strspn(digits, known)] != '\0')
        return complain("%s: \"%s\" is not a %s number", name, text,
                        base == 16 ? "hex" : "decimal");
    errno = 0;
    unsigned long long sum = strtoull(digits, NULL, base);
    if (errno != 0 || sum > greatest)
        return complain(base == 16 ? "%s: \"%s\" is too large, at most %" PRIX32
                                   : "%s: \"%s\" is too large, at most %" PRIu32,
                        name, text, greatest);
    *value = (uint32_t)sum;
    return DONE;
}

/* ---- Files ---- */

/* Reads a file, at most one byte more than the largest store. */
static int read_file(const char *path, struct bytes *bytes)
{
    FILE *file = fopen(path, "rb");
    if (file == NULL)
        return complain("%s: cannot open: %s", path, strerror(errno));
    bytes->length = fread(bytes->at, 1, sizeof bytes->at, file);
    int status = ferror(file) ? complain("%s: cannot read: %s", path, strerror(errno)) : DONE;
    fclose(file);
    return status;
}

/* Writes a file that must not exist yet; after an error it doesn't exist either. */
static int write_new(const char *path, const uint8_t *bytes, size_t length)
{
    FILE *file = fopen(path, "wbx");
    if (file == NULL)
        return complain("%s: cannot create: %s", path, strerror(errno));
    int status = DONE;
    if (fwrite(bytes, 1, length, file) != length || fflush(file) != 0 || fsync(fileno(file)) != 0)
        status = complain("%s: cannot write: %s", path, strerror(errno));
    if (fclose(file) != 0 && status == DONE)
        status = complain("%s: cannot write: %s", path, strerror(errno));
    if (status != DONE)
        remove(path);
    return status;
}

/* Puts the new store in the place of the old one, which stands until the new one is whole. */
static int replace_store(const char *path, const struct bytes *store)
{
    char fresh[FILENAME_MAX];
    int length = snprintf(fresh, sizeof fresh, "%s.new", path);
    if (length < 0 || (size_t)length >= sizeof fresh)
        return complain("%s: name too long", path);
    if (access(path, W_OK) != 0) /* a rename doesn't ask */
        return complain("%s: cannot write: %s", path, strerror(errno));
    if (write_new(fresh, store->at, store->length) != DONE)
        return TROUBLE;
    if (rename(fresh, path) != 0) {
        complain("%s: cannot replace: %s", path, strerror(errno));
        remove(fresh);
        return TROUBLE;
    }
    return DONE;
}

/* Saves what was read, if -o names a file. */
static int save_output(const struct request *q, const uint8_t *bytes, size_t length)
{
    return q->output == NULL ? DONE : write_new(q->output, bytes, length);
}

/* ---- Answers ---- */

static const char *code_name(uint32_t ah)
{
    switch (ah) {
    case UPDATE_STORE_NOT_IMPLEMENTED: return "NOT_IMPLEMENTED";
    case UPDATE_STORE_READ_FAILURE: return "READ_FAILURE";
    case UPDATE_STORE_STORAGE_FULL: return "STORAGE_FULL";
    case UPDATE_STORE_CPU_NOT_PRESENT: return "CPU_NOT_PRESENT";
    case UPDATE_STORE_INVALID_HEADER: return "INVALID_HEADER";
    case UPDATE_STORE_INVALID_HEADER_CS: return "INVALID_HEADER_CS";
    case UPDATE_STORE_SECURITY_FAILURE: return "SECURITY_FAILURE";
    case UPDATE_STORE_INVALID_REVISION: return "INVALID_REVISION";
    case UPDATE_STORE_UPDATE_NUM_INVALID: return "UPDATE_NUM_INVALID";
    case UPDATE_STORE_NOT_EMPTY: return "NOT_EMPTY";
    default: return "unknown code";
    }
}

static const char *reason(uint32_t al)
{
    switch (al) {
    case UPDATE_STORE_AL_NONE: return "";
    case UPDATE_STORE_AL_BAD_STORE: return ", bad store";
    case UPDATE_STORE_AL_BAD_PROCESSORS: return ", bad processor list or platform";
    case UPDATE_STORE_AL_SHORT_DESTINATION: return ", destination too short";
    case UPDATE_STORE_AL_STILL_NEEDED: return ", a listed processor would lose its update";
    case UPDATE_STORE_AL_NO_RUN: return ", no run of enough blocks";
    default: return ", unknown reason";
    }
}

static const char *kind_name(uint32_t kind)
{
    switch (kind) {
    case UPDATE_STORE_KIND_UNUSED: return "unused";
    case UPDATE_STORE_KIND_FIRST: return "first block";
    case UPDATE_STORE_KIND_LATER: return "later block";
    default: return "unknown kind";
    }
}

/* Prints what the index says of a block. */
static void print_block(const uint32_t *index, uint32_t block)
{
    uint32_t kind = index[UPDATE_STORE_INDEX_KINDS + block];
    printf("block %" PRIu32 ": %s", block, kind_name(kind));
    if (kind != UPDATE_STORE_KIND_UNUSED)
        printf(", start block %" PRIu32 ", revision %08" PRIX32 "h, size %" PRIu32,
               index[UPDATE_STORE_INDEX_STARTS + block],
               index[UPDATE_STORE_INDEX_REVISIONS + block],
               index[UPDATE_STORE_INDEX_SIZES + block]);
    putchar('\n');
}

/* Prints the number of each block whose bit is set. */
static void print_blocks(uint32_t bits)
{
    if (bits == 0)
        printf(" none");
    for (int block = 0; block < UPDATE_STORE_BLOCKS_MAX; block++)
        if ((bits >> block & 1) != 0)
            printf(" %d", block);
}

/* Ends the line of an answer, or tells a refusal, with the codes; gives the exit status. */
static int finish(const uint32_t *answer)
{
    uint32_t ah = answer[UPDATE_STORE_WORD_AH];
    uint32_t al = answer[UPDATE_STORE_WORD_AL];
    if (ah != UPDATE_STORE_SUCCESS)
        printf("refused: %s%s", code_name(ah), reason(al));
    printf(" (AH %02" PRIX32 "h, AL %" PRIX32 ")\n", ah, al);
    return ah == UPDATE_STORE_SUCCESS ? DONE : REFUSED;
}

/* ---- Commands ---- */

/* Makes one D042h call with what the request holds; true if it was accepted. */
static bool call(struct request *q, uint32_t sub_function, uint32_t task, uint32_t block)
{
    uint32_t ax = update_store_call(
        UPDATE_STORE_FUNCTION, sub_function, task, block, q->loading,
        q->store.at, q->store.length, q->signatures, q->processors, q->platforms, q->processors,
        q->candidate.at, q->candidate.length, q->read_back,
        q->destination.at, q->destination.length, q->answer);
    return ax / 256 == UPDATE_STORE_SUCCESS;
}

static int run_create(struct request *q)
{
    uint32_t blocks;
    if (number("N", q->operands[0], 10, UPDATE_STORE_BLOCKS_MAX, &blocks) != DONE)
        return TROUBLE;
    if (blocks == 0)
        return complain("N: a store has at least 1 block");
    q->store.length = (size_t)blocks * UPDATE_STORE_BLOCK_SIZE;
    memset(q->store.at, 0xFF, q->store.length);
    if (write_new(q->path, q->store.at, q->store.length) != DONE)
        return TROUBLE;
    printf("created: blocks %" PRIu32 "\n", blocks);
    return DONE;
}

static int run_presence(struct request *q)
{
    if (call(q, UPDATE_STORE_SUB_PRESENCE, 0, 0)) {
        printf("present: ");
        for (int i = 0; i < 8; i++)
            putchar((int)q->answer[UPDATE_STORE_WORD_ASCII + i]);
        printf(", loader version %" PRIu32 ", blocks %" PRIu32,
               q->answer[UPDATE_STORE_WORD_LOADER], q->answer[UPDATE_STORE_WORD_BLOCKS]);
    }
    return finish(q->answer);
}

static int control(struct request *q, uint32_t task)
{
    if (call(q, UPDATE_STORE_SUB_CONTROL, task, 0))
        printf("control: loading %s, status %" PRIu32,
               q->answer[UPDATE_STORE_WORD_LOADING] != 0 ? "on" : "off",
               q->answer[UPDATE_STORE_WORD_STATUS]);
    return finish(q->answer);
}

static int run_enable(struct request *q)
{
    if (!q->loading)
        fputs("board: enable holds for this run only; -l starts with loading on\n", stderr);
    return control(q, UPDATE_STORE_TASK_ENABLE);
}

static int run_query(struct request *q)
{
    return control(q, UPDATE_STORE_TASK_QUERY);
}

/* The revision field of an update, 0 if it is too short to have one. */
static uint32_t revision_of(const struct bytes *update)
{
    uint32_t revision = 0;
    for (int i = 0; i < 4 && update->length >= 8; i++)
        revision |= (uint32_t)update->at[4 + i] << (8 * i);
    return revision;
}

static int run_write(struct request *q)
{
    if (read_file(q->operands[0], &q->candidate) != DONE)
        return TROUBLE;
    if (q->candidate.length > LARGEST_STORE)
        return complain("%s: longer than %d bytes", q->operands[0], LARGEST_STORE);
    if (!q->has_read_back)
        q->read_back = revision_of(&q->candidate);
    if (call(q, UPDATE_STORE_SUB_WRITE, 0, 0)) {
        if (replace_store(q->path, &q->store) != DONE)
            return complain("%s: not saved, the old store stands", q->path);
        printf("written: start block %" PRIu32 ", updates emptied %" PRIu32 ", blocks emptied",
               q->answer[UPDATE_STORE_WORD_START], q->answer[UPDATE_STORE_WORD_EMPTIED]);
        print_blocks(q->answer[UPDATE_STORE_WORD_EMPTIED_BLOCKS]);
    }
    return finish(q->answer);
}

static int run_read(struct request *q)
{
    uint32_t block;
    if (number("BLOCK", q->operands[0], 10, UINT32_MAX, &block) != DONE)
        return TROUBLE;
    q->destination.length = UPDATE_STORE_UPDATE_BLOCKS_MAX * UPDATE_STORE_BLOCK_SIZE;
    if (call(q, UPDATE_STORE_SUB_READ, 0, block)) {
        uint32_t copied = q->answer[UPDATE_STORE_WORD_COPIED];
        if (save_output(q, q->destination.at, (size_t)copied * UPDATE_STORE_BLOCK_SIZE) != DONE)
            return TROUBLE;
        printf("read: blocks copied %" PRIu32, copied);
    }
    return finish(q->answer);
}

static int run_load(struct request *q)
{
    uint32_t signature, platform;
    if (number("SIGNATURE", q->operands[0], 16, UINT32_MAX, &signature) != DONE
        || number("PLATFORM", q->operands[1], 10, UINT32_MAX, &platform) != DONE)
        return TROUBLE;
    update_store_load(q->loading, q->store.at, q->store.length, signature, platform, q->answer);
    if (q->answer[UPDATE_STORE_WORD_CASE] == UPDATE_STORE_LOAD_CHOSEN) {
        uint32_t offset = q->answer[UPDATE_STORE_WORD_LOAD_DATA_OFFSET];
        uint32_t length = q->answer[UPDATE_STORE_WORD_LOAD_DATA_LENGTH];
        if (save_output(q, q->store.at + offset, length) != DONE)
            return TROUBLE;
        printf("chosen: start block %" PRIu32 ", revision %08" PRIX32 "h, data offset %" PRIu32
               ", data length %" PRIu32, q->answer[UPDATE_STORE_WORD_LOAD_START],
               q->answer[UPDATE_STORE_WORD_LOAD_REVISION], offset, length);
    } else if (q->answer[UPDATE_STORE_WORD_CASE] == UPDATE_STORE_LOAD_NOTHING) {
        printf("nothing: %s", q->loading ? "no update covers the processor" : "loading is off");
    }
    return finish(q->answer);
}

/* All of the map is from the index but the number of blocks, which an index doesn't have. */
static int run_map(struct request *q)
{
    uint32_t index[UPDATE_STORE_INDEX_WORDS];
    uint32_t blocks = (uint32_t)(q->store.length / UPDATE_STORE_BLOCK_SIZE);
    update_store_index(q->store.at, q->store.length, index, q->answer);
    if (q->answer[UPDATE_STORE_WORD_CASE] == UPDATE_STORE_INDEX_DONE)
        printf("map: blocks %" PRIu32, blocks);
    int status = finish(q->answer);
    for (uint32_t block = 0; status == DONE && block < blocks; block++)
        print_block(index, block);
    return status;
}

static const struct command {
    const char *name;
    const char *operands;       /* as the messages name them */
    int operand_count;
    const char *options;        /* the letters it takes */
    int (*run)(struct request *q);
} commands[] = {
    { "create", "N", 1, "", run_create },
    { "presence", "", 0, "l", run_presence },
    { "enable", "", 0, "l", run_enable },
    { "query", "", 0, "l", run_query },
    { "write", "FILE", 1, "lpr", run_write },
    { "read", "BLOCK", 1, "lo", run_read },
    { "load", "SIGNATURE PLATFORM", 2, "lo", run_load },
    { "map", "", 0, "", run_map },
};

/* ---- The command line ---- */

static int take_processor(struct request *q, char *text)
{
    char *colon = strchr(text, ':');
    uint32_t platform;
    if (q->processors == UPDATE_STORE_PROCESSORS_MAX)
        return complain("-p: more than %d processors", UPDATE_STORE_PROCESSORS_MAX);
    if (colon == NULL)
        return complain("-p: \"%s\" is not SIGNATURE:PLATFORM", text);
    *colon = '\0';
    if (number("-p signature", text, 16, UINT32_MAX, &q->signatures[q->processors]) != DONE
        || number("-p platform", colon + 1, 10, UINT8_MAX, &platform) != DONE)
        return TROUBLE;
    q->platforms[q->processors++] = (uint8_t)platform;
    return DONE;
}

/* Takes an option that has a value. */
static int take_value(struct request *q, char letter, char *value)
{
    if (letter == 'p')
        return take_processor(q, value);
    if (letter == 'r' ? q->has_read_back : q->output != NULL)
        return complain("-%c: given twice", letter);
    if (letter == 'r') {
        q->has_read_back = true;
        return number("-r", value, 16, UINT32_MAX, &q->read_back);
    }
    q->output = value;
    return DONE;
}

/* Takes the options at the front; gives how many words they are, or -1 for a bad one. */
static int take_options(struct request *q, int count, char **words)
{
    int at = 0;
    while (at < count && words[at][0] == '-') {
        const char *option = words[at++];
        if (strlen(option) != 2 || strchr("lopr", option[1]) == NULL) {
            complain("unknown option %s (board -h shows the usage)", option);
            return -1;
        }
        if (option[1] == 'l') {
            q->loading = true;
        } else if (at == count) {
            complain("%s: its value is missing", option);
            return -1;
        } else if (take_value(q, option[1], words[at++]) != DONE) {
            return -1;
        }
    }
    return at;
}

/* An option that the command would ignore is an error. */
static int check_options(const struct request *q, const struct command *command)
{
    const struct { char letter; bool given; } options[] = {
        { 'l', q->loading },
        { 'o', q->output != NULL },
        { 'p', q->processors > 0 },
        { 'r', q->has_read_back },
    };
    for (size_t i = 0; i < sizeof options / sizeof options[0]; i++)
        if (options[i].given && strchr(command->options, options[i].letter) == NULL)
            return complain("%s takes no -%c", command->name, options[i].letter);
    return DONE;
}

static const struct command *find_command(const char *name)
{
    for (size_t i = 0; i < sizeof commands / sizeof commands[0]; i++)
        if (strcmp(commands[i].name, name) == 0)
            return &commands[i];
    return NULL;
}

static int run(struct request *q, int count, char **words)
{
    int taken = take_options(q, count, words);
    if (taken < 0)
        return TROUBLE;
    count -= taken;
    words += taken;
    if (count < 2)
        return complain("%s missing (board -h shows the usage)",
                        count == 0 ? "STORE and COMMAND" : "COMMAND");
    const struct command *command = find_command(words[1]);
    if (command == NULL)
        return complain("unknown command \"%s\" (board -h shows the usage)", words[1]);
    if (count - 2 < command->operand_count)
        return complain("operand missing: %s %s", command->name, command->operands);
    if (count - 2 > command->operand_count)
        return complain("one operand too many: \"%s\" (options stand before STORE)",
                        words[2 + command->operand_count]);
    if (check_options(q, command) != DONE)
        return TROUBLE;
    q->path = words[0];
    q->operands = words + 2;
    if (command->run != run_create && read_file(q->path, &q->store) != DONE)
        return TROUBLE;
    return command->run(q);
}

int main(int argc, char **argv)
{
    struct request request = { 0 };
    int status = DONE;
    if (argc > 1 && strcmp(argv[1], "-h") == 0)
        fputs(usage, stdout);
    else
        status = run(&request, argc - 1, argv + 1);
    if (fflush(stdout) != 0)
        status = complain("cannot write the answer: %s", strerror(errno));
    return status;
}
