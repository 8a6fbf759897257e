#include "tally.h"

#include "lines.h"
#include "update_store.h"

/* From LOAD on a row has its case too. */
enum kind {
    FUNCTION, SUB_FUNCTION, PRESENCE, WRITE, CONTROL, READ, LOAD, INDEX, INDEX_AFTER, READ_OWN,
    READ_OTHER, LOAD_OWN, LOAD_OTHER
};

/* Every code that each call can give. */
static struct row {
    enum kind kind;
    const char *name;
    uint32_t ah;
    uint32_t al;
    uint32_t its_case;
    uint32_t count;
} rows[] = {
    { FUNCTION, "unknown function", UPDATE_STORE_NOT_IMPLEMENTED, 0, 0, 0 },
    { SUB_FUNCTION, "unknown sub-function", UPDATE_STORE_NOT_IMPLEMENTED, 0, 0, 0 },
    { PRESENCE, "presence", UPDATE_STORE_SUCCESS, 0, 0, 0 },
    { PRESENCE, "presence", UPDATE_STORE_READ_FAILURE, UPDATE_STORE_AL_BAD_STORE, 0, 0 },
    { WRITE, "write", UPDATE_STORE_SUCCESS, 0, 0, 0 },
    { WRITE, "write", UPDATE_STORE_READ_FAILURE, UPDATE_STORE_AL_BAD_STORE, 0, 0 },
    { WRITE, "write", UPDATE_STORE_READ_FAILURE, UPDATE_STORE_AL_BAD_PROCESSORS, 0, 0 },
    { WRITE, "write", UPDATE_STORE_STORAGE_FULL, UPDATE_STORE_AL_STILL_NEEDED, 0, 0 },
    { WRITE, "write", UPDATE_STORE_STORAGE_FULL, UPDATE_STORE_AL_NO_RUN, 0, 0 },
    { WRITE, "write", UPDATE_STORE_CPU_NOT_PRESENT, 0, 0, 0 },
    { WRITE, "write", UPDATE_STORE_INVALID_HEADER, 0, 0, 0 },
    { WRITE, "write", UPDATE_STORE_INVALID_HEADER_CS, 0, 0, 0 },
    { WRITE, "write", UPDATE_STORE_SECURITY_FAILURE, 0, 0, 0 },
    { WRITE, "write", UPDATE_STORE_INVALID_REVISION, 0, 0, 0 },
    { CONTROL, "control", UPDATE_STORE_SUCCESS, 0, 0, 0 },
    { CONTROL, "control", UPDATE_STORE_NOT_IMPLEMENTED, 0, 0, 0 },
    { READ, "read", UPDATE_STORE_SUCCESS, 0, 0, 0 },
    { READ, "read", UPDATE_STORE_READ_FAILURE, UPDATE_STORE_AL_BAD_STORE, 0, 0 },
    { READ, "read", UPDATE_STORE_READ_FAILURE, UPDATE_STORE_AL_SHORT_DESTINATION, 0, 0 },
    { READ, "read", UPDATE_STORE_UPDATE_NUM_INVALID, 0, 0, 0 },
    { READ, "read", UPDATE_STORE_NOT_EMPTY, 0, 0, 0 },
    { LOAD, "load, nothing", UPDATE_STORE_SUCCESS, 0, UPDATE_STORE_LOAD_NOTHING, 0 },
    { LOAD, "load, chosen", UPDATE_STORE_SUCCESS, 0, UPDATE_STORE_LOAD_CHOSEN, 0 },
    { LOAD, "load, refused", UPDATE_STORE_READ_FAILURE, UPDATE_STORE_AL_BAD_STORE,
      UPDATE_STORE_LOAD_REFUSED, 0 },
    { LOAD, "load, refused", UPDATE_STORE_READ_FAILURE, UPDATE_STORE_AL_BAD_PROCESSORS,
      UPDATE_STORE_LOAD_REFUSED, 0 },
    { INDEX, "index", UPDATE_STORE_SUCCESS, 0, UPDATE_STORE_INDEX_DONE, 0 },
    { INDEX, "index", UPDATE_STORE_READ_FAILURE, UPDATE_STORE_AL_BAD_STORE,
      UPDATE_STORE_INDEX_REFUSED, 0 },
    { INDEX_AFTER, "index after a write", UPDATE_STORE_SUCCESS, 0, UPDATE_STORE_INDEX_DONE, 0 },
    { READ_OWN, "own index, read", UPDATE_STORE_SUCCESS, 0, UPDATE_STORE_CASE_READ, 0 },
    { READ_OWN, "own index, read", UPDATE_STORE_READ_FAILURE, UPDATE_STORE_AL_BAD_STORE,
      UPDATE_STORE_CASE_REFUSED, 0 },
    { READ_OWN, "own index, read", UPDATE_STORE_READ_FAILURE, UPDATE_STORE_AL_SHORT_DESTINATION,
      UPDATE_STORE_CASE_REFUSED, 0 },
    { READ_OWN, "own index, read", UPDATE_STORE_UPDATE_NUM_INVALID, 0,
      UPDATE_STORE_CASE_REFUSED, 0 },
    { READ_OWN, "own index, read", UPDATE_STORE_NOT_EMPTY, 0, UPDATE_STORE_CASE_REFUSED, 0 },
    { READ_OTHER, "other index, read", UPDATE_STORE_READ_FAILURE, UPDATE_STORE_AL_BAD_STORE,
      UPDATE_STORE_CASE_REFUSED, 0 },
    { LOAD_OWN, "own index, nothing", UPDATE_STORE_SUCCESS, 0, UPDATE_STORE_LOAD_NOTHING, 0 },
    { LOAD_OWN, "own index, chosen", UPDATE_STORE_SUCCESS, 0, UPDATE_STORE_LOAD_CHOSEN, 0 },
    { LOAD_OWN, "own index, refused", UPDATE_STORE_READ_FAILURE, UPDATE_STORE_AL_BAD_STORE,
      UPDATE_STORE_LOAD_REFUSED, 0 },
    { LOAD_OWN, "own index, refused", UPDATE_STORE_READ_FAILURE, UPDATE_STORE_AL_BAD_PROCESSORS,
      UPDATE_STORE_LOAD_REFUSED, 0 },
    { LOAD_OTHER, "other index, refused", UPDATE_STORE_READ_FAILURE, UPDATE_STORE_AL_BAD_STORE,
      UPDATE_STORE_LOAD_REFUSED, 0 },
};

enum { ROWS = sizeof rows / sizeof rows[0] };

static enum kind kind_of(const struct call *call)
{
    static const enum kind kinds[] = { PRESENCE, WRITE, CONTROL, READ };
    switch (call->entry) {
    case ENTRY_LOAD: return LOAD;
    case ENTRY_INDEX: return INDEX;
    case ENTRY_INDEX_AFTER: return INDEX_AFTER;
    case ENTRY_READ_INDEXED: return call->own_index ? READ_OWN : READ_OTHER;
    case ENTRY_LOAD_INDEXED: return call->own_index ? LOAD_OWN : LOAD_OTHER;
    default: break;
    }
    if (call->function != UPDATE_STORE_FUNCTION)
        return FUNCTION;
    return call->sub_function > UPDATE_STORE_SUB_READ ? SUB_FUNCTION : kinds[call->sub_function];
}

bool tally_add(const struct call *call, const uint32_t *answer)
{
    enum kind kind = kind_of(call);
    uint32_t its_case = kind >= LOAD ? answer[UPDATE_STORE_WORD_CASE] : 0;
    for (uint32_t i = 0; i < ROWS; i++) {
        struct row *row = &rows[i];
        if (row->kind == kind && row->ah == answer[UPDATE_STORE_WORD_AH]
            && row->al == answer[UPDATE_STORE_WORD_AL] && row->its_case == its_case) {
            row->count++;
            return true;
        }
    }
    return false;
}

bool tally_say(void)
{
    bool all = true;
    for (uint32_t i = 0; i < ROWS; i++) {
        say_wide(rows[i].name, 22);
        say("AH ");
        say_hex(rows[i].ah, 2);
        say(" AL ");
        say_number(rows[i].al, 1);
        say_number(rows[i].count, 9);
        say(rows[i].count == 0 ? " never\n" : "\n");
        all = all && rows[i].count > 0;
    }
    return all;
}
