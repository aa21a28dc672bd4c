/* Prints layout.h as constants of Rust: where each field begins, how many bytes
   there are, the values of a state byte, the same of a row, the last call, the last refusal. */
#include <ctype.h>
#include <stddef.h>
#include <stdio.h>

#include "layout.h"

static void constant(const char *name, const char *type, size_t value)
{
    printf("pub const ");
    for (; *name != 0; name++)
        putchar(toupper((unsigned char)*name));
    printf(": %s = %zu;\n", type, value);
}

#define OFFSET(name, size) constant(#name, "usize", offsetof(Tables, name));
#define ROW_OFFSET(name) constant("row_" #name, "usize", offsetof(struct cottonsedge_row, name));
#define BYTE(name) constant(#name, "u8", name)
#define ROW_STATE(name) constant("row_" #name, "u8", COTTONSEDGE_STATE_##name)

int main(void)
{
    FIELDS(OFFSET)
    constant("length", "usize", sizeof(Tables));
    BYTE(FREE);
    BYTE(CURRENT);
    BYTE(READY);
    BYTE(SUSPENDED);
    BYTE(WAITING);
    BYTE(LAST_CALL);
    BYTE(LAST_REFUSAL);
    ROW_FIELDS(ROW_OFFSET)
    constant("row_length", "usize", sizeof(struct cottonsedge_row));
    ROW_STATE(CURRENT);
    ROW_STATE(READY);
    ROW_STATE(SUSPENDED);
    ROW_STATE(WAITING);
    return 0;
}
