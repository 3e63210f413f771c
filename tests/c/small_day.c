/* Calls the library from C on the small day, and prints what it gives. */
#include <stdio.h>
#include <string.h>

#include "roadthrum.h"

static uint8_t index_bytes[4096];
static size_t index_len;

static void ask(const char *name, const char *question, uint32_t place, size_t room)
{
    uint32_t rows[16];
    uint32_t result[6] = {9, 9, 9, 9, 9, 9};
    size_t i;
    for (i = 0; i < 16; i++)
        rows[i] = 77;
    if (strcmp(name, "answer") == 0)
        roadthrum_answer(index_bytes, index_len, (const uint8_t *)question, strlen(question), place, rows, room, result);
    else
        roadthrum_evidence(index_bytes, index_len, (const uint8_t *)question, strlen(question), place, rows, room, result);
    printf("%s %s place %u room %u: refusal %u rows %u more %u next %u unknown %u;", name, question, (unsigned)place, (unsigned)room,
           (unsigned)result[ROADTHRUM_REFUSAL], (unsigned)result[ROADTHRUM_ROWS], (unsigned)result[ROADTHRUM_MORE],
           (unsigned)result[ROADTHRUM_NEXT], (unsigned)result[ROADTHRUM_UNKNOWN]);
    for (i = 0; i < 16; i++)
        printf(" %u", (unsigned)rows[i]);
    printf("\n");
    /* The sixth number is behind the result. */
    if (result[5] != 9)
        printf("a sixth number was written: %u\n", (unsigned)result[5]);
}

int main(int argc, char **argv)
{
    FILE *file = argc == 2 ? fopen(argv[1], "rb") : NULL;
    if (!file)
        return 2;
    index_len = fread(index_bytes, 1, sizeof index_bytes, file);
    fclose(file);
    printf("check %u\n", (unsigned)roadthrum_check(index_bytes, index_len));
    printf("check %u\n", (unsigned)roadthrum_check(index_bytes, index_len - 1));
    ask("answer", "//call[//board]", 0, 16);
    ask("answer", "//call[//board]", 2, 1);
    ask("answer", "//call[//board]", 3, 0);
    ask("answer", "//call[//board]", 9, 16);
    ask("evidence", "//call[//call[//cancel]]//board", 0, 16);
    ask("evidence", "//call[//board]", 0, 5);
    ask("evidence", "/call", 0, 16);
    ask("answer", "//call[//cancle]", 0, 16);
    ask("evidence", "//call[//cancel]//bord", 0, 16);
    ask("evidence", "//call[//call[//cancle]]//bord", 3, 0);
    ask("answer", "//call//cancel//board", 0, 16);
    return 0;
}
