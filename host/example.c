/* A program in C that calls mimosahoist: it prints what host/example.out has. */
#include "mimosahoist.h"
#include <stdio.h>

static const char *const names[] = {"ok", "MEMORY", "", "", "EMPTY", "LENGTH", "PLACE", "SIDE", "FULL", "SHORT"};

/* what was called, what it answered, and the first n bytes as they are now */
static void show(const char *call, uint32_t answer, const uint8_t *bytes, size_t n)
{
    printf("%s: %s:", call, names[answer]);
    for (size_t k = 0; k < n; k++)
        printf(" %u", (unsigned)bytes[k]);
    printf("\n");
}

int main(void)
{
    /* two rows of three, row by row, with room for one row more */
    uint8_t cells[9] = {1, 2, 3, 4, 5, 6};
    const uint8_t line[3] = {7, 8, 9};
    uint8_t memory[4] = {0};
    uint32_t answer = mh_insert_row(cells, 9, 2, 3, MH_ROW_MAJOR, 1, line, 3);
    show("insert row 1", answer, cells, 9);
    answer = mh_insert_row(cells, 9, 3, 3, MH_ROW_MAJOR, 3, line, 3);
    show("insert row 3", answer, cells, 9);
    answer = mh_flip_cols(cells, 9, 3, 3, MH_ROW_MAJOR);
    show("flip columns", answer, cells, 9);
    answer = mh_remove_col(cells, 9, 3, 3, MH_ROW_MAJOR, 0, memory, 2);
    show("remove column 0", answer, cells, 9);
    answer = mh_remove_col(cells, 9, 3, 3, MH_ROW_MAJOR, 0, memory, 4);
    show("remove column 0", answer, cells, 6);
    show("memory", MH_ACCEPTED, memory, 4);

    /* the same six cells, column by column */
    uint8_t columns[9] = {1, 4, 2, 5, 3, 6};
    answer = mh_insert_row(columns, 9, 2, 3, MH_COLUMN_MAJOR, 1, line, 3);
    show("insert row 1", answer, columns, 9);
    answer = mh_flip_rows(columns, 9, 3, 3, MH_COLUMN_MAJOR);
    show("flip rows", answer, columns, 9);
    answer = mh_remove_row(columns, 9, 3, 3, MH_COLUMN_MAJOR, 3, memory, 4);
    show("remove row 3", answer, columns, 9);
    answer = mh_remove_row(columns, 9, 3, 3, MH_COLUMN_MAJOR, 0, memory, 4);
    show("remove row 0", answer, columns, 6);
    show("memory", MH_ACCEPTED, memory, 4);
    answer = mh_insert_col(columns, 9, 0, 0, MH_COLUMN_MAJOR, 0, line, 3);
    show("insert column 0", answer, columns, 3);
    answer = mh_flip_rows(columns, 9, 300, 1, MH_COLUMN_MAJOR);
    show("flip rows", answer, columns, 3);
    return 0;
}
