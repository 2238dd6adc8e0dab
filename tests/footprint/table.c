#include "table.h"

#include <stdio.h>

/* What docs/LINKING.md promises, in bytes. */
enum { START_MOST = 128, WRITER_MOST = 512, COLLECT_MOST = 192, CENSUS_MOST = 13312 };

static const struct {
	const char *name;
	size_t promised;
} rows[ROWS] = {
	[VERSION] = {"version", START_MOST},
	[CYCLE_BOUND] = {"cycle bound", START_MOST},
	[START] = {"start", START_MOST},
	[PAGE] = {"page", WRITER_MOST},
	[COPY] = {"copy", WRITER_MOST},
	[DROP] = {"drop", WRITER_MOST},
	[READ] = {"read", WRITER_MOST},
	[STORE] = {"store", WRITER_MOST},
	[CREATE] = {"create", WRITER_MOST},
	[ANSWER] = {"answer", WRITER_MOST},
	[NEXT] = {"next, idle", WRITER_MOST},
	[NEXT + 1] = {"next, answering", WRITER_MOST},
	[NEXT + 2] = {"next, storing", WRITER_MOST},
	[NEXT + 3] = {"next, creating", WRITER_MOST},
	[NEXT + 4] = {"next, no such job", WRITER_MOST},
	[COLLECT] = {"collect, stage 0", COLLECT_MOST},
	[COLLECT + 1] = {"collect, stage 1", COLLECT_MOST},
	[COLLECT + 2] = {"collect, stage 2", COLLECT_MOST},
	[COLLECT + 3] = {"collect, stage 3", COLLECT_MOST},
	[SCAN] = {"collect, stage 4, part 0", COLLECT_MOST},
	[FIELD] = {"collect, stage 4, parts 1, 3, 5, 7", COLLECT_MOST},
	[HOLD] = {"collect, stage 4, parts 2, 4, 6, 8", COLLECT_MOST},
	[BLACKEN] = {"collect, stage 4, part 9", COLLECT_MOST},
	[SWEEP] = {"collect, stage 5", COLLECT_MOST},
	[NO_STAGE] = {"collect, no such stage or part", COLLECT_MOST},
	[CENSUS] = {"census", CENSUS_MOST},
};

const uint32_t table_cells[COLUMNS] = {1, 64, 4096};

/* Every answer is below this. */
enum { ANSWERS = 128 };

static struct {
	unsigned tries;
	size_t needed[COLUMNS];
	unsigned char answered[ANSWERS];
} seen[ROWS];

void table_needed(enum row row, size_t column, size_t bytes)
{
	seen[row].tries++;
	if (seen[row].needed[column] < bytes)
		seen[row].needed[column] = bytes;
}

void table_answered(enum row row, uint32_t answer)
{
	if (answer < ANSWERS)
		seen[row].answered[answer] = 1;
}

static void print_row(enum row row)
{
	printf("%-35s", rows[row].name);
	for (size_t column = 0; column < COLUMNS; column++)
		printf(" %7zu", seen[row].needed[column]);
	printf(" %9zu %7u", rows[row].promised, seen[row].tries);
	for (unsigned answer = 0; answer < ANSWERS; answer++)
		if (seen[row].answered[answer])
			printf(" %u", answer);
	printf("\n");
}

/* Says where a row needs more than is promised, and whether it does not. */
static int keeps(enum row row)
{
	size_t most = 0;

	for (size_t column = 0; column < COLUMNS; column++)
		if (most < seen[row].needed[column])
			most = seen[row].needed[column];
	if (most <= rows[row].promised)
		return 1;
	fprintf(stderr, "stack: %s needs %zu bytes, and %zu are promised\n", rows[row].name, most, rows[row].promised);
	return 0;
}

int table_print(void)
{
	int all = 1;

	printf("stack, in bytes: with the return address, without parameters; the most of all tries at M 1 and 8\n");
	printf("%-35s", "call");
	for (size_t column = 0; column < COLUMNS; column++) {
		char head[16];

		snprintf(head, sizeof head, "N %u", (unsigned)table_cells[column]);
		printf(" %7s", head);
	}
	printf("  promised   tries answers\n");
	for (enum row row = 0; row < ROWS; row++)
		print_row(row);
	fflush(stdout);
	for (enum row row = 0; row < ROWS; row++)
		all &= keeps(row);
	return all;
}
