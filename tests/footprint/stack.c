/*
 * The stack that each exported call needs. Each is made on a painted stack in every stage, part, status, job and step, over cells of
 * every colour, on good memory and on damaged, with good numbers and with wrong ones, for one writer and for eight. Ends with status 1
 * where a call needs more than is promised.
 */
#include <string.h>

#include "painted.h"
#include "table.h"
#include "turns.h"

/* A store's parts: as each try finds them, and as they are lent to it. */
static struct store {
	turns_record record;
	turns_row desk[8];
	uint16_t fields[4 * 4096];
	uint8_t colours[4096];
} kept, lent;

/* The store's numbers, and the column of its N. */
static uint32_t n, g, m;
static size_t column;

/* What a call on the store is given: the parts with their lengths, and what it takes besides. */
static uint64_t given[GIVEN];

#define CALL(function) ((painted_call)(function))

/* The parts are lent as they were kept. */
static void lend(void)
{
	lent.record = kept.record;
	memcpy(lent.desk, kept.desk, m * sizeof kept.desk[0]);
	memcpy(lent.fields, kept.fields, n * 4 * sizeof kept.fields[0]);
	memcpy(lent.colours, kept.colours, n);
}

/* A call on the store, with the numbers that it takes besides. */
static void try(enum row row, painted_call call, uint64_t a, uint64_t b, uint64_t c, uint64_t d)
{
	uint64_t answer;

	given[8] = a;
	given[9] = b;
	given[10] = c;
	given[11] = d;
	table_needed(row, column, painted_need(lend, call, given, &answer));
	table_answered(row, (uint32_t)answer);
}

static void start(uint32_t cells, uint32_t pages, uint32_t writers)
{
	try(START, CALL(turns_lent_start), cells, pages, writers, 0);
}

static void next(uint32_t job, uint32_t w)
{
	try(NEXT + job, CALL(turns_lent_next), w, 0, 0, 0);
}

/* The other calls of writer w. */
static void others(uint32_t w, uint32_t page, uint32_t from, uint32_t field, uint32_t to)
{
	try(PAGE, CALL(turns_lent_page), w, page, to, 0);
	try(COPY, CALL(turns_lent_copy), w, from, to, 0);
	try(DROP, CALL(turns_lent_drop), w, from, 0, 0);
	try(READ, CALL(turns_lent_read), w, from, field, to);
	try(STORE, CALL(turns_lent_store), w, from, field, to);
	try(CREATE, CALL(turns_lent_create), w, to, 0, 0);
	try(ANSWER, CALL(turns_lent_answer), w, 0, 0, 0);
}

static void collect(uint32_t stage, uint32_t part)
{
	enum row row = stage < 4 ? COLLECT + stage : stage == 5 ? SWEEP : NO_STAGE;

	if (stage == 4 && part < 10)
		row = part == 0 ? SCAN : part == 9 ? BLACKEN : part % 2 ? FIELD : HOLD;
	try(row, CALL(turns_lent_collect), 0, 0, 0, 0);
}

static void census(size_t length)
{
	static turns_counts counts;

	try(CENSUS, CALL(turns_lent_census), (uintptr_t)&counts, length, 0, 0);
}

/* How the cells and slots of a try look. Colours are 0 free, 1 white, 2 gray, 3 black, and 4 is none. */
enum holds { NO_CELL, A_CELL, NOT_A_CELL };
static const struct look {
	enum holds slots, fields;
	uint8_t colours, last; /* of all cells but the last, and of the last */
} looks[] = {
	{NO_CELL, NO_CELL, 0, 0},
	{A_CELL, NO_CELL, 1, 0},
	{A_CELL, A_CELL, 1, 1},
	{A_CELL, A_CELL, 2, 2},
	{A_CELL, A_CELL, 3, 3},
	{A_CELL, A_CELL, 4, 4},
	{A_CELL, NOT_A_CELL, 1, 1},
	{NOT_A_CELL, A_CELL, 1, 1},
};

static uint16_t value(enum holds holds, uint32_t cell)
{
	return (uint16_t)(holds == NO_CELL ? 65535 : holds == A_CELL ? cell : n);
}

/* The cells are a ring, by their fields, or name none. */
static void put_cells(const struct look *look)
{
	for (uint32_t cell = 0; cell < n; cell++) {
		for (uint32_t f = 0; f < 4; f++)
			kept.fields[4 * cell + f] = value(look->fields, (cell + 1) % n);
		kept.colours[cell] = look->colours;
	}
	kept.colours[n - 1] = look->last;
}

/* Every writer has this status and job. */
static void put_desk(const struct look *look, uint16_t status, uint16_t job, uint16_t step)
{
	turns_row row = {.status = status, .job = job, .step = step, .cell = (uint16_t)(n - 1), .at = 3};

	row.fresh = value(look->slots, n - 1);
	row.old = value(look->fields, 0);
	for (size_t slot = 0; slot < 8; slot++)
		row.slots[slot] = row.fresh;
	for (uint32_t w = 0; w < m; w++)
		kept.desk[w] = row;
}

/* The place is the stage's first or its end. */
static void put_record(uint32_t stage, uint32_t end, uint32_t part, uint32_t found)
{
	uint32_t hold = part == 0 || part % 2 || !found ? 65535 : n - 1;
	uint32_t place = end ? stage == 3 ? g : n : 0;

	kept.record = (turns_record){n, g, m, stage, place, part, hold, stage == 4 && found, 1};
}

/* The calls of a writer in each job and step, one that is no job and steps that are none too; and the census. */
static void try_jobs(const struct look *look, uint16_t status)
{
	static const uint16_t steps[] = {1, 10, 9, 4, 1};

	for (uint16_t job = 0; job < sizeof steps / sizeof steps[0]; job++)
		for (uint16_t step = 0; step < steps[job]; step++) {
			put_desk(look, status, job, step);
			next(job, m - 1);
			if (step == 0) {
				others(m - 1, 0, 0, 3, 1);
				census(6);
			}
		}
}

/* The collector's turn in each part, and one that is none. */
static void try_parts(uint32_t stage, uint32_t end)
{
	for (uint32_t part = 0; part <= 10; part++)
		for (uint32_t found = 0; found < 2; found++) {
			put_record(stage, end, part, found);
			collect(stage, part);
		}
}

/* All calls in each stage and status, one that is none too, on memory that looks so. */
static void try_stages(const struct look *look)
{
	for (uint32_t stage = 0; stage <= 6; stage++)
		for (uint32_t end = 0; end < 2; end++)
			for (uint16_t status = 0; status <= 3; status++) {
				put_desk(look, status, 0, 0);
				try_parts(stage, end);
				put_record(stage, end, 0, 0);
				try_jobs(look, status);
			}
}

/* All calls but start, with numbers that are in range. */
static void try_each(void)
{
	next(0, m - 1);
	others(m - 1, 0, 0, 3, 1);
	collect(0, 0);
	census(6);
}

/* Start, and calls with numbers and lengths that are wrong, on a store at rest. */
static void try_wrong(void)
{
	put_cells(&looks[1]);
	put_desk(&looks[1], 0, 0, 0);
	put_record(0, 0, 0, 0);
	start(n, g, m);
	start(0, g, m);
	start(4097, g, m);
	start(n, 0, m);
	start(n, 17, m);
	start(n, n + 1, m);
	start(n, g, 0);
	start(n, g, 9);
	next(0, m);
	others(m, 0, 0, 3, 1);
	others(m - 1, g, 8, 4, 8);
	census(5);
	for (size_t length = 1; length < 8; length += 2) {
		given[length]--;
		start(n, g, m);
		try_each();
		given[length]++;
	}
	kept.record.n = 0;
	try_each();
}

/* Both calls that take no store. */
static void try_plain(void)
{
	static const uint64_t numbers[GIVEN] = {4096, 16};
	uint64_t answer;

	table_needed(VERSION, column, painted_need(lend, CALL(turns_version), numbers, &answer));
	table_needed(CYCLE_BOUND, column, painted_need(lend, CALL(turns_cycle_bound), numbers, &answer));
}

static void try_all(uint32_t cells, uint32_t writers)
{
	const uint64_t parts[] = {(uintptr_t)&lent.record, 9, (uintptr_t)lent.desk, 16 * writers,
		(uintptr_t)lent.fields, 4 * cells, (uintptr_t)lent.colours, cells};

	n = cells;
	g = n < 16 ? n : 16;
	m = writers;
	memcpy(given, parts, sizeof parts);
	try_plain();
	try_wrong();
	for (size_t i = 0; i < sizeof looks / sizeof looks[0]; i++) {
		put_cells(&looks[i]);
		try_stages(&looks[i]);
	}
}

int main(void)
{
	painted_make();
	for (column = 0; column < COLUMNS; column++) {
		try_all(table_cells[column], 1);
		try_all(table_cells[column], 8);
	}
	return table_print() ? 0 : 1;
}
