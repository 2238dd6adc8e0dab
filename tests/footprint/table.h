/* The table of calls: the most bytes of stack that each was seen to need, beside what is promised. */
#ifndef TABLE_H
#define TABLE_H

#include <stddef.h>
#include <stdint.h>

/* Its rows. */
enum row {
	VERSION,
	CYCLE_BOUND,
	START,
	PAGE,
	COPY,
	DROP,
	READ,
	STORE,
	CREATE,
	ANSWER,
	NEXT,               /* five, by the job; the last for what is no job */
	COLLECT = NEXT + 5, /* four, by the stage: 0 to 3 */
	SCAN = COLLECT + 4, /* stage 4 with part 0, with odd parts, with even ones, with part 9 */
	FIELD,
	HOLD,
	BLACKEN,
	SWEEP,    /* stage 5 */
	NO_STAGE, /* what is no stage, or no part */
	CENSUS,
	ROWS
};

/* The numbers of cells, each with a column. */
enum { COLUMNS = 3 };
extern const uint32_t table_cells[COLUMNS];

/* A try of a call needed so many bytes. */
void table_needed(enum row row, size_t column, size_t bytes);

/* And answered so. */
void table_answered(enum row row, uint32_t answer);

/* Prints it. Says whether every call keeps to what is promised. */
int table_print(void);

#endif
