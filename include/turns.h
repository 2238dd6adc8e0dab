/*
 * The turn library for C and C++: link libturns.a, include this file.
 *
 * A store is four parts that the caller owns and lends to every call: the
 * record, the desk (a row per writer), the fields (4 words per cell) and the
 * colours (a byte per cell). A call is one turn, of one writer or of the
 * collector. It takes any numbers and any contents of the four parts; what is
 * out of range is refused, and a refusal changes nothing.
 *
 * The caller sees to it that each pointer is aligned, not null (also for a
 * length of 0), and leads to as many elements as its length says, that no two
 * parts overlap, and that nobody else touches them during a call. What happens
 * otherwise is undefined. The library never keeps a pointer: between calls it
 * knows of no store.
 */
#ifndef TURNS_H
#define TURNS_H

#include <stddef.h>
#include <stdint.h>

#ifdef __cplusplus
extern "C" {
#endif

/* The version of this header. */
#define TURNS_VERSION_MAJOR 0
#define TURNS_VERSION_MINOR 2
#define TURNS_VERSION_PATCH 0
#define TURNS_VERSION (10000u * TURNS_VERSION_MAJOR + 100u * TURNS_VERSION_MINOR + TURNS_VERSION_PATCH)

/* The version of the archive. An archive and a header fit where turns_version() equals TURNS_VERSION. */
uint32_t turns_version(void);

/* "None", in a field, a slot, the hold, and a store's old and new values. */
#define TURNS_NONE 65535u

/* Limits: cells N 1 to 4,096, pages g 1 to 16 and at most N, writers M 1 to 8. */
#define TURNS_MOST_CELLS 4096
#define TURNS_MOST_PAGES 16
#define TURNS_MOST_WRITERS 8

/* Fields of a cell, and slots of a writer. */
#define TURNS_FIELDS 4
#define TURNS_SLOTS 8

/* Colours. */
enum turns_colours { TURNS_FREE = 0, TURNS_WHITE = 1, TURNS_GRAY = 2, TURNS_BLACK = 3 };

/* What a call answers: a refusal's number, which is below 100, or one of the last four. */
typedef uint32_t turns_answer_t;
enum turns_answers {
	TURNS_BAD_SIZE = 1,   /* N, g or M out of limits, or a length that does not fit them */
	TURNS_BAD_NUMBER = 2, /* a number that the call reads is out of range */
	TURNS_NO_SUCH = 3,    /* no such writer, slot, field or page */
	TURNS_BUSY = 4,       /* any call but next while the writer has a job */
	TURNS_NO_TURN = 5,    /* next without a job, or answer when status equals posted */
	TURNS_EMPTY_SLOT = 6, /* read or store through an empty slot */
	TURNS_FULL = 7,       /* create with no free cell */
	TURNS_DONE = 100,     /* the call, or the job, is finished */
	TURNS_MORE = 101,     /* the job is unfinished: next does its next turn */
	TURNS_WORKED = 102,   /* the collector worked */
	TURNS_WAITED = 103    /* the collector waits for a writer, and changed nothing */
};
#define TURNS_REFUSED(answer) ((turns_answer_t)(answer) < 100u)

/* An answer in words, for a log. */
static inline const char *turns_answer_name(turns_answer_t answer)
{
	switch (answer) {
	case TURNS_BAD_SIZE: return "refused 1: sizes or lengths that do not fit";
	case TURNS_BAD_NUMBER: return "refused 2: a lent number is out of range";
	case TURNS_NO_SUCH: return "refused 3: no such writer, slot, field or page";
	case TURNS_BUSY: return "refused 4: the writer has a job";
	case TURNS_NO_TURN: return "refused 5: there is nothing to do";
	case TURNS_EMPTY_SLOT: return "refused 6: the slot is empty";
	case TURNS_FULL: return "refused 7: no cell is free";
	case TURNS_DONE: return "done";
	case TURNS_MORE: return "more";
	case TURNS_WORKED: return "worked";
	case TURNS_WAITED: return "waited";
	default: return "unknown answer";
	}
}

/* The record's stage: what the collector is at. */
enum turns_stages {
	TURNS_STAGE_REST = 0,   /* no cycle is open */
	TURNS_STAGE_FIRST = 1,  /* the first handshake: 1 is posted */
	TURNS_STAGE_SECOND = 2, /* the second handshake: 2 is posted */
	TURNS_STAGE_PAGES = 3,  /* the third handshake, for which 0 is posted; the pages are grayed */
	TURNS_STAGE_SCAN = 4,   /* gray cells are opened, and what they name is grayed */
	TURNS_STAGE_SWEEP = 5   /* white cells become free */
};

/* The collector's record. */
typedef struct turns_record {
	uint32_t n; /* cells */
	uint32_t g; /* pages */
	uint32_t m; /* writers */
	uint32_t stage;
	uint32_t place;
	uint32_t part;
	uint32_t hold;
	uint32_t found;
	uint32_t count; /* working turns since the opening */
} turns_record;

/* A writer's status: the handshake that it answered last, 0 after the third and at the beginning. */
enum turns_statuses { TURNS_STATUS_SETTLED = 0, TURNS_STATUS_FIRST = 1, TURNS_STATUS_SECOND = 2 };

/* A writer's job, in the row's word `job`. */
enum turns_jobs { TURNS_IDLE = 0, TURNS_ANSWERING = 1, TURNS_STORING = 2, TURNS_CREATING = 3 };

/* The step of a job that stores: the next turn of a full store, of a traced one, of a bare one. */
enum turns_store_steps {
	TURNS_STEP_FULL_READ = 0,
	TURNS_STEP_FULL_OLD = 1, /* gray the old value */
	TURNS_STEP_FULL_NEW = 2, /* gray the new value */
	TURNS_STEP_FULL_WRITE = 3,
	TURNS_STEP_TRACED_READ = 4,
	TURNS_STEP_TRACED_OLD = 5,
	TURNS_STEP_TRACED_WRITE = 6,
	TURNS_STEP_BARE_WRITE = 7
};

/* The step of a job that creates: the look is ahead, or what it decided. */
enum turns_create_steps { TURNS_STEP_AHEAD = 0, TURNS_STEP_KEEP = 1, TURNS_STEP_WHITE = 2 };

/*
 * A writer's row of the desk. A word that the job has no use for is not read;
 * a turn that is not refused writes the named row whole, with 0 in such words.
 */
typedef struct turns_row {
	uint16_t status;
	uint16_t slots[TURNS_SLOTS]; /* a cell or none */
	uint16_t job;
	uint16_t step;  /* answering: the next slot, 0 to 8. storing, creating: a step as above */
	uint16_t cell;  /* storing, creating */
	uint16_t at;    /* storing: the field, 0 to 3. creating: the slot, 0 to 7 */
	uint16_t fresh; /* storing: the new value */
	uint16_t old;   /* storing: the old value, none until it is read */
	uint16_t spare;
} turns_row;

/* What a census counts. */
typedef struct turns_counts {
	uint32_t free, white, gray, black, held, floating;
} turns_counts;

/* The memory that a store takes: 36 + 32 M + 9 N bytes, 37,156 at most (N = 4,096, M = 8). */
#define TURNS_STORE_BYTES(n, m) \
	(sizeof(turns_record) + (size_t)(m) * sizeof(turns_row) \
	 + (size_t)(n) * (TURNS_FIELDS * sizeof(uint16_t) + sizeof(uint8_t)))

/* The layouts that the archive is made for: a compiler that has others stops here. */
#if defined(__cplusplus) && __cplusplus >= 201103L
#define TURNS_LAYOUT(name, fact) static_assert(fact, #fact)
#elif defined(__STDC_VERSION__) && __STDC_VERSION__ >= 201112L
#define TURNS_LAYOUT(name, fact) _Static_assert(fact, #fact)
#else
#define TURNS_LAYOUT(name, fact) typedef char turns_layout_##name[(fact) ? 1 : -1]
#endif
TURNS_LAYOUT(byte, sizeof(uint8_t) == 1 && (uint8_t)-1 == 255);
TURNS_LAYOUT(word, sizeof(uint16_t) == 2);
TURNS_LAYOUT(number, sizeof(uint32_t) == 4);
TURNS_LAYOUT(bound, sizeof(uint64_t) == 8);
TURNS_LAYOUT(length, sizeof(size_t) == sizeof(void *));
TURNS_LAYOUT(record, sizeof(turns_record) == 36);
TURNS_LAYOUT(record_count, offsetof(turns_record, count) == 32);
TURNS_LAYOUT(row, sizeof(turns_row) == 32);
TURNS_LAYOUT(row_spare, offsetof(turns_row, spare) == 30);
TURNS_LAYOUT(counts, sizeof(turns_counts) == 24);
TURNS_LAYOUT(counts_floating, offsetof(turns_counts, floating) == 20);
TURNS_LAYOUT(store, TURNS_STORE_BYTES(TURNS_MOST_CELLS, TURNS_MOST_WRITERS) == 37156);
#undef TURNS_LAYOUT

/* The library's own calls: each part as numbers and their length, the record 9, a row 16, the counts 6. */
#define TURNS_LENT_TO_WRITE \
	const uint32_t *record, size_t record_len, uint16_t *desk, size_t desk_len, \
	uint16_t *fields, size_t fields_len, uint8_t *colours, size_t colours_len
turns_answer_t turns_lent_start(uint32_t *record, size_t record_len, uint16_t *desk, size_t desk_len,
	uint16_t *fields, size_t fields_len, uint8_t *colours, size_t colours_len,
	uint32_t n, uint32_t g, uint32_t m);
turns_answer_t turns_lent_page(TURNS_LENT_TO_WRITE, uint32_t w, uint32_t p, uint32_t s);
turns_answer_t turns_lent_copy(TURNS_LENT_TO_WRITE, uint32_t w, uint32_t r, uint32_t s);
turns_answer_t turns_lent_drop(TURNS_LENT_TO_WRITE, uint32_t w, uint32_t r);
turns_answer_t turns_lent_read(TURNS_LENT_TO_WRITE, uint32_t w, uint32_t r, uint32_t f, uint32_t s);
turns_answer_t turns_lent_store(TURNS_LENT_TO_WRITE, uint32_t w, uint32_t r, uint32_t f, uint32_t q);
turns_answer_t turns_lent_create(TURNS_LENT_TO_WRITE, uint32_t w, uint32_t s);
turns_answer_t turns_lent_answer(TURNS_LENT_TO_WRITE, uint32_t w);
turns_answer_t turns_lent_next(TURNS_LENT_TO_WRITE, uint32_t w);
turns_answer_t turns_lent_collect(uint32_t *record, size_t record_len,
	const uint16_t *desk, size_t desk_len, const uint16_t *fields, size_t fields_len,
	uint8_t *colours, size_t colours_len);
turns_answer_t turns_lent_census(const uint32_t *record, size_t record_len,
	const uint16_t *desk, size_t desk_len, const uint16_t *fields, size_t fields_len,
	const uint8_t *colours, size_t colours_len, uint32_t *counts, size_t counts_len);
#undef TURNS_LENT_TO_WRITE

/* C: the most working turns that a cycle takes, (N+1)^2 + 10N + g + 5. */
uint64_t turns_cycle_bound(uint16_t n, uint16_t g);

/* The four parts with their lengths, as the caller lends them. */
typedef struct turns_parts {
	turns_record *record;
	turns_row *desk;
	size_t rows; /* M */
	uint16_t *fields;
	size_t words; /* 4N */
	uint8_t *colours;
	size_t cells; /* N */
} turns_parts;

/* The desk's length in words. More rows than any desk has are lent as one too many, and so refused with 1. */
static inline size_t turns_desk_words(const turns_parts *t)
{
	return 16 * (t->rows > TURNS_MOST_WRITERS ? (size_t)TURNS_MOST_WRITERS + 1 : t->rows);
}

/* The parts `t` as the library's own calls take them. */
#define TURNS_LENT \
	(uint32_t *)t->record, 9, (uint16_t *)t->desk, turns_desk_words(t), \
	t->fields, t->words, t->colours, t->cells

/* Start: everything is filled. */
static inline turns_answer_t turns_start(const turns_parts *t, uint32_t n, uint32_t g, uint32_t m)
{
	return turns_lent_start(TURNS_LENT, n, g, m);
}

/* Puts page p in slot `slot` of writer w. */
static inline turns_answer_t turns_page(const turns_parts *t, uint32_t w, uint32_t p, uint32_t slot)
{
	return turns_lent_page(TURNS_LENT, w, p, slot);
}

/* Copies slot `from` to slot `to`. */
static inline turns_answer_t turns_copy(const turns_parts *t, uint32_t w, uint32_t from, uint32_t to)
{
	return turns_lent_copy(TURNS_LENT, w, from, to);
}

/* Empties a slot. */
static inline turns_answer_t turns_drop(const turns_parts *t, uint32_t w, uint32_t slot)
{
	return turns_lent_drop(TURNS_LENT, w, slot);
}

/* Puts field f of the cell in slot `from` into slot `to`. */
static inline turns_answer_t turns_read(const turns_parts *t, uint32_t w,
	uint32_t from, uint32_t f, uint32_t to)
{
	return turns_lent_read(TURNS_LENT, w, from, f, to);
}

/* Starts to store slot `value` into field f of the cell in slot `into`. */
static inline turns_answer_t turns_store(const turns_parts *t, uint32_t w,
	uint32_t into, uint32_t f, uint32_t value)
{
	return turns_lent_store(TURNS_LENT, w, into, f, value);
}

/* Starts to create a cell into a slot. */
static inline turns_answer_t turns_create(const turns_parts *t, uint32_t w, uint32_t slot)
{
	return turns_lent_create(TURNS_LENT, w, slot);
}

/* Answers the handshake that is posted. */
static inline turns_answer_t turns_answer(const turns_parts *t, uint32_t w)
{
	return turns_lent_answer(TURNS_LENT, w);
}

/* The next turn of the writer's job. */
static inline turns_answer_t turns_next(const turns_parts *t, uint32_t w)
{
	return turns_lent_next(TURNS_LENT, w);
}

/* A turn of the collector. */
static inline turns_answer_t turns_collect(const turns_parts *t)
{
	return turns_lent_collect(TURNS_LENT);
}

/* The census: done, with the six counts, or a refusal, and then `counts` is as it was. */
static inline turns_answer_t turns_census(const turns_parts *t, turns_counts *counts)
{
	return turns_lent_census(TURNS_LENT, (uint32_t *)counts, 6);
}
#undef TURNS_LENT

/* What is posted: the status that the collector asks of every writer. */
static inline uint32_t turns_posted(const turns_parts *t)
{
	switch (t->record->stage) {
	case TURNS_STAGE_FIRST: return TURNS_STATUS_FIRST;
	case TURNS_STAGE_SECOND: return TURNS_STATUS_SECOND;
	default: return TURNS_STATUS_SETTLED;
	}
}

/*
 * The scheduler's question: has writer w still to answer, since its status is
 * not what is posted? Not where there is no writer w. A writer with a job
 * makes next until done before it can answer. One in the middle of an answer
 * to posted 0 must still answer, too: it makes next until done, and has.
 */
static inline int turns_must_answer(const turns_parts *t, uint32_t w)
{
	return w < t->rows && w < t->record->m && t->desk[w].status != turns_posted(t);
}

#ifdef __cplusplus
}
#endif

#endif
