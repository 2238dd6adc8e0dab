/*
 * show FILE: plays a turn file and shows the store after each line. Without a
 * FILE it plays standard input. Its answers are those of the player.
 */
#include <errno.h>
#include <stdio.h>
#include <string.h>

#include "turns.h"

/* The most bytes of a line, its end not counted. */
#define MOST_BYTES 64

/* The most cells of a strip. */
#define MOST_SHOWN 64

/* The player's own refusal. */
#define UNREADABLE_LINE 8

static const char legend[] =
	"Each line of the turn file: its number, the request, the answer, and the store after it.\n"
	"\n"
	"request  a tab is shown as a space, or as _ in an unreadable line, a byte that is no visible character\n"
	"         as ?; a > ends a line that has more than 64 bytes\n"
	"answer   as the player gives it; of a census: free, white, gray, black, held, floating\n"
	"stage    - before any start; rest, first and second (handshake); pages, scan, sweep with the place,\n"
	"         and while the cell at the place is open, a / and the part\n"
	"cells    from cell 0 on: . free, o white, + gray, # black; a > ends a strip that has more than 64;\n"
	"         a * before them: this line has changed a colour\n"
	"writers  from writer 0 on, parted by |: the status, a :, and the job;\n"
	"         a ! behind it: this writer has still to answer\n"
	"           answering 3             the next turn grays slot 3; at 8, it sets the status\n"
	"           storing 4 into 0.2      cell 4 goes to field 2 of cell 0; in brackets the next turn\n"
	"           creating 4 into slot 1  in brackets: look, or finish: keep it black, or white\n"
	"\n"
	" line  request           answer       stage        cells and writers\n";

/* A store of the largest size. Calls are lent its first parts; it has no cell and no writer until a start. */
static turns_record record;
static turns_row desk[TURNS_MOST_WRITERS];
static uint16_t fields[TURNS_FIELDS * TURNS_MOST_CELLS];
static uint8_t colours[TURNS_MOST_CELLS];

/* The colours before a line. */
static uint8_t colours_before[TURNS_MOST_CELLS];

/* A line of the turn file. */
typedef struct line {
	char bytes[MOST_BYTES];
	size_t len; /* MOST_BYTES + 1 for every longer line */
} line;

/* What a line asks for, in the order of `forms`. */
typedef enum verb {
	START, PAGE, COPY, DROP, READ, STORE, CREATE, ANSWER, NEXT, COLLECT, CENSUS, UNREADABLE
} verb;

typedef struct request {
	verb verb;
	uint32_t numbers[4];
} request;

/* The word of each verb, and how many numbers follow it. */
static const struct form {
	const char *word;
	size_t numbers;
} forms[] = {
	{"start", 3}, {"page", 3}, {"copy", 3}, {"drop", 2}, {"read", 4}, {"store", 4},
	{"create", 2}, {"answer", 1}, {"next", 1}, {"collect", 0}, {"census", 0},
};

/* Reads the next line. False at the end of the file, and where reading failed. */
static int read_line(FILE *in, line *l)
{
	int c;

	l->len = 0;
	while ((c = getc(in)) != EOF && c != '\n') {
		if (l->len < MOST_BYTES)
			l->bytes[l->len] = (char)c;
		if (l->len <= MOST_BYTES)
			l->len++;
	}
	return c == '\n' || (l->len > 0 && !ferror(in));
}

/* Where the field that begins at `from` ends: at the next tab, or at the line's end. */
static size_t field_end(const line *l, size_t from)
{
	while (from < l->len && l->bytes[from] != '\t')
		from++;
	return from;
}

/* Reads a decimal number of 1 to 5 digits. False where it is none. */
static int read_number(const char *text, size_t len, uint32_t *number)
{
	size_t i;

	*number = 0;
	for (i = 0; i < len; i++) {
		if (text[i] < '0' || text[i] > '9')
			return 0;
		*number = 10 * *number + (uint32_t)(text[i] - '0');
	}
	return len >= 1 && len <= 5;
}

/* Takes a line apart: a word, and a number after each tab. */
static request parse(const line *l)
{
	request q = {UNREADABLE, {0}};
	size_t word_len, at, end, count = 0;
	int v;

	if (l->len > MOST_BYTES)
		return q;
	word_len = field_end(l, 0);
	for (end = word_len; end < l->len; count++) {
		at = end + 1;
		end = field_end(l, at);
		if (count == 4 || !read_number(l->bytes + at, end - at, &q.numbers[count]))
			return q;
	}
	for (v = START; v < UNREADABLE; v++)
		if (forms[v].numbers == count && strlen(forms[v].word) == word_len
		    && memcmp(forms[v].word, l->bytes, word_len) == 0)
			q.verb = (verb)v;
	return q;
}

/* The first parts of the store, of n cells and m writers, or as far as it reaches. */
static turns_parts lend(uint32_t n, uint32_t m)
{
	size_t cells = n < TURNS_MOST_CELLS ? n : TURNS_MOST_CELLS;
	size_t rows = m < TURNS_MOST_WRITERS ? m : TURNS_MOST_WRITERS;
	turns_parts parts = {&record, desk, rows, fields, TURNS_FIELDS * cells, colours, cells};

	return parts;
}

/* Makes the call that is asked for. A start is lent what it asks for, other calls what the record says. */
static turns_answer_t play(const request *q, turns_counts *counts)
{
	const uint32_t *a = q->numbers;
	turns_parts parts = q->verb == START ? lend(a[0], a[2]) : lend(record.n, record.m);

	switch (q->verb) {
	case START: return turns_start(&parts, a[0], a[1], a[2]);
	case PAGE: return turns_page(&parts, a[0], a[1], a[2]);
	case COPY: return turns_copy(&parts, a[0], a[1], a[2]);
	case DROP: return turns_drop(&parts, a[0], a[1]);
	case READ: return turns_read(&parts, a[0], a[1], a[2], a[3]);
	case STORE: return turns_store(&parts, a[0], a[1], a[2], a[3]);
	case CREATE: return turns_create(&parts, a[0], a[1]);
	case ANSWER: return turns_answer(&parts, a[0]);
	case NEXT: return turns_next(&parts, a[0]);
	case COLLECT: return turns_collect(&parts);
	case CENSUS: return turns_census(&parts, counts);
	case UNREADABLE: break;
	}
	return UNREADABLE_LINE;
}

/* Shows a line as it was given. */
static void show_request(verb v, const line *l)
{
	char text[MOST_BYTES + 2] = "";
	size_t i;

	for (i = 0; i < l->len && i < MOST_BYTES; i++) {
		char c = l->bytes[i];
		if (c == '\t')
			text[i] = v == UNREADABLE ? '_' : ' ';
		else
			text[i] = c > ' ' && c <= '~' ? c : '?';
	}
	if (l->len > MOST_BYTES)
		text[i] = '>';
	printf("%-16s  ", text);
}

/* Shows an answer in the player's words. */
static void show_answer(verb v, turns_answer_t answer, const turns_counts *c)
{
	char text[80];

	if (TURNS_REFUSED(answer))
		snprintf(text, sizeof text, "refused %u", answer);
	else if (v == CENSUS)
		snprintf(text, sizeof text, "%u %u %u %u %u %u",
			c->free, c->white, c->gray, c->black, c->held, c->floating);
	else
		snprintf(text, sizeof text, "%s", turns_answer_name(answer));
	printf("%-11s  ", text);
}

/* Shows the stage, with the place where the collector goes through the cells. */
static void show_stage(void)
{
	static const char *const names[] = {"rest", "first", "second", "pages", "scan", "sweep"};
	char text[40];

	if (record.stage < TURNS_STAGE_PAGES)
		snprintf(text, sizeof text, "%s", names[record.stage]);
	else if (record.part == 0)
		snprintf(text, sizeof text, "%s %u", names[record.stage], record.place);
	else
		snprintf(text, sizeof text, "%s %u/%u", names[record.stage], record.place, record.part);
	printf("%-11s ", text);
}

/* Shows the cells' colours. */
static void show_cells(void)
{
	uint32_t i;

	putchar(memcmp(colours, colours_before, sizeof colours) == 0 ? ' ' : '*');
	for (i = 0; i < record.n && i < MOST_SHOWN; i++)
		putchar(".o+#"[colours[i]]);
	if (record.n > MOST_SHOWN)
		putchar('>');
	memcpy(colours_before, colours, sizeof colours);
}

/* Shows a cell's number, or none. */
static void show_value(uint16_t value)
{
	if (value == TURNS_NONE)
		printf("none");
	else
		printf("%u", (unsigned)value);
}

/* Shows a store under way. */
static void show_storing(const turns_row *row)
{
	printf("storing ");
	show_value(row->fresh);
	printf(" into %u.%u (", (unsigned)row->cell, (unsigned)row->at);
	switch (row->step) {
	case TURNS_STEP_FULL_READ:
	case TURNS_STEP_TRACED_READ:
		printf("read");
		break;
	case TURNS_STEP_FULL_OLD:
	case TURNS_STEP_TRACED_OLD:
		printf("gray old ");
		show_value(row->old);
		break;
	case TURNS_STEP_FULL_NEW:
		printf("gray new");
		break;
	default:
		printf("write");
	}
	putchar(')');
}

/* Shows a creation under way. */
static void show_creating(const turns_row *row)
{
	static const char *const turns[] = {"look", "keep", "white"};

	printf("creating %u into slot %u (%s)", (unsigned)row->cell, (unsigned)row->at, turns[row->step]);
}

/* Shows each writer: its status, its job, and whether it has still to answer. */
static void show_writers(void)
{
	turns_parts parts = lend(record.n, record.m);
	uint32_t w;

	for (w = 0; w < record.m; w++) {
		printf("%s%u:", w == 0 ? "  " : " | ", (unsigned)desk[w].status);
		switch (desk[w].job) {
		case TURNS_ANSWERING: printf("answering %u", (unsigned)desk[w].step); break;
		case TURNS_STORING: show_storing(&desk[w]); break;
		case TURNS_CREATING: show_creating(&desk[w]); break;
		default: printf("idle");
		}
		if (turns_must_answer(&parts, w))
			putchar('!');
	}
}

/* Plays a line, and shows it with the store after it. */
static void show(uint32_t number, const line *l)
{
	request q = parse(l);
	turns_counts counts = {0, 0, 0, 0, 0, 0};
	turns_answer_t answer = play(&q, &counts);

	printf("%5u  ", number);
	show_request(q.verb, l);
	show_answer(q.verb, answer, &counts);
	if (record.n == 0) {
		puts("-");
		return;
	}
	show_stage();
	show_cells();
	show_writers();
	putchar('\n');
}

/* Tells on standard error what could not be done with a file, and why. */
static int failed(const char *what, const char *name, int status)
{
	fprintf(stderr, "show: cannot %s %s: %s\n", what, name, strerror(errno));
	return status;
}

int main(int argc, char **argv)
{
	const char *name = argc == 2 ? argv[1] : "standard input";
	FILE *in = stdin;
	uint32_t number = 0;
	line l;

	if (argc > 2) {
		fprintf(stderr, "usage: show [FILE] (a turn file)\n");
		return 2;
	}
	if (turns_version() != TURNS_VERSION) {
		fprintf(stderr, "show: the archive's version is %u, the header's %u\n",
			turns_version(), TURNS_VERSION);
		return 2;
	}
	if (argc == 2 && (in = fopen(name, "rb")) == NULL)
		return failed("open", name, 2);

	/* Line numbers end where the player's do. */
	fputs(legend, stdout);
	while (number < UINT32_MAX && !ferror(stdout) && read_line(in, &l))
		show(++number, &l);
	if (ferror(in))
		return failed("read", name, 1);
	if (ferror(stdout) || fflush(stdout) != 0)
		return failed("write to", "standard output", 1);
	return 0;
}
