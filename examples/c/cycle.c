/* One cycle of a store of two cells: cell 1 is created, dropped, and free again after 23 working turns. */
#include <stdio.h>

#include "turns.h"

/* Tells a call's answer. */
static void tell(const char *call, turns_answer_t answer)
{
	printf("%s: %s\n", call, turns_answer_name(answer));
}

int main(void)
{
	turns_record record = {0};
	turns_row desk[1] = {{0}};
	uint16_t fields[TURNS_FIELDS * 2] = {0};
	uint8_t colours[2] = {0};
	turns_parts parts = {&record, desk, 1, fields, TURNS_FIELDS * 2, colours, 2};
	turns_counts counts;
	turns_answer_t answer;

	if (turns_version() != TURNS_VERSION) {
		fprintf(stderr, "the archive's version is %u, the header's %u\n", turns_version(), TURNS_VERSION);
		return 1;
	}
	tell("start", turns_start(&parts, 2, 1, 1));
	tell("create", turns_create(&parts, 0, 0));
	tell("next", turns_next(&parts, 0));
	tell("next", turns_next(&parts, 0));
	tell("a second create", turns_create(&parts, 0, 1));
	tell("drop", turns_drop(&parts, 0, 0));

	/* A scheduler: a writer that has to answer goes on with its job, or begins; else the collector goes. */
	do {
		if (!turns_must_answer(&parts, 0))
			answer = turns_collect(&parts);
		else if (desk[0].job != TURNS_IDLE)
			answer = turns_next(&parts, 0);
		else
			answer = turns_answer(&parts, 0);
	} while (!TURNS_REFUSED(answer) && record.stage != TURNS_STAGE_REST);

	tell("the last turn", answer);
	printf("working turns %u, at most %llu\n", record.count, (unsigned long long)turns_cycle_bound(2, 1));
	if (turns_census(&parts, &counts) != TURNS_DONE)
		return 1;
	printf("free %u, white %u, held %u\n", counts.free, counts.white, counts.held);
	return 0;
}
