#include "painted.h"

#include <signal.h>
#include <stdio.h>
#include <stdlib.h>
#include <string.h>
#include <sys/mman.h>
#include <unistd.h>

/* The painted bytes, a whole number of pages, and the lowest of them. */
#define BYTES 32768
static unsigned char *low;

/* Those that the numbers take: six of them stand on the stack. */
static size_t numbers;

/* Makes the call on the stack that ends at top. */
uint64_t painted_switch(unsigned char *top, painted_call call, const uint64_t given[GIVEN]);

/* A call that needs its return address alone. */
void painted_nothing(void);

__asm__(
	".text\n"
	".type painted_switch, @function\n"
	"painted_switch:\n"
	"	push %rbp\n"
	"	mov %rsp, %rbp\n"
	"	mov %rdi, %rsp\n"
	"	mov %rsi, %rax\n"
	"	mov %rdx, %r10\n"
	"	pushq 88(%r10)\n"
	"	pushq 80(%r10)\n"
	"	pushq 72(%r10)\n"
	"	pushq 64(%r10)\n"
	"	pushq 56(%r10)\n"
	"	pushq 48(%r10)\n"
	"	mov 40(%r10), %r9\n"
	"	mov 32(%r10), %r8\n"
	"	mov 24(%r10), %rcx\n"
	"	mov 16(%r10), %rdx\n"
	"	mov 8(%r10), %rsi\n"
	"	mov (%r10), %rdi\n"
	"	call *%rax\n"
	"	mov %rbp, %rsp\n"
	"	pop %rbp\n"
	"	ret\n"
	".type painted_nothing, @function\n"
	"painted_nothing:\n"
	"	ret\n");

/* A call has met a guard page. */
static void past_the_end(int number)
{
	static const char said[] = "stack: a call needs more than all that is painted, or reaches for memory that it isn't lent\n";

	(void)number;
	_exit(write(STDERR_FILENO, said, sizeof said - 1) < 0 ? 2 : 1);
}

static void must(int made, const char *what)
{
	if (!made) {
		perror(what);
		exit(2);
	}
}

/* The bytes from the top to the deepest that is not paint any more. */
static size_t depth(unsigned char paint, painted_call call, const uint64_t given[GIVEN], uint64_t *answer)
{
	unsigned char word[8];
	size_t i = 0;

	memset(word, paint, sizeof word);
	memset(low, paint, BYTES);
	*answer = painted_switch(low + BYTES, call, given);
	while (i < BYTES && memcmp(low + i, word, sizeof word) == 0)
		i += sizeof word;
	while (i < BYTES && low[i] == paint)
		i++;
	return BYTES - i;
}

size_t painted_need(painted_call before, painted_call call, const uint64_t given[GIVEN], uint64_t *answer)
{
	size_t one, other;

	before();
	one = depth(0x5a, call, given, answer);
	before();
	other = depth(0xa5, call, given, answer);
	return (one < other ? other : one) - numbers;
}

void painted_make(void)
{
	static unsigned char aside[65536];
	static const uint64_t given[GIVEN];
	stack_t handlers = {.ss_sp = aside, .ss_size = sizeof aside};
	struct sigaction fault = {.sa_handler = past_the_end, .sa_flags = SA_ONSTACK};
	size_t guard = (size_t)sysconf(_SC_PAGESIZE);
	unsigned char *all = mmap(NULL, BYTES + 2 * guard, PROT_NONE, MAP_PRIVATE | MAP_ANONYMOUS, -1, 0);
	uint64_t answer;

	must(all != MAP_FAILED, "mmap");
	low = all + guard;
	must(mprotect(low, BYTES, PROT_READ | PROT_WRITE) == 0, "mprotect");
	must(sigaltstack(&handlers, NULL) == 0, "sigaltstack");
	must(sigaction(SIGSEGV, &fault, NULL) == 0, "sigaction");
	numbers = painted_need(painted_nothing, painted_nothing, given, &answer) - sizeof(painted_call);
}
