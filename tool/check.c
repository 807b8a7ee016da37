/* taplinen check: whether files are accepted. */
#include <stdio.h>
#include <unistd.h>

#include "input.h"
#include "refusal.h"

struct tally {
    size_t accepted, refused, unreadable;
};

/* A line on standard error that counts the files, for people who wait at a terminal. */
struct progress {
    size_t total;
    bool shown;
};

static struct progress progress_for(size_t total)
{
    return (struct progress){.total = total, .shown = total > 1 && isatty(STDERR_FILENO)};
}

static void show_progress(const struct progress *progress, const struct tally *tally)
{
    if (progress->shown)
        fprintf(stderr, "\r%zu of %zu files", tally->accepted + tally->refused + tally->unreadable + 1, progress->total);
}

/* Results may go to the same terminal, so the line is cleared before each of them. */
static void clear_progress(const struct progress *progress)
{
    if (progress->shown)
        fprintf(stderr, "\r%40s\r", "");
}

static void print_result(const struct input *input, taplinen_answer answer, struct tally *tally)
{
    if (answer.refusal != TAPLINEN_ANSWERED) {
        print_refusal(stdout, input, answer.refusal, answer.value);
        tally->refused++;
        return;
    }
    unsigned long long nodes = answer.value;
    printf("%s: accepted, %llu used node%s\n", input->name, nodes, nodes == 1 ? "" : "s");
    tally->accepted++;
}

static void check(const char *name, const struct progress *progress, struct tally *tally)
{
    struct input input;
    if (input_open(&input, name)) {
        show_progress(progress, tally);
        taplinen_answer answer = taplinen_accept(input.bytes, input.len, input.workspace, input.workspace_len);
        clear_progress(progress);
        print_result(&input, answer, tally);
    } else {
        tally->unreadable++;
    }
    input_close(&input);
}

static void print_tally(const struct tally *tally, size_t files)
{
    printf("%zu files: %zu accepted, %zu refused", files, tally->accepted, tally->refused);
    if (tally->unreadable > 0)
        printf(", %zu unreadable", tally->unreadable);
    putchar('\n');
}

enum status run_check(const struct arguments *arguments)
{
    struct tally tally = {0, 0, 0};
    struct progress progress = progress_for(arguments->count);
    for (size_t i = 0; i < arguments->count; i++)
        check(arguments->operands[i], &progress, &tally);
    if (arguments->count > 1)
        print_tally(&tally, arguments->count);
    return tally.unreadable > 0 ? STATUS_ERROR : tally.refused > 0 ? STATUS_NEGATIVE : STATUS_ANSWERED;
}
