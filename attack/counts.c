/* What was done, over the processes of one run, and which edges of the code were reached. */
#include "attack.h"

#include <inttypes.h>
#include <stdio.h>
#include <stdlib.h>
#include <unistd.h>

struct attack_counts attack_counts;

const char *const attack_call_names[ATTACK_CALLS] = {"read_set", "read_layout", "read_values", "read_run",
                                                     "build_set", "validate", "validate_run", "validate_runs",
                                                     "length_of", "length_of_run"};

/* The counters and the table of their places, which the compilers lay into these sections; the one goes with the other. */
extern uint8_t __start___sancov_cntrs[], __stop___sancov_cntrs[];
extern const uintptr_t __start___sancov_pcs[];

static uint8_t *seen;

static size_t edges(void)
{
    return (size_t)(__stop___sancov_cntrs - __start___sancov_cntrs);
}

static FILE *left_by(const char *variable)
{
    const char *path = getenv(variable);
    return path == NULL ? NULL : fopen(path, "rb");
}

/* The edges that the process before met. */
static void begin_edges(void)
{
    FILE *f = left_by("ATTACK_EDGES");
    int met;
    seen = calloc(edges(), 1);
    if (seen == NULL)
        abort();
    if (f == NULL)
        return;
    for (size_t i = 0; i < edges() && fscanf(f, "%*s 1 %d", &met) == 1; i++)
        seen[i] = (uint8_t)met;
    fclose(f);
}

/* The counts and edges go on from those of the process before, if it left any. */
void attack_begin(void)
{
    const char *path = getenv("ATTACK_COUNTS");
    FILE *f = left_by("ATTACK_COUNTS");
    begin_edges();
    if (f == NULL)
        return;
    if (fread(&attack_counts, sizeof attack_counts, 1, f) != 1) {
        fprintf(stderr, "attack: %s: cut off\n", path);
        exit(2);
    }
    fclose(f);
}

/* Adds the edges that this input reached. Without checks of addresses, because it runs behind every input. */
__attribute__((no_sanitize("address", "undefined"))) void attack_note_edges(void)
{
    const size_t many = edges();
    for (size_t i = 0; i < many; i++)
        seen[i] |= __start___sancov_cntrs[i];
}

static FILE *open_named(const char *variable)
{
    const char *path = getenv(variable);
    FILE *f = path == NULL ? NULL : fopen(path, "wb");
    if (path != NULL && f == NULL)
        perror(path);
    return f;
}

static void close_named(FILE *f, const char *variable)
{
    if (fclose(f) != 0)
        perror(getenv(variable));
}

/* A line for each edge: its place, a 1, and whether it was met. edges.awk says to which code it belongs. */
static void write_edges(void)
{
    FILE *f = open_named("ATTACK_EDGES");
    if (f == NULL)
        return;
    for (size_t i = 0; i < edges(); i++)
        fprintf(f, "%016" PRIxPTR " 1 %d\n", __start___sancov_pcs[2 * i], seen[i] != 0);
    close_named(f, "ATTACK_EDGES");
}

static void write_counts(void)
{
    FILE *f = open_named("ATTACK_COUNTS");
    if (f == NULL)
        return;
    fwrite(&attack_counts, sizeof attack_counts, 1, f);
    close_named(f, "ATTACK_COUNTS");
}

static void print_counts(void)
{
    printf("attack: inputs: %" PRIu64 "\nattack: calls compared: %" PRIu64 " (", attack_counts.inputs, attack_counts.calls);
    for (int i = 0; i < ATTACK_CALLS; i++)
        printf("%s%s %" PRIu64, i == 0 ? "" : ", ", attack_call_names[i], attack_counts.by_call[i]);
    printf(")\nattack: of these the unchanged Rust confirms %" PRIu64 ", and of %" PRIu64 " the rules alone decide\n",
           attack_counts.confirmed, attack_counts.rules_only);
    printf("attack: not compared, because the evaluation takes more than 200,000 steps: %" PRIu64 "\n", attack_counts.stopped);
    printf("attack: answers in the calls of validate_runs: %" PRIu64 "\n", attack_counts.runs);
    printf("attack: builds that were also done by layout_of: %" PRIu64 "\n", attack_counts.layout_of);
    printf("attack: answers by number (0: accepted):");
    for (int i = 0; i < 32; i++)
        if (attack_counts.by_number[i] > 0)
            printf(" %d:%" PRIu64, i, attack_counts.by_number[i]);
    printf("\nattack: inputs with a difference: %" PRIu64 "\n", attack_counts.differences);
}

/* At the end of the process. A difference is no crash, so the status has to say it. */
void attack_report(void)
{
    print_counts();
    fflush(stdout);
    write_edges();
    write_counts();
    if (attack_counts.differences > 0)
        _exit(1);
}
