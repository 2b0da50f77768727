/* Times the proved library beside C, after it has been made sure that all give the same answers.
   bench           the comparison, then the table
   bench --check   the comparison alone */
#define _POSIX_C_SOURCE 199309L

#include <stdio.h>
#include <string.h>
#include <time.h>

#include "compare.h"
#include "rows.h"

enum { ROUNDS = 7 };

/* what one timing takes at the least, in nanoseconds, so that the clock's own steps do not count */
static const double SHORTEST_TIMING = 1e6;

static double timing(const struct calls *calls, const struct task *task, size_t times)
{
    struct timespec begin, end;
    clock_gettime(CLOCK_MONOTONIC, &begin);
    perform(calls, task, times);
    clock_gettime(CLOCK_MONOTONIC, &end);
    return (double)(end.tv_sec - begin.tv_sec) * 1e9 + (double)(end.tv_nsec - begin.tv_nsec);
}

/* The shortest time of one call for each implementation. They take turns, so that whatever else the machine does meets
   all of them alike. */
static void time_all(const struct task *task, double best[IMPLEMENTATIONS])
{
    size_t times[IMPLEMENTATIONS];
    for (size_t i = 0; i < IMPLEMENTATIONS; i++) {
        times[i] = 1;
        while (timing(implementations[i], task, times[i]) < SHORTEST_TIMING) {
            times[i] *= 2;
        }
        best[i] = 1e18;
    }
    for (int round = 0; round < ROUNDS; round++) {
        for (size_t i = 0; i < IMPLEMENTATIONS; i++) {
            double one = timing(implementations[i], task, times[i]) / (double)times[i];
            best[i] = one < best[i] ? one : best[i];
        }
    }
}

static double smaller(double a, double b)
{
    return a < b ? a : b;
}

static void print_heading(const char *title)
{
    printf("\n%s\n\n", title);
    printf("| %-46s |    ours | plain C |  by 8 C |  best C | ours/plain | ours/by 8 | ours/best |\n", "work");
    printf("|%.48s|--------:|--------:|--------:|--------:|-----------:|----------:|----------:|\n",
           "------------------------------------------------");
}

static void print_row(const struct row *row)
{
    if (row->table != NULL) {
        print_heading(row->table);
    }
    double ns[IMPLEMENTATIONS];
    time_all(&row->task, ns);
    double plain = smaller(ns[1], ns[2]), sliced = smaller(ns[3], ns[4]), per = (double)row->per;
    double best = smaller(smaller(plain, sliced), smaller(ns[5], ns[6]));
    if (row->task.work == COPY_WORDS) {
        printf("| %-46s |         |         |         | %7.3f |            |           |           |\n", row->name,
               best / per);
    } else {
        printf("| %-46s | %7.3f | %7.3f | %7.3f | %7.3f | %10.2f | %9.2f | %9.2f |\n", row->name, ns[0] / per,
               plain / per, sliced / per, best / per, ns[0] / plain, ns[0] / sliced, ns[0] / best);
    }
    fflush(stdout);
}

/* Whether the row's input is what its name says, and all implementations agree on it. */
static bool right_row(const struct row *row)
{
    uint64_t answer;
    if (!agree(&row->task, &answer)) {
        printf("bench: in the row '%s'\n", row->name);
        return false;
    }
    if (answer != row->want) {
        printf("bench: the row '%s' has another answer than its name says\n", row->name);
        return false;
    }
    return true;
}

int main(int count, char **arguments)
{
    static struct row rows[MOST_ROWS];
    size_t row_count = make_rows(rows);
    bool right = true;
    for (size_t i = 0; i < row_count; i++) {
        right &= right_row(&rows[i]);
    }
    right &= compare();
    if (!right) {
        return 1;
    }
    if (count > 1 && strcmp(arguments[1], "--check") == 0) {
        return 0;
    }
    for (size_t i = 0; i < row_count; i++) {
        print_row(&rows[i]);
    }
    return 0;
}
