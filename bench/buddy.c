/* The diagrams of `bench_calls diagrams`, made with the C library BuDDy (Debian package libbdd-dev): the same clauses, sets
 * and board, by the same calls in the same order. Use: buddy PROBLEM COUNT, with a problem of that call except nodes.
 *
 * BuDDy collects its garbage and makes a node again that it needs again, so the last number of its line counts the nodes that
 * it made, and may exceed that of different nodes.
 */
#include <bdd.h>
#include <stdint.h>
#include <stdio.h>
#include <stdlib.h>
#include <string.h>

enum { VARIABLES = 60, LITERALS = 3, PART = 8, LARGEST = 16, LARGE = 100, SMALL = 10, MIDDLE = 17, SETS = 16 };

/* The generator of crates/bench_calls/src/random.rt. */
static uint64_t state = 1;

static unsigned below(unsigned bound)
{
    state = state * 6364136223846793005u + 1442695040888963407u;
    return (unsigned)((state >> 33) % bound);
}

/* Puts a diagram in the place of one that is held. */
static void put(BDD *held, BDD made)
{
    bdd_addref(made);
    bdd_delref(*held);
    *held = made;
}

static BDD random_clause(void)
{
    BDD clause = bddfalse;
    unsigned first = below(VARIABLES - LITERALS * PART + 1);
    for (unsigned part = 0; part < LITERALS; part++) {
        unsigned variable = first + part * PART + below(PART);
        BDD literal = below(2) == 1 ? bdd_nithvar(variable) : bdd_ithvar(variable);
        put(&clause, bdd_or(clause, literal));
    }
    return clause;
}

static BDD conjunction(unsigned count)
{
    BDD all = bddtrue;
    for (unsigned i = 0; i < count; i++) {
        BDD clause = random_clause();
        put(&all, bdd_and(all, clause));
        bdd_delref(clause);
    }
    return all;
}

/* Puts the value of the next variable in the place of a variable, and the opposite of its value in the place of the next. */
static BDD replace_variables(unsigned count)
{
    BDD large = conjunction(LARGE), last = bddfalse;
    for (unsigned step = 0; step < count; step++) {
        int var = (int)(step % (VARIABLES - 1));
        bddPair *images = bdd_newpair();
        bdd_setbddpair(images, var, bdd_ithvar(var + 1));
        bdd_setbddpair(images, var + 1, bdd_nithvar(var));
        put(&last, bdd_veccompose(large, images));
        bdd_freepair(images);
    }
    return last;
}

static void make_sets(BDD *sets, unsigned clauses)
{
    for (unsigned i = 0; i < SETS; i++)
        sets[i] = conjunction(clauses);
}

/* Of two entries for a variable the first counts, so the last is put in first. */
static BDD replace_by_constants(unsigned count)
{
    BDD sets[SETS], last = bddfalse;
    make_sets(sets, SMALL);
    for (unsigned step = 0; step < count; step++) {
        unsigned variables[4], values[4];
        for (int i = 0; i < 4; i++) {
            variables[i] = below(VARIABLES);
            values[i] = below(2);
        }
        bddPair *images = bdd_newpair();
        for (int i = 3; i >= 0; i--)
            bdd_setbddpair(images, (int)variables[i], values[i] ? bddtrue : bddfalse);
        put(&last, bdd_veccompose(sets[step % SETS], images));
        bdd_freepair(images);
    }
    return last;
}

static BDD combine(unsigned count)
{
    BDD sets[SETS], last = bddfalse;
    make_sets(sets, MIDDLE);
    for (unsigned step = 0; step < count; step++) {
        BDD f = sets[below(SETS)];
        BDD g = sets[below(SETS)];
        BDD both = bdd_addref(bdd_and(f, g));
        BDD rest = bdd_addref(bdd_apply(g, f, bddop_diff));
        put(&last, bdd_or(both, rest));
        bdd_delref(both);
        bdd_delref(rest);
    }
    return last;
}

static BDD some_in_row(unsigned size, unsigned row)
{
    BDD some = bddfalse;
    for (unsigned column = 0; column < size; column++)
        put(&some, bdd_or(some, bdd_ithvar(row * size + column)));
    return some;
}

static unsigned distance(unsigned a, unsigned b)
{
    return a < b ? b - a : a - b;
}

static int attacks(unsigned size, unsigned a, unsigned b)
{
    unsigned rows = distance(a / size, b / size);
    unsigned columns = distance(a % size, b % size);
    return a != b && (rows == 0 || columns == 0 || rows == columns);
}

static BDD conflict_at(unsigned size, unsigned cell)
{
    BDD attackers = bddfalse;
    for (unsigned other = 0; other < size * size; other++)
        if (attacks(size, cell, other))
            put(&attackers, bdd_or(attackers, bdd_ithvar(other)));
    put(&attackers, bdd_and(attackers, bdd_ithvar(cell)));
    return attackers;
}

static BDD placings(unsigned size)
{
    BDD all = bddtrue;
    for (unsigned row = 0; row < size; row++) {
        BDD some = some_in_row(size, row);
        put(&all, bdd_and(all, some));
        bdd_delref(some);
    }
    for (unsigned cell = 0; cell < size * size; cell++) {
        BDD conflict = conflict_at(size, cell);
        put(&all, bdd_apply(all, conflict, bddop_diff));
        bdd_delref(conflict);
    }
    return all;
}

struct problem {
    const char *name;
    BDD (*solve)(unsigned count);
};

static const struct problem PROBLEMS[] = {
    {"clauses", conjunction},
    {"queens", placings},
    {"variables", replace_variables},
    {"constants", replace_by_constants},
    {"algebra", combine},
};

int main(int argc, char **argv)
{
    const struct problem *problem = NULL;
    for (size_t i = 0; argc == 3 && i < sizeof PROBLEMS / sizeof *PROBLEMS; i++)
        if (strcmp(argv[1], PROBLEMS[i].name) == 0)
            problem = &PROBLEMS[i];
    unsigned count = problem ? (unsigned)strtoul(argv[2], NULL, 10) : 0;
    int is_board = problem && problem->solve == placings;
    if (!problem || (is_board && count > LARGEST)) {
        fprintf(stderr, "use: buddy clauses | queens | variables | constants | algebra COUNT, with at most 16 queens\n");
        return 2;
    }
    /* A million nodes and caches of a hundred thousand entries were the fastest of four choices; the table grows where it must. */
    bdd_init(1000000, 100000);
    bdd_setmaxincrease(1000000);
    bdd_gbc_hook(NULL);
    bdd_resize_hook(NULL);
    bdd_setvarnum(is_board ? (int)(count > 0 ? count * count : 1) : VARIABLES);
    BDD all = problem->solve(count);
    bddStat statistics;
    bdd_stats(&statistics);
    printf("%s %u: %d nodes, %ld made\n", problem->name, count, bdd_nodecount(all), (long)statistics.produced);
    return 0;
}
