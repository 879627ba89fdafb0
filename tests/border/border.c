/* Throws arbitrary numbers at give, take, lock and unlock on plain numbers, as C calls them, and holds the answers against
 * the rules of the port and against Gale's Rust.
 *
 *     border --inputs              writes the inputs, one a line
 *     border GALE CLASSES          GALE is what gale.rs answered to them; prints a table, and writes the classes in which
 *                                  ours and Gale differ to the file CLASSES, as rows of docs/DIFFERENCES.md
 *
 * The last line is "N passed, M failed".
 */
#include <stdio.h>
#include <stdlib.h>
#include <string.h>
#include "waitqueue.h"

enum { INPUTS = 10000, FUNCTIONS = 4, WORDS = 4, SHOWN = 3 };
#define SEED 20260401u

/* ---- The four functions ------------------------------------------------------------------- */

struct function {
    const char *name;
    int numbers, flags; /* its parameters: first numbers, then flags */
    int32_t (*ours)(const uint32_t *);
    int32_t (*promised)(const uint32_t *);    /* the rules, refusals first */
    bool (*decide_demands)(const uint32_t *); /* the precondition of Gale's decide function */
    bool (*object_demands)(const uint32_t *); /* that of its object's methods, of these numbers */
    const char *word[5];                      /* what Gale's decisions 0, 1 and so on are called */
    int32_t meant[5];                         /* ours for the same */
};

static bool nothing(const uint32_t *in)
{
    (void)in;
    return true;
}

static int32_t give(const uint32_t *in) { return wq_sem_give_decide(in[0], in[1], in[2] != 0); }
static int32_t take(const uint32_t *in) { return wq_sem_take_decide(in[0], in[1] != 0); }
static int32_t lock(const uint32_t *in) { return wq_mutex_lock_decide(in[0], in[1] != 0, in[2] != 0, in[3] != 0); }
static int32_t unlock(const uint32_t *in) { return wq_mutex_unlock_decide(in[0], in[1] != 0, in[2] != 0); }

static bool of_a_semaphore(const uint32_t *in) { return in[1] > 0 && in[0] <= in[1]; }
static bool of_a_mutex(const uint32_t *in) { return (in[0] > 0) == (in[1] == 0); }
static bool of_a_lock(const uint32_t *in) { return of_a_mutex(in) && in[0] < UINT32_MAX; }

static int32_t give_promised(const uint32_t *in)
{
    uint32_t count = in[0], limit = in[1], waiter = in[2];
    if (limit == 0 || count > limit || (waiter && count > 0))
        return WQ_EINVAL;
    if (waiter)
        return WQ_GIVE_WOKE;
    return count == limit ? WQ_GIVE_SATURATED : WQ_GIVE_INCREMENTED;
}

static int32_t take_promised(const uint32_t *in)
{
    uint32_t count = in[0], no_wait = in[1];
    if (count == 0 && no_wait)
        return WQ_EBUSY;
    return count == 0 ? WQ_WAITS : WQ_OK;
}

static int32_t lock_promised(const uint32_t *in)
{
    uint32_t count = in[0], null = in[1], current = in[2], no_wait = in[3];
    if (null ? count > 0 : count == 0)
        return WQ_EINVAL;
    if (null)
        return WQ_LOCK_ACQUIRE;
    if (current)
        return count == UINT32_MAX ? WQ_EOVERFLOW : WQ_LOCK_REENTRANT;
    return no_wait ? WQ_EBUSY : WQ_LOCK_PEND;
}

static int32_t unlock_promised(const uint32_t *in)
{
    uint32_t count = in[0], null = in[1], current = in[2];
    if (null || count == 0)
        return WQ_EINVAL;
    if (!current)
        return WQ_EPERM;
    return count > 1 ? WQ_UNLOCK_RELEASED : WQ_UNLOCK_UNLOCKED;
}

static const struct function functions[FUNCTIONS] = {
    {"give_decide", 2, 1, give, give_promised, of_a_semaphore, of_a_semaphore,
     {"WakeThread", "Increment", "Saturated"}, {WQ_GIVE_WOKE, WQ_GIVE_INCREMENTED, WQ_GIVE_SATURATED}},
    {"take_decide", 1, 1, take, take_promised, nothing, nothing,
     {"Acquired", "WouldBlock", "Pend"}, {WQ_OK, WQ_EBUSY, WQ_WAITS}},
    {"lock_decide", 1, 3, lock, lock_promised, nothing, of_a_lock,
     {"Acquire", "Reentrant", "Pend", "Busy", "Overflow"},
     {WQ_LOCK_ACQUIRE, WQ_LOCK_REENTRANT, WQ_LOCK_PEND, WQ_EBUSY, WQ_EOVERFLOW}},
    {"unlock_decide", 1, 2, unlock, unlock_promised, nothing, of_a_mutex,
     {"NotLocked", "NotOwner", "Released", "FullyUnlocked"},
     {WQ_EINVAL, WQ_EPERM, WQ_UNLOCK_RELEASED, WQ_UNLOCK_UNLOCKED}},
};

/* ---- Where ours and Gale differ, and the row of docs/DIFFERENCES.md that says why --------- */

enum { GIVE, TAKE, LOCK, UNLOCK };
enum side { DECIDE, OBJECT };

struct class {
    int function;
    enum side side;   /* Gale's decide function, or the methods of its object */
    bool inside;      /* its precondition holds */
    char gale;        /* its answer; o and u: it panics */
    int32_t ours;
    const char *row;
    long met;
    uint32_t smallest[WORDS];
};

static struct class classes[] = {
    {GIVE, DECIDE, false, '0', WQ_EINVAL, "D219", 0, {0}},
    {GIVE, DECIDE, false, '2', WQ_EINVAL, "D219", 0, {0}},
    {GIVE, DECIDE, true, '0', WQ_EINVAL, "D31", 0, {0}},
    {GIVE, OBJECT, false, '0', WQ_EINVAL, "D36", 0, {0}},
    {GIVE, OBJECT, false, '1', WQ_EINVAL, "D35", 0, {0}},
    {GIVE, OBJECT, false, '2', WQ_EINVAL, "D36", 0, {0}},
    {GIVE, OBJECT, false, 'o', WQ_EINVAL, "D35", 0, {0}},
    {GIVE, OBJECT, true, '0', WQ_EINVAL, "D31", 0, {0}},
    {TAKE, DECIDE, true, '1', WQ_EBUSY, "D33", 0, {0}},
    {TAKE, DECIDE, true, '2', WQ_WAITS, "D33", 0, {0}},
    {LOCK, DECIDE, true, '0', WQ_EINVAL, "D44", 0, {0}},
    {LOCK, DECIDE, true, '1', WQ_EINVAL, "D44", 0, {0}},
    {LOCK, DECIDE, true, '2', WQ_EINVAL, "D44", 0, {0}},
    {LOCK, DECIDE, true, '3', WQ_EINVAL, "D44", 0, {0}},
    {LOCK, DECIDE, true, '1', WQ_LOCK_REENTRANT, "D46", 0, {0}},
    {LOCK, DECIDE, true, '2', WQ_LOCK_PEND, "D46", 0, {0}},
    {LOCK, DECIDE, true, '3', WQ_EBUSY, "D46", 0, {0}},
    {LOCK, DECIDE, true, '4', WQ_EOVERFLOW, "D46", 0, {0}},
    {LOCK, OBJECT, false, '0', WQ_EINVAL, "D54", 0, {0}},
    {LOCK, OBJECT, false, 'u', WQ_EINVAL, "D54", 0, {0}},
    {LOCK, OBJECT, false, 'o', WQ_EOVERFLOW, "D50", 0, {0}},
    {UNLOCK, DECIDE, true, '1', WQ_EINVAL, "D45", 0, {0}},
    {UNLOCK, DECIDE, true, '3', WQ_EINVAL, "D45", 0, {0}},
    {UNLOCK, DECIDE, true, '0', WQ_EINVAL, "D47", 0, {0}},
    {UNLOCK, DECIDE, true, '1', WQ_EPERM, "D47", 0, {0}},
    {UNLOCK, DECIDE, true, '2', WQ_UNLOCK_RELEASED, "D47", 0, {0}},
    {UNLOCK, DECIDE, true, '3', WQ_UNLOCK_UNLOCKED, "D47", 0, {0}},
    {UNLOCK, OBJECT, false, '1', WQ_EINVAL, "D54", 0, {0}},
    {UNLOCK, OBJECT, false, '3', WQ_EINVAL, "D54", 0, {0}},
};
enum { CLASSES = sizeof classes / sizeof *classes };

/* ---- Inputs ------------------------------------------------------------------------------- */

static uint32_t inputs[FUNCTIONS][INPUTS][WORDS];

static const uint32_t limits[] = {0, 1, 2, 3, 0x7fffffff, 0x80000000, 0x80000001, 0xfffffffe, 0xffffffff};
enum { LIMITS = sizeof limits / sizeof *limits };

/* xorshift, as in compare/rng.rs */
static uint64_t state = SEED;
static uint32_t word(void)
{
    state ^= state << 13;
    state ^= state >> 7;
    state ^= state << 17;
    return (uint32_t)(state >> 32);
}

/* One in eight is a limit, one small, two are about the number before, or about a limit; the others are any. */
static uint32_t number(const uint32_t *before)
{
    uint32_t limit = limits[word() % LIMITS];
    switch (word() % 8) {
    case 0: return limit;
    case 1: return word() % 16;
    case 2:
    case 3: return (before ? *before : limit) - 1 + word() % 3;
    default: return word();
    }
}

/* Whether it is none of those that were made; then it is one of them. */
static bool is_new(int function, const uint32_t *in)
{
    static uint32_t seen[FUNCTIONS][1 << 16][WORDS + 1];
    uint32_t at = 0;
    for (int k = 0; k < WORDS; k++)
        at = (at ^ in[k]) * 0x9e3779b1u;
    for (at >>= 16;; at = (at + 1) % (1 << 16)) {
        if (seen[function][at][WORDS] == 0) {
            memcpy(seen[function][at], in, WORDS * sizeof *in);
            seen[function][at][WORDS] = 1;
            return true;
        }
        if (memcmp(seen[function][at], in, WORDS * sizeof *in) == 0)
            return false;
    }
}

/* All limits with all flags; then what comes, no input twice. */
static void make_inputs(int function)
{
    const struct function *f = &functions[function];
    uint32_t (*in)[WORDS] = inputs[function];
    int made = 0, flags = 1 << f->flags, combinations = flags;
    for (int k = 0; k < f->numbers; k++)
        combinations *= LIMITS;
    for (; made < combinations; made++) {
        int left = made;
        for (int k = 0; k < f->flags; k++, left /= 2)
            in[made][f->numbers + k] = left % 2;
        for (int k = 0; k < f->numbers; k++, left /= LIMITS)
            in[made][k] = limits[left % LIMITS];
        is_new(function, in[made]);
    }
    for (; made < INPUTS; made += is_new(function, in[made])) {
        for (int k = 0; k < f->numbers; k++)
            in[made][k] = number(k > 0 ? &in[made][k - 1] : NULL);
        for (int k = 0; k < f->flags; k++)
            in[made][f->numbers + k] = word() % 2;
    }
}

/* What gale.rs reads, and the sum by which its answers are known to be for these inputs: FNV-1a of the text. */
static uint64_t write_inputs(FILE *to)
{
    uint64_t sum = 0xcbf29ce484222325;
    for (int i = 0; i < FUNCTIONS; i++)
        for (int n = 0; n < INPUTS; n++) {
            char line[80];
            const uint32_t *in = inputs[i][n];
            snprintf(line, sizeof line, "%s %u %u %u %u\n", functions[i].name, in[0], in[1], in[2], in[3]);
            for (char *c = line; *c; c++)
                sum = (sum ^ (unsigned char)*c) * 0x100000001b3;
            if (to)
                fputs(line, to);
        }
    return sum;
}

static bool smaller(const uint32_t *a, const uint32_t *b)
{
    uint64_t all_a = 0, all_b = 0;
    for (int k = 0; k < WORDS; k++)
        all_a += a[k], all_b += b[k];
    if (all_a != all_b)
        return all_a < all_b;
    for (int k = 0; k < WORDS; k++)
        if (a[k] != b[k])
            return a[k] < b[k];
    return false;
}

static void print_call(FILE *to, const struct function *f, const uint32_t *in)
{
    fprintf(to, "%s(", f->name);
    for (int k = 0; k < f->numbers + f->flags; k++) {
        fputs(k > 0 ? ", " : "", to);
        if (k < f->numbers)
            fprintf(to, "%u", in[k]);
        else
            fputs(in[k] ? "true" : "false", to);
    }
    fputc(')', to);
}

/* ---- Gale's answers ----------------------------------------------------------------------- */

static char answers[FUNCTIONS][2][INPUTS + 1];
static const char *const sides[2] = {"decide", "object"};

/* A head of lines with #, then a line "inputs SUM", then "FUNCTION SIDE" and the answers, in lines of any length. */
static bool read_answers(const char *path)
{
    FILE *from = fopen(path, "r");
    char line[256];
    unsigned long long sum = 0;
    bool of_these = false;
    char *to = NULL, *end = NULL;
    if (!from)
        return false;
    while (fgets(line, sizeof line, from)) {
        line[strcspn(line, "\n")] = 0;
        if (line[0] == '#')
            continue;
        if (sscanf(line, "inputs %llx", &sum) == 1) {
            of_these = sum == write_inputs(NULL);
            continue;
        }
        bool heads = false;
        for (int i = 0; i < FUNCTIONS; i++)
            for (int s = 0; s < 2; s++) {
                char head[64];
                snprintf(head, sizeof head, "%s %s", functions[i].name, sides[s]);
                if (strcmp(line, head) == 0)
                    heads = true, to = answers[i][s], end = to + INPUTS;
            }
        if (heads)
            continue;
        if (!to || strlen(line) > (size_t)(end - to))
            break;
        to = stpcpy(to, line);
    }
    bool read = feof(from) && of_these;
    fclose(from);
    for (int i = 0; i < FUNCTIONS; i++)
        read = read && strlen(answers[i][DECIDE]) == INPUTS && strlen(answers[i][OBJECT]) == INPUTS;
    return read;
}

static bool panicked(char gale) { return gale < '0' || gale > '4'; }

static const char *called(const struct function *f, char gale)
{
    if (!panicked(gale))
        return f->word[gale - '0'];
    return gale == 'o' ? "panics: overflow" : gale == 'u' ? "panics: unwraps None" : "panics";
}

/* ---- Counting ----------------------------------------------------------------------------- */

static const int32_t codes[] = {WQ_EPERM, WQ_EBUSY, WQ_EINVAL, WQ_EOVERFLOW};
enum { CODES = sizeof codes / sizeof *codes };

static struct {
    long inside, panicked, unknown;
} counts[FUNCTIONS][2];
static long served[FUNCTIONS], refused[FUNCTIONS][CODES], broken[FUNCTIONS];

/* The decide function's number is another one, or either side's decision is. */
static bool differs(const struct function *f, enum side side, char gale, int32_t ours)
{
    return panicked(gale) || f->meant[gale - '0'] != ours || (side == DECIDE && gale - '0' != ours);
}

static void hold(int i, enum side side, const uint32_t *in, char gale, int32_t ours)
{
    const struct function *f = &functions[i];
    bool inside = side == DECIDE ? f->decide_demands(in) : f->object_demands(in);
    counts[i][side].inside += inside;
    counts[i][side].panicked += panicked(gale);
    if (!differs(f, side, gale, ours))
        return;
    for (int k = 0; k < CLASSES; k++) {
        struct class *c = &classes[k];
        if (c->function == i && c->side == side && c->inside == inside && c->gale == gale && c->ours == ours) {
            if (c->met++ == 0 || smaller(in, c->smallest))
                memcpy(c->smallest, in, sizeof c->smallest);
            return;
        }
    }
    if (counts[i][side].unknown++ < SHOWN) {
        print_call(stdout, f, in);
        printf(": ours %d, Gale's %s %s, %s its precondition: in no class\n", (int)ours, sides[side], called(f, gale),
               inside ? "inside" : "outside");
    }
}

static void ask(int i, const uint32_t *in, char decided, char done)
{
    const struct function *f = &functions[i];
    int32_t ours = f->ours(in), promised = f->promised(in);
    if (ours != promised && broken[i]++ < SHOWN) {
        print_call(stdout, f, in);
        printf(": ours %d, promised %d\n", (int)ours, (int)promised);
    }
    served[i] += ours >= 0;
    for (int k = 0; k < CODES; k++)
        refused[i][k] += ours == codes[k];
    hold(i, DECIDE, in, decided, ours);
    hold(i, OBJECT, in, done, ours);
}

/* ---- The tables --------------------------------------------------------------------------- */

static void print_row(const char *name, long (*of)(int, int), int k)
{
    printf("%-40s", name);
    for (int i = 0; i < FUNCTIONS; i++)
        printf("%15ld", of(i, k));
    putchar('\n');
}

static long all(int i, int k) { (void)i; (void)k; return INPUTS; }
static long inside_of(int i, int s) { return counts[i][s].inside; }
static long outside_of(int i, int s) { return INPUTS - counts[i][s].inside; }
static long panicked_of(int i, int s) { return counts[i][s].panicked; }
static long answered_of(int i, int s) { return INPUTS - counts[i][s].panicked; }
static long served_of(int i, int k) { (void)k; return served[i]; }
static long refused_of(int i, int k) { return refused[i][k]; }

static void print_table(void)
{
    printf("\n%-40s", "");
    for (int i = 0; i < FUNCTIONS; i++)
        printf("%15s", functions[i].name);
    putchar('\n');
    print_row("inputs", all, 0);
    print_row("ours: answered 0 or more", served_of, 0);
    for (int k = 0; k < CODES; k++) {
        char name[40];
        snprintf(name, sizeof name, "ours: refused with %d", (int)codes[k]);
        print_row(name, refused_of, k);
    }
    for (int s = 0; s < 2; s++) {
        char name[4][48];
        static const char *const what[4] = {"inside its precondition", "outside", "answered", "panicked"};
        long (*const of[4])(int, int) = {inside_of, outside_of, answered_of, panicked_of};
        for (int k = 0; k < 4; k++) {
            snprintf(name[k], sizeof name[k], "Gale's %s: %s", sides[s], what[k]);
            print_row(name[k], of[k], s);
        }
    }
}

static void print_classes(FILE *to)
{
    fputs("| smallest input | Gale's | its precondition | Gale answers | here | of 10,000 | difference |\n"
          "|---|---|---|---|---|---|---|\n", to);
    for (int k = 0; k < CLASSES; k++) {
        const struct class *c = &classes[k];
        const struct function *f = &functions[c->function];
        fputs("| `", to);
        print_call(to, f, c->smallest);
        fprintf(to, "` | %s | %s | ", c->side == DECIDE ? "decide function" : "object", c->inside ? "inside" : "outside");
        if (c->side == DECIDE)
            fprintf(to, "%c, ", c->gale);
        fprintf(to, "%s | %d | %ld | %s |\n", called(f, c->gale), (int)c->ours, c->met, c->row);
    }
}

static int passed, failed;

static void test(const char *what, const char *of, bool holds)
{
    if (!holds)
        printf("%s%s: not so\n", of, what);
    passed += holds;
    failed += !holds;
}

int main(int argc, char **argv)
{
    for (int i = 0; i < FUNCTIONS; i++)
        make_inputs(i);
    if (argc == 2 && strcmp(argv[1], "--inputs") == 0) {
        write_inputs(stdout);
        return 0;
    }
    if (argc != 3) {
        fputs("usage: border --inputs | border GALE CLASSES\n", stderr);
        return 2;
    }
    if (!read_answers(argv[1])) {
        printf("%s has no answers to these inputs\n0 passed, 1 failed\n", argv[1]);
        return 1;
    }
    for (int i = 0; i < FUNCTIONS; i++)
        for (int n = 0; n < INPUTS; n++)
            ask(i, inputs[i][n], answers[i][DECIDE][n], answers[i][OBJECT][n]);
    print_table();
    putchar('\n');
    print_classes(stdout);
    putchar('\n');
    FILE *to = fopen(argv[2], "w");
    if (!to)
        return 2;
    print_classes(to);
    fclose(to);

    for (int i = 0; i < FUNCTIONS; i++) {
        test(": ours are the answers that are promised", functions[i].name, broken[i] == 0);
        for (int s = 0; s < 2; s++)
            test(s == DECIDE ? ": each difference from Gale's decide function has a row"
                             : ": each difference from Gale's object has a row", functions[i].name, counts[i][s].unknown == 0);
    }
    for (int k = 0; k < CLASSES; k++)
        test(": this class of it was met", classes[k].row, classes[k].met > 0);
    printf("%d passed, %d failed\n", passed, failed);
    return failed > 0;
}
