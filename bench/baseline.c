/* The baseline in C: runs the SQL statements of the requests to `land` on a register's file with libsqlite3, and prints their time.

       cc -O2 -Wall -Wextra -o baseline bench/baseline.c -lsqlite3
       baseline FILE JOURNAL       (JOURNAL is delete, which is fastest for reads, wal, which is fastest for writes, or marked)

   With marked the journal is wal, and each commit is marked as `land` marks it: after the commit and its sync, one byte of the log is
   written and synced, so that each commit syncs twice. The byte is one that the log has, so the log stays valid.

   It reads lines of words separated by tabs (texts.py writes them). The last three commands print a result:

       sql NAME STATEMENT          defines an SQL statement, which is prepared once
       plan NAME NEW               starts the plan of a request; NEW is the number of object numbers that it allocates, 0 for a read
       run SQL CELL..              a step of the plan: runs a statement with these parameters
       each OTHER SQL CELL..       a step of the plan: runs a statement once for each row of the last result of another; consecutive lines
                                   with the same OTHER are run together, all for its first row, then all for its second
       read PLAN SECONDS VALUE..   runs a read repeatedly, at least three times: median nanoseconds, statements and rows of a run
       act PLAN VALUE..            runs an act in one transaction: nanoseconds, CPU nanoseconds, the first new number
       show PLAN VALUE..           runs a read or an act, and prints each statement with its parameters on a line, then an empty line

   A cell is a number; =TEXT; - for NULL; $N for the Nth value; now, the current time; stamp, a time after the last commit; next+N, a new
   number; or SQL.COLUMN, a column of the last result of another statement: of the row for which this one is run, otherwise of the first
   row. All rows are read, with all their columns. A text column is copied only if a later cell refers to its result. */
#define _GNU_SOURCE
#include <fcntl.h>
#include <sqlite3.h>
#include <stdarg.h>
#include <stdio.h>
#include <stdlib.h>
#include <string.h>
#include <time.h>
#include <unistd.h>

enum { MOST_STATEMENTS = 128, MOST_PLANS = 64, MOST_STEPS = 32, MOST_CELLS = 16, MOST_STORED = 1 << 15, MOST_BYTES = 1 << 20 };
enum { MOST_RUNS = 1 << 17 };

enum kind { NUMBER, WORDS, NOTHING, GIVEN, NOW, STAMP, NEW, COLUMN };

/* A parameter, or a value of a row. `number` is the number, the index of a given value, the offset from the next number, or the column of
   the result of `step`. */
struct cell {
    enum kind kind;
    sqlite3_int64 number;
    const char *words;
    int length, step;
};

struct statement {
    const char *name;
    sqlite3_stmt *handle;
};

/* A step of a plan. `each` is the step for whose rows it is run, or -1. If `is_stored`, its result is `rows` rows from `first` on. */
struct step {
    struct statement *statement;
    struct cell cells[MOST_CELLS];
    int count, each, is_stored, columns;
    size_t first, rows;
};

struct plan {
    const char *name;
    struct step steps[MOST_STEPS];
    int count, made;
};

static sqlite3 *base;
static struct statement statements[MOST_STATEMENTS];
static struct plan plans[MOST_PLANS];
static int statement_count, plan_count, given_count, is_shown;
static struct cell given[MOST_CELLS], stored[MOST_STORED];
static char bytes[MOST_BYTES];
static size_t stored_count, byte_count, run_statements, run_rows;
static sqlite3_int64 last, next, moment;
static sqlite3_stmt *begin, *commit;
/* The log as a file of its own, if commits are marked; otherwise -1. */
static int marked = -1;

__attribute__((noreturn, format(printf, 1, 2))) static void stop(const char *format, ...)
{
    va_list words;
    va_start(words, format);
    fputs("baseline: ", stderr);
    vfprintf(stderr, format, words);
    fputc('\n', stderr);
    va_end(words);
    exit(1);
}

static void check(int condition, const char *error)
{
    if (!condition)
        stop("%s", error);
}

/* Checks that a call of sqlite has succeeded. */
static void check_sqlite(int condition, const char *call)
{
    if (!condition)
        stop("%s: %s", call, sqlite3_errmsg(base));
}

static sqlite3_int64 nanoseconds(clockid_t clock)
{
    struct timespec it;
    clock_gettime(clock, &it);
    return it.tv_sec * 1000000000LL + it.tv_nsec;
}

static sqlite3_int64 later(sqlite3_int64 least)
{
    sqlite3_int64 now = nanoseconds(CLOCK_REALTIME) / 1000000;
    return now < least ? least : now;
}

/* ---- statements and plans */

static sqlite3_stmt *prepared(const char *words)
{
    sqlite3_stmt *it = NULL;
    check_sqlite(sqlite3_prepare_v3(base, words, -1, SQLITE_PREPARE_PERSISTENT, &it, NULL) == SQLITE_OK, words);
    return it;
}

static char *copy(const char *words)
{
    char *it = strdup(words);
    check(it != NULL, "out of memory");
    return it;
}

static struct statement *statement_of(const char *name)
{
    for (int it = 0; it < statement_count; it++)
        if (strcmp(statements[it].name, name) == 0)
            return &statements[it];
    stop("there is no statement %s", name);
}

static struct plan *plan_of(const char *name)
{
    for (int it = 0; it < plan_count; it++)
        if (strcmp(plans[it].name, name) == 0)
            return &plans[it];
    stop("there is no plan %s", name);
}

static void add_statement(const char *name, const char *words)
{
    check(statement_count < MOST_STATEMENTS, "too many statements");
    statements[statement_count++] = (struct statement){copy(name), prepared(words)};
}

static void add_plan(const char *name, const char *made)
{
    check(plan_count < MOST_PLANS, "too many plans");
    plans[plan_count++] = (struct plan){.name = copy(name), .made = atoi(made)};
}

/* Returns the last step of a plan that runs a statement, and marks its result to be stored. */
static int step_of(struct plan *plan, const char *name)
{
    struct statement *statement = statement_of(name);
    for (int it = plan->count - 1; it >= 0; it--)
        if (plan->steps[it].statement == statement) {
            plan->steps[it].is_stored = 1;
            return it;
        }
    stop("no earlier step runs %s", name);
}

static int column_of(sqlite3_stmt *it, const char *name)
{
    for (int column = 0; column < sqlite3_column_count(it); column++)
        if (strcmp(sqlite3_column_name(it, column), name) == 0)
            return column;
    stop("there is no column %s in: %s", name, sqlite3_sql(it));
}

static struct cell named_column(struct plan *plan, char *word, char *dot)
{
    *dot = 0;
    int step = step_of(plan, word);
    return (struct cell){.kind = COLUMN, .step = step, .number = column_of(plan->steps[step].statement->handle, dot + 1)};
}

/* Parses a value. A text refers to the bytes of the word. */
static struct cell value_of(char *word)
{
    if (word[0] == '=')
        return (struct cell){.kind = WORDS, .words = word + 1, .length = (int)strlen(word + 1)};
    if (strcmp(word, "-") == 0)
        return (struct cell){.kind = NOTHING};
    return (struct cell){.kind = NUMBER, .number = atoll(word)};
}

static struct cell cell_of(struct plan *plan, char *word)
{
    char *dot = strrchr(word, '.');
    if (word[0] == '$')
        return (struct cell){.kind = GIVEN, .number = atoll(word + 1) - 1};
    if (strcmp(word, "now") == 0)
        return (struct cell){.kind = NOW};
    if (strcmp(word, "stamp") == 0)
        return (struct cell){.kind = STAMP};
    if (strncmp(word, "next+", 5) == 0)
        return (struct cell){.kind = NEW, .number = atoll(word + 5)};
    if (word[0] != '=' && dot)
        return named_column(plan, word, dot);
    struct cell cell = value_of(word);
    if (cell.kind == WORDS)
        cell.words = copy(cell.words);
    return cell;
}

static void add_step(char *other, char *name, char **words, int count)
{
    check(plan_count > 0, "a step before the first plan");
    struct plan *plan = &plans[plan_count - 1];
    check(plan->count < MOST_STEPS && count <= MOST_CELLS, "the plan is too long");
    struct step *step = &plan->steps[plan->count];
    *step = (struct step){.statement = statement_of(name), .count = count, .each = other ? step_of(plan, other) : -1};
    step->columns = sqlite3_column_count(step->statement->handle);
    for (int it = 0; it < count; it++)
        step->cells[it] = cell_of(plan, words[it]);
    plan->count++;
}

/* ---- running */

/* Returns the value of a cell when its step is run for a row. */
static struct cell value_in(struct plan *plan, struct step *step, struct cell cell, size_t row)
{
    if (cell.kind == GIVEN) {
        check(cell.number < given_count, "too few values");
        return given[cell.number];
    }
    if (cell.kind == NOW || cell.kind == STAMP)
        return (struct cell){.kind = NUMBER, .number = moment};
    if (cell.kind == NEW)
        return (struct cell){.kind = NUMBER, .number = next + cell.number};
    if (cell.kind != COLUMN)
        return cell;
    struct step *from = &plan->steps[cell.step];
    size_t place = cell.step == step->each ? row : 0;
    check(place < from->rows, "the result has no such row");
    return stored[from->first + place * (size_t)from->columns + (size_t)cell.number];
}

static void show(struct cell cell)
{
    if (cell.kind == NUMBER)
        printf("\t%lld", cell.number);
    else if (cell.kind == WORDS)
        printf("\t=%.*s", cell.length, cell.words);
    else
        printf("\t-");
}

static void bind(sqlite3_stmt *it, int place, struct cell cell)
{
    int code;
    if (cell.kind == NUMBER)
        code = sqlite3_bind_int64(it, place, cell.number);
    else if (cell.kind == WORDS)
        code = sqlite3_bind_text(it, place, cell.words, cell.length, SQLITE_STATIC);
    else
        code = sqlite3_bind_null(it, place);
    check_sqlite(code == SQLITE_OK, sqlite3_sql(it));
}

static void bind_all(struct plan *plan, struct step *step, size_t row)
{
    for (int it = 0; it < step->count; it++) {
        struct cell cell = value_in(plan, step, step->cells[it], row);
        bind(step->statement->handle, it + 1, cell);
        if (is_shown)
            show(cell);
    }
}

static const char *copy_bytes(const unsigned char *words, int length)
{
    check(byte_count + (size_t)length <= MOST_BYTES, "too many bytes of text");
    char *it = memcpy(bytes + byte_count, words, (size_t)length);
    byte_count += (size_t)length;
    return it;
}

static struct cell read_column(sqlite3_stmt *it, int column, int is_stored)
{
    int type = sqlite3_column_type(it, column);
    if (type == SQLITE_INTEGER)
        return (struct cell){.kind = NUMBER, .number = sqlite3_column_int64(it, column)};
    if (type == SQLITE_NULL)
        return (struct cell){.kind = NOTHING};
    const unsigned char *words = sqlite3_column_text(it, column);
    int length = sqlite3_column_bytes(it, column);
    return (struct cell){.kind = WORDS, .words = is_stored ? copy_bytes(words, length) : NULL, .length = length};
}

static void read_row(struct step *step)
{
    for (int column = 0; column < step->columns; column++) {
        struct cell cell = read_column(step->statement->handle, column, step->is_stored);
        if (step->is_stored) {
            check(stored_count < MOST_STORED, "too many rows");
            stored[stored_count++] = cell;
        }
    }
    step->rows++;
}

static void run_step(struct plan *plan, struct step *step, size_t row)
{
    sqlite3_stmt *it = step->statement->handle;
    int code;
    if (is_shown)
        fputs(step->statement->name, stdout);
    bind_all(plan, step, row);
    if (is_shown)
        putchar('\n');
    while ((code = sqlite3_step(it)) == SQLITE_ROW)
        read_row(step);
    check_sqlite(code == SQLITE_DONE, sqlite3_sql(it));
    sqlite3_reset(it);
    run_statements++;
}

/* Returns the end of the steps that are run together with one: the following ones for the rows of the same step. */
static int end_of(struct plan *plan, int first)
{
    int each = plan->steps[first].each, end = first + 1;
    while (each >= 0 && end < plan->count && plan->steps[end].each == each)
        end++;
    return end;
}

/* Runs steps together. The rows of several steps would be interleaved, so they cannot be stored. */
static void run_together(struct plan *plan, int first, int end)
{
    int each = plan->steps[first].each;
    size_t times = each < 0 ? 1 : plan->steps[each].rows;
    for (int it = first; it < end; it++) {
        check(end - first == 1 || !plan->steps[it].is_stored, "the rows of steps that are run together cannot be stored");
        plan->steps[it].first = stored_count;
        plan->steps[it].rows = 0;
    }
    for (size_t row = 0; row < times; row++)
        for (int it = first; it < end; it++)
            run_step(plan, &plan->steps[it], row);
    for (int it = first; it < end; it++)
        run_rows += plan->steps[it].rows;
}

static void run_steps(struct plan *plan)
{
    stored_count = byte_count = run_statements = run_rows = 0;
    for (int it = 0, end; it < plan->count; it = end) {
        end = end_of(plan, it);
        run_together(plan, it, end);
    }
}

static void run_once(sqlite3_stmt *it)
{
    check_sqlite(sqlite3_step(it) == SQLITE_DONE, sqlite3_sql(it));
    sqlite3_reset(it);
}

static void run_read(struct plan *plan)
{
    moment = later(last);
    run_steps(plan);
}

/* Writes a byte of the log once more, and syncs. */
static void mark_commit(void)
{
    char byte;
    check(pread(marked, &byte, 1, 0) == 1 && pwrite(marked, &byte, 1, 0) == 1, "the log cannot be written");
    check(fdatasync(marked) == 0, "the log cannot be synced");
}

static void run_act(struct plan *plan)
{
    moment = later(last + 1);
    run_once(begin);
    run_steps(plan);
    run_once(commit);
    if (marked >= 0)
        mark_commit();
    last = moment;
    next += plan->made;
}

/* ---- commands */

static void give(char **words, int count)
{
    check(count <= MOST_CELLS, "too many values");
    given_count = count;
    for (int it = 0; it < count; it++)
        given[it] = value_of(words[it]);
}

static int compare(const void *one, const void *other)
{
    sqlite3_int64 a = *(const sqlite3_int64 *)one, b = *(const sqlite3_int64 *)other;
    return (a > b) - (a < b);
}

static void print_read(struct plan *plan, double seconds)
{
    static sqlite3_int64 times[MOST_RUNS];
    sqlite3_int64 now = nanoseconds(CLOCK_MONOTONIC), end = now + (sqlite3_int64)(seconds * 1e9);
    int count = 0;
    while (count < 3 || (now < end && count < MOST_RUNS)) {
        sqlite3_int64 before = nanoseconds(CLOCK_MONOTONIC);
        run_read(plan);
        now = nanoseconds(CLOCK_MONOTONIC);
        times[count++] = now - before;
    }
    qsort(times, (size_t)count, sizeof *times, compare);
    printf("%lld\t%zu\t%zu\n", times[count / 2], run_statements, run_rows);
}

static void print_act(struct plan *plan)
{
    sqlite3_int64 first = next, before = nanoseconds(CLOCK_MONOTONIC), spent = nanoseconds(CLOCK_PROCESS_CPUTIME_ID);
    run_act(plan);
    spent = nanoseconds(CLOCK_PROCESS_CPUTIME_ID) - spent;
    printf("%lld\t%lld\t%lld\n", nanoseconds(CLOCK_MONOTONIC) - before, spent, first);
}

static void print_steps(struct plan *plan)
{
    is_shown = 1;
    if (plan->made)
        run_act(plan);
    else
        run_read(plan);
    is_shown = 0;
    putchar('\n');
}

/* Executes a line that defines a statement or a plan. */
static void define(char **words, int count)
{
    if (strcmp(words[0], "run") == 0)
        add_step(NULL, words[1], words + 2, count - 2);
    else if (count < 3)
        stop("the line is too short");
    else if (strcmp(words[0], "sql") == 0)
        add_statement(words[1], words[2]);
    else if (strcmp(words[0], "plan") == 0)
        add_plan(words[1], words[2]);
    else if (strcmp(words[0], "each") == 0)
        add_step(words[1], words[2], words + 3, count - 3);
    else
        stop("unknown command: %s", words[0]);
}

static void execute(char **words, int count)
{
    check(count >= 2, "the line is too short");
    if (strcmp(words[0], "read") == 0) {
        check(count >= 3, "the line is too short");
        give(words + 3, count - 3);
        print_read(plan_of(words[1]), atof(words[2]));
    } else if (strcmp(words[0], "act") == 0) {
        give(words + 2, count - 2);
        print_act(plan_of(words[1]));
    } else if (strcmp(words[0], "show") == 0) {
        give(words + 2, count - 2);
        print_steps(plan_of(words[1]));
    } else
        define(words, count);
}

static void execute_line(char *line)
{
    char *words[MOST_CELLS + 4], *rest = line, *word;
    int count = 0;
    line[strcspn(line, "\n")] = 0;
    while ((word = strsep(&rest, "\t"))) {
        check(count < MOST_CELLS + 4, "the line is too long");
        words[count++] = word;
    }
    execute(words, count);
}

/* Opens the log of a file, whose commits are then marked. The first transaction makes the log. */
static void open_log(const char *file)
{
    char log[4096];
    check(snprintf(log, sizeof log, "%s-wal", file) < (int)sizeof log, "the name of the file is too long");
    check_sqlite(sqlite3_exec(base, "BEGIN IMMEDIATE; PRAGMA user_version = 0; COMMIT", NULL, NULL, NULL) == SQLITE_OK, file);
    marked = open(log, O_RDWR | O_CLOEXEC);
    check(marked >= 0, "the log cannot be opened");
}

/* Opens the file exclusively; each commit is synchronous. */
static void open_base(const char *file, const char *journal)
{
    char pragmas[128];
    int is_marked = strcmp(journal, "marked") == 0;
    snprintf(pragmas, sizeof pragmas, "PRAGMA locking_mode = exclusive; PRAGMA journal_mode = %s; PRAGMA synchronous = full",
             is_marked ? "wal" : journal);
    check(sqlite3_config(SQLITE_CONFIG_SINGLETHREAD) == SQLITE_OK && sqlite3_config(SQLITE_CONFIG_MEMSTATUS, 0) == SQLITE_OK, "sqlite3_config");
    check_sqlite(sqlite3_open_v2(file, &base, SQLITE_OPEN_READWRITE, NULL) == SQLITE_OK, file);
    check_sqlite(sqlite3_exec(base, pragmas, NULL, NULL, NULL) == SQLITE_OK, pragmas);
    if (is_marked)
        open_log(file);
    begin = prepared("BEGIN IMMEDIATE");
    commit = prepared("COMMIT");
}

static void read_last(void)
{
    sqlite3_stmt *it = prepared("SELECT stamp, next FROM moments ORDER BY stamp DESC LIMIT 1");
    check_sqlite(sqlite3_step(it) == SQLITE_ROW, "the table moments is empty");
    last = sqlite3_column_int64(it, 0);
    next = sqlite3_column_int64(it, 1);
    sqlite3_finalize(it);
}

int main(int count, char **words)
{
    char *line = NULL;
    size_t capacity = 0;
    if (count != 3 || (strcmp(words[2], "delete") != 0 && strcmp(words[2], "wal") != 0 && strcmp(words[2], "marked") != 0))
        stop("usage: baseline FILE delete|wal|marked");
    open_base(words[1], words[2]);
    read_last();
    while (getline(&line, &capacity, stdin) > 0) {
        execute_line(line);
        fflush(stdout);
    }
    for (int it = 0; it < statement_count; it++)
        sqlite3_finalize(statements[it].handle);
    sqlite3_finalize(begin);
    sqlite3_finalize(commit);
    return sqlite3_close(base) != SQLITE_OK;
}
