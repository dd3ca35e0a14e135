/* Reactions of a Pure Esterel kernel by a worklist, in plain C: what the microstep engine is timed against.
 *
 * usage: worklist NET INSTANTS
 *
 * NET is a file that bench/worklist.py writes: one net for each cell of the kernel's table, and after these one for each
 * input and for each `suspend` (whether it lets its body go on). Each net has a gate over other nets. A net is open,
 * false or true; it is decided once in an instant, and then the gates that read it are asked. The nets that are decided
 * and whose readers are not yet asked form the worklist. It prints how many cells there are, how many were decided in
 * the last instant, and the sum of the outputs of all instants: each sum is 31 times the one before, plus the outputs.
 *
 * This program is trusted for nothing. Its sums are compared with those of the proved engine. */
#include <stdio.h>
#include <stdlib.h>
#include <string.h>

enum { OPEN, FALSE, TRUE };

/* What a gate computes. `live` is whether a statement goes on in this instant from a pause inside it; `r` is the net of
 * the innermost `suspend` around it, and -1, which is true, where there is none. */
enum kind {
    CONSTANT, /* false */
    BEGUN,    /* whether the kernel is begun in this instant */
    COPY,     /* a */
    BOTH,     /* a and b */
    BUT,      /* a and not b */
    ANY,      /* one of its operands */
    EITHER,   /* a or b */
    ENDS,     /* statement, r: r if the pause is live, else false: code 0 of a pause */
    AGAIN,    /* statement, a: a if the loop is live, else false: whether its body is begun anew */
    OUT,      /* statement, a, b: b if the loop is live, else a: code 0 of a loop */
    HELD,     /* statement, a, r, v: a; if live also r and v: code 1 of a suspend */
    RUNS,     /* statement, r, v: r and not v if live, else false */
    MOST,     /* statement or -1, r, left, right, a, b, k: code k of a parallel whose sides have codes from a, b on */
    INPUT     /* set at the beginning of the instant */
};

enum { MOST_OPERANDS = 7 };

struct gate {
    enum kind kind;
    int operands[MOST_OPERANDS];
};

struct node {
    int pauses;    /* the number of its pause, or -1 */
    int statement; /* the statement, if this is incarnation 0 of a suspend, or -1 */
    int runs;      /* and the net that says whether its body goes on */
    int code1;     /* the cell that says whether it pauses */
    int past;      /* the node after those inside it */
};

static int cells, nets, outputs, inputs, statements, nodes, pauses, instants;
static struct gate *gates;
static int *reader_from, *readers; /* readers[reader_from[n] .. reader_from[n + 1]]: the gates that read net n */
static int *wanted, *left;         /* of an ANY gate: how many operands it has, and how many are open */
static int *first, firsts;         /* gates to be asked at the beginning of an instant */
static int *parent, *pause_of;     /* of each statement: the one around it, and the number of its pause or -1 */
static int *pause_from, *pause_past; /* and the pauses inside it */
static struct node *node;
static unsigned char *value, *live, *bits, *next;
static int *work, done;
static int fresh = 1, instant_inputs;
static unsigned long long *given;

static void *room(size_t count, size_t size)
{
    void *made = calloc(count + 1, size);
    if (!made) {
        fprintf(stderr, "worklist: no memory\n");
        exit(1);
    }
    return made;
}

static int number(FILE *file)
{
    int n;
    if (fscanf(file, "%d", &n) != 1) {
        fprintf(stderr, "worklist: a number is missing\n");
        exit(1);
    }
    return n;
}

static void decide(int net, int now)
{
    value[net] = (unsigned char)now;
    work[done++] = net;
}

static int reach(int r)
{
    return r < 0 ? TRUE : value[r];
}

static int not(int a)
{
    return a == OPEN ? OPEN : a == TRUE ? FALSE : TRUE;
}

static int both(int a, int b)
{
    return a == FALSE || b == FALSE ? FALSE : a == TRUE && b == TRUE ? TRUE : OPEN;
}

static int either(int a, int b)
{
    return a == TRUE || b == TRUE ? TRUE : a == FALSE && b == FALSE ? FALSE : OPEN;
}

/* Whether a side of a parallel gives this code. One that ended in an earlier instant gives 0 where the parallel runs. */
static int side(const int *o, int statement, int from, int code)
{
    if (o[0] >= 0 && live[o[0]] && !live[statement])
        return code == 0 ? reach(o[1]) : FALSE;
    return value[from + code];
}

/* Whether a parallel gives code k: one of its sides does, and the other one no higher code. */
static int most(const int *o)
{
    int k = o[6], a = side(o, o[2], o[4], k), b = side(o, o[3], o[5], k), low_a = a, low_b = b;
    if (a == FALSE && b == FALSE)
        return FALSE;
    for (int code = 0; code < k; code++) {
        low_a = either(low_a, side(o, o[2], o[4], code));
        low_b = either(low_b, side(o, o[3], o[5], code));
    }
    return either(both(a, low_b), both(b, low_a));
}

static int asked(const struct gate *g)
{
    const int *o = g->operands;
    switch (g->kind) {
    case BEGUN: return fresh ? TRUE : FALSE;
    case COPY: return value[o[0]];
    case BOTH: return both(value[o[0]], value[o[1]]);
    case BUT: return both(value[o[0]], not(value[o[1]]));
    case EITHER: return either(value[o[0]], value[o[1]]);
    case ENDS: return live[o[0]] ? reach(o[1]) : FALSE;
    case AGAIN: return live[o[0]] ? value[o[1]] : FALSE;
    case OUT: return value[live[o[0]] ? o[2] : o[1]];
    case HELD: return live[o[0]] ? either(value[o[1]], both(reach(o[2]), value[o[3]])) : value[o[1]];
    case RUNS: return live[o[0]] ? both(reach(o[1]), not(value[o[2]])) : FALSE;
    case MOST: return most(o);
    default: return FALSE;
    }
}

static void ask(int gate)
{
    int now = asked(&gates[gate]);
    if (now != OPEN)
        decide(gate, now);
}

/* An operand of this gate was decided. */
static void tell(int gate, int now)
{
    if (value[gate] != OPEN)
        return;
    if (gates[gate].kind != ANY)
        ask(gate);
    else if (now == TRUE)
        decide(gate, TRUE);
    else if (--left[gate] == 0)
        decide(gate, FALSE);
}

static void begin_instant(unsigned long long present)
{
    memset(value, OPEN, (size_t)nets);
    memcpy(left, wanted, (size_t)nets * sizeof *left);
    done = 0;
    for (int s = 0; s < statements; s++)
        live[s] = pause_of[s] >= 0 && bits[pause_of[s]];
    for (int s = statements - 1; s > 0; s--)
        if (live[s])
            live[parent[s]] = 1;
    for (int n = 0; n < inputs; n++)
        decide(cells + n, present >> n & 1 ? TRUE : FALSE);
    for (int at = 0; at < firsts; at++)
        ask(first[at]);
}

static void run_instant(unsigned long long present)
{
    begin_instant(present);
    for (int at = 0; at < done; at++) {
        int net = work[at], now = value[net];
        for (int r = reader_from[net]; r < reader_from[net + 1]; r++)
            tell(readers[r], now);
    }
}

/* The pauses at which the kernel then stands. */
static void keep_pauses(void)
{
    memset(next, 0, (size_t)pauses);
    for (int n = 0; n < nodes;) {
        const struct node *at = &node[n];
        if (value[at->code1] != TRUE) {
            n = at->past;
        } else if (at->statement >= 0 && live[at->statement] && value[at->runs] == FALSE) {
            for (int p = pause_from[at->statement]; p < pause_past[at->statement]; p++)
                next[p] = bits[p];
            n = at->past;
        } else {
            if (at->pauses >= 0)
                next[at->pauses] = 1;
            n++;
        }
    }
    memcpy(bits, next, (size_t)pauses);
    fresh = value[node[0].code1] != TRUE;
}

static unsigned long long shown(void)
{
    unsigned long long mask = 0;
    for (int n = 0; n < outputs; n++)
        mask |= (unsigned long long)(value[n] == TRUE) << (inputs + n);
    return mask;
}

/* How many operands of a gate are nets, and the first of them. */
static int net_operands(const struct gate *g, int found[])
{
    const int *o = g->operands;
    switch (g->kind) {
    case COPY: found[0] = o[0]; return 1;
    case BOTH: case BUT: case EITHER: found[0] = o[0]; found[1] = o[1]; return 2;
    case ENDS: case AGAIN: found[0] = o[1]; return 1;
    case OUT: case RUNS: found[0] = o[1]; found[1] = o[2]; return 2;
    case HELD: found[0] = o[1]; found[1] = o[2]; found[2] = o[3]; return 3;
    default: return 0;
    }
}

/* Calls `each` for each pair of a net and a gate that reads it. */
static void for_readers(int **any, void (*each)(int net, int gate))
{
    for (int g = 0; g < nets; g++) {
        int found[3], count = net_operands(&gates[g], found);
        const int *o = gates[g].operands;
        for (int at = 0; at < count; at++)
            if (found[at] >= 0)
                each(found[at], g);
        for (int at = 0; gates[g].kind == ANY && at < wanted[g]; at++)
            each(any[g][at], g);
        if (gates[g].kind != MOST)
            continue;
        for (int code = 0; code <= o[6]; code++) {
            each(o[4] + code, g);
            each(o[5] + code, g);
        }
        if (o[1] >= 0)
            each(o[1], g);
    }
}

static void count_reader(int net, int gate)
{
    (void)gate;
    reader_from[net + 1]++;
}

static void add_reader(int net, int gate)
{
    readers[work[net]++] = gate;
}

static void list_readers(int **any)
{
    for_readers(any, count_reader);
    for (int n = 0; n < nets; n++) {
        reader_from[n + 1] += reader_from[n];
        work[n] = reader_from[n];
    }
    readers = room((size_t)reader_from[nets], sizeof *readers);
    for_readers(any, add_reader);
}

static void read_gate(FILE *file, int g, int **any)
{
    gates[g].kind = (enum kind)number(file);
    int count = number(file), *operands = gates[g].operands;
    if (gates[g].kind == ANY) {
        wanted[g] = count;
        operands = any[g] = room((size_t)count, sizeof **any);
    } else if (count > MOST_OPERANDS) {
        fprintf(stderr, "worklist: too many operands\n");
        exit(1);
    }
    for (int at = 0; at < count; at++)
        operands[at] = number(file);
    int is_first = gates[g].kind == CONSTANT || gates[g].kind == BEGUN || gates[g].kind == ENDS
        || gates[g].kind == AGAIN || gates[g].kind == RUNS || (gates[g].kind == ANY && count == 0);
    if (is_first)
        first[firsts++] = g;
}

static void make_room(void)
{
    gates = room((size_t)nets, sizeof *gates);
    reader_from = room((size_t)nets + 1, sizeof *reader_from);
    wanted = room((size_t)nets, sizeof *wanted);
    left = room((size_t)nets, sizeof *left);
    first = room((size_t)nets, sizeof *first);
    work = room((size_t)nets, sizeof *work);
    value = room((size_t)nets, 1);
    parent = room((size_t)statements, sizeof *parent);
    pause_of = room((size_t)statements, sizeof *pause_of);
    pause_from = room((size_t)statements, sizeof *pause_from);
    pause_past = room((size_t)statements, sizeof *pause_past);
    live = room((size_t)statements, 1);
    node = room((size_t)nodes, sizeof *node);
    bits = room((size_t)pauses, 1);
    next = room((size_t)pauses, 1);
}

static void read_net(FILE *file)
{
    int *const sizes[] = {&cells, &nets, &outputs, &inputs, &statements, &nodes, &pauses, &instant_inputs};
    for (size_t at = 0; at < sizeof sizes / sizeof *sizes; at++)
        *sizes[at] = number(file);
    make_room();
    int **any = room((size_t)nets, sizeof *any);
    for (int g = 0; g < nets; g++)
        read_gate(file, g, any);
    for (int s = 0; s < statements; s++) {
        parent[s] = number(file);
        pause_of[s] = number(file);
        pause_from[s] = number(file);
        pause_past[s] = number(file);
    }
    for (int n = 0; n < nodes; n++) {
        int *const fields[] = {&node[n].pauses, &node[n].statement, &node[n].runs, &node[n].code1, &node[n].past};
        for (size_t at = 0; at < sizeof fields / sizeof *fields; at++)
            *fields[at] = number(file);
    }
    given = room((size_t)instant_inputs, sizeof *given);
    for (int at = 0; at < instant_inputs; at++)
        if (fscanf(file, "%llx", &given[at]) != 1)
            given[at] = 0;
    list_readers(any);
}

static int decided_cells(void)
{
    int count = 0;
    for (int n = 0; n < cells; n++)
        count += value[n] != OPEN;
    return count;
}

int main(int count, char **words)
{
    FILE *file = count == 3 ? fopen(words[1], "r") : NULL;
    if (!file) {
        fprintf(stderr, "usage: worklist NET INSTANTS\n");
        return 1;
    }
    read_net(file);
    fclose(file);
    instants = atoi(words[2]);
    unsigned long long sum = 0;
    for (int n = 0; n < instants; n++) {
        run_instant(given[n % instant_inputs]);
        if (done != nets) {
            fprintf(stderr, "worklist: instant %d is stuck, %d of %d nets are decided\n", n + 1, done, nets);
            return 1;
        }
        sum = sum * 31 + shown();
        keep_pauses();
    }
    printf("%d %d %016llx\n", cells, decided_cells(), sum);
    return 0;
}
