/* pr_loop PROGRAM FUNCTION [ENTITIES]: runs a function of a QuakeC program file to its end, in the manner of pr_exec.c: one switch over
   the opcodes, an array of cells, a stack of frames, saved locals, and entities of zeros (none if not said). It checks nothing: no types,
   no addresses, no entities, no depths, no limit. So it is no machine to use, but a lower bound for one. Of the opcodes those are here
   that need no host. Prints the number of statements and cells 1 to 3. */

#include <math.h>
#include <stdint.h>
#include <stdio.h>
#include <stdlib.h>
#include <string.h>

enum { DEPTH = 32, SAVED = 2048, RETURNED = 1, ARGUMENTS = 4 };

enum opcode {
    DONE, MUL_F, MUL_V, MUL_FV, MUL_VF, DIV_F, ADD_F, ADD_V, SUB_F, SUB_V,
    EQ_F, EQ_V, EQ_S, EQ_E, EQ_FNC, NE_F, NE_V, NE_S, NE_E, NE_FNC, LE, GE, LT, GT,
    LOAD_F, LOAD_V, LOAD_S, LOAD_ENT, LOAD_FLD, LOAD_FNC, ADDRESS,
    STORE_F, STORE_V, STORE_S, STORE_ENT, STORE_FLD, STORE_FNC,
    STOREP_F, STOREP_V, STOREP_S, STOREP_ENT, STOREP_FLD, STOREP_FNC,
    RETURN, NOT_F, NOT_V, NOT_S, NOT_ENT, NOT_FNC, IF, IFNOT,
    CALL0, CALL1, CALL2, CALL3, CALL4, CALL5, CALL6, CALL7, CALL8,
    STATE, GOTO, AND, OR, BITAND, BITOR
};

typedef union { float f; int32_t i; } cell;
typedef struct { uint16_t op; int16_t a, b, c; } statement;
typedef struct { int32_t first, local, locals, profile, name, source, arguments; uint8_t sizes[8]; } function;
typedef struct { const statement *s; const function *f; } frame;

static const statement *statements;
static const function *functions;
static const char *strings;
static cell *globals;
static cell *entities;
static int per_entity;

static frame stack[DEPTH];
static int depth;
static cell saved_locals[SAVED];
static int saved;
static const function *current;

/* the builtins that need no host */
static float rounded(int builtin, float x)
{
    switch (builtin) {
    case 36:
        return roundf(x);
    case 37:
        return floorf(x);
    case 38:
        return ceilf(x);
    case 43:
        return fabsf(x);
    default:
        fprintf(stderr, "pr_loop: builtin %d\n", builtin);
        exit(1);
    }
}

static cell *field(const cell *entity, const cell *place)
{
    return &entities[entity->i * per_entity + place->i];
}

/* where a pointer, which counts bytes, points to */
static cell *target_of(const cell *pointer)
{
    return (cell *)((char *)entities + pointer->i);
}

static const statement *enter(const function *f, const statement *recorded)
{
    stack[depth].s = recorded;
    stack[depth].f = current;
    depth++;
    for (int i = 0; i < f->locals; i++)
        saved_locals[saved + i] = globals[f->local + i];
    saved += f->locals;
    int to = f->local;
    for (int i = 0; i < f->arguments; i++)
        for (int j = 0; j < f->sizes[i]; j++)
            globals[to++] = globals[ARGUMENTS + 3 * i + j];
    current = f;
    return &statements[f->first];
}

static const statement *leave(void)
{
    saved -= current->locals;
    for (int i = 0; i < current->locals; i++)
        globals[current->local + i] = saved_locals[saved + i];
    depth--;
    current = stack[depth].f;
    return stack[depth].s;
}

/* The number of statements, as pr_exec.c counts them against a runaway loop. */
static long run(int number)
{
    const int target = depth;
    const statement *s = enter(&functions[number], NULL);
    long count = 0;

    for (;;) {
        cell *a = &globals[s->a], *b = &globals[s->b], *c = &globals[s->c];
        count++;
        switch (s->op) {
        case ADD_F: c->f = a->f + b->f; break;
        case SUB_F: c->f = a->f - b->f; break;
        case MUL_F: c->f = a->f * b->f; break;
        case DIV_F: c->f = a->f / b->f; break;
        case ADD_V:
            c[0].f = a[0].f + b[0].f;
            c[1].f = a[1].f + b[1].f;
            c[2].f = a[2].f + b[2].f;
            break;
        case SUB_V:
            c[0].f = a[0].f - b[0].f;
            c[1].f = a[1].f - b[1].f;
            c[2].f = a[2].f - b[2].f;
            break;
        case MUL_V: c->f = a[0].f * b[0].f + a[1].f * b[1].f + a[2].f * b[2].f; break;
        case MUL_FV:
            c[0].f = a->f * b[0].f;
            c[1].f = a->f * b[1].f;
            c[2].f = a->f * b[2].f;
            break;
        case MUL_VF:
            c[0].f = b->f * a[0].f;
            c[1].f = b->f * a[1].f;
            c[2].f = b->f * a[2].f;
            break;
        case BITAND: c->f = (float)((int)a->f & (int)b->f); break;
        case BITOR: c->f = (float)((int)a->f | (int)b->f); break;
        case LE: c->f = a->f <= b->f; break;
        case GE: c->f = a->f >= b->f; break;
        case LT: c->f = a->f < b->f; break;
        case GT: c->f = a->f > b->f; break;
        case AND: c->f = a->f != 0 && b->f != 0; break;
        case OR: c->f = a->f != 0 || b->f != 0; break;
        case EQ_F: c->f = a->f == b->f; break;
        case NE_F: c->f = a->f != b->f; break;
        case EQ_V: c->f = a[0].f == b[0].f && a[1].f == b[1].f && a[2].f == b[2].f; break;
        case NE_V: c->f = a[0].f != b[0].f || a[1].f != b[1].f || a[2].f != b[2].f; break;
        case EQ_S: c->f = strcmp(strings + a->i, strings + b->i) == 0; break;
        case NE_S: c->f = strcmp(strings + a->i, strings + b->i) != 0; break;
        case EQ_E: case EQ_FNC: c->f = a->i == b->i; break;
        case NE_E: case NE_FNC: c->f = a->i != b->i; break;
        case NOT_F: c->f = a->f == 0; break;
        case NOT_V: c->f = a[0].f == 0 && a[1].f == 0 && a[2].f == 0; break;
        case NOT_S: c->f = a->i == 0 || strings[a->i] == 0; break;
        case NOT_ENT: case NOT_FNC: c->f = a->i == 0; break;
        case LOAD_F: case LOAD_S: case LOAD_ENT: case LOAD_FLD: case LOAD_FNC: *c = *field(a, b); break;
        case LOAD_V: memcpy(c, field(a, b), 3 * sizeof *c); break;
        case ADDRESS: c->i = (int32_t)((char *)field(a, b) - (char *)entities); break;
        case STOREP_F: case STOREP_S: case STOREP_ENT: case STOREP_FLD: case STOREP_FNC: *target_of(b) = *a; break;
        case STOREP_V: memcpy(target_of(b), a, 3 * sizeof *a); break;
        case STORE_F: case STORE_S: case STORE_ENT: case STORE_FLD: case STORE_FNC: b->i = a->i; break;
        case STORE_V:
            b[0] = a[0];
            b[1] = a[1];
            b[2] = a[2];
            break;
        case IF:
            if (a->f != 0) {
                s += s->b;
                continue;
            }
            break;
        case IFNOT:
            if (a->f == 0) {
                s += s->b;
                continue;
            }
            break;
        case GOTO:
            s += s->a;
            continue;
        case CALL0: case CALL1: case CALL2: case CALL3: case CALL4: case CALL5: case CALL6: case CALL7: case CALL8:
            if (functions[a->i].first < 0) {
                globals[RETURNED].f = rounded(-functions[a->i].first, globals[ARGUMENTS].f);
                break;
            }
            s = enter(&functions[a->i], s + 1);
            continue;
        case DONE: case RETURN:
            globals[RETURNED] = a[0];
            globals[RETURNED + 1] = a[1];
            globals[RETURNED + 2] = a[2];
            s = leave();
            if (depth == target)
                return count;
            continue;
        default:
            fprintf(stderr, "pr_loop: opcode %d needs a host\n", s->op);
            exit(1);
        }
        s++;
    }
}

/* With a zero byte after it, for a text that ends with the strings. */
static void *lump(const char *file, int32_t offset, int32_t count, size_t size)
{
    void *records = calloc(count * size + 1, 1);
    memcpy(records, file + offset, count * size);
    return records;
}

int main(int count, char **words)
{
    FILE *in = count == 3 || count == 4 ? fopen(words[1], "rb") : NULL;
    if (!in) {
        fprintf(stderr, "pr_loop PROGRAM FUNCTION [ENTITIES]\n");
        return 2;
    }
    static char file[1 << 20];
    int32_t header[15];
    if (fread(file, 1, sizeof file, in) < sizeof header)
        return 1;
    memcpy(header, file, sizeof header);
    statements = lump(file, header[2], header[3], sizeof(statement));
    functions = lump(file, header[8], header[9], sizeof(function));
    strings = lump(file, header[10], header[11], 1);
    globals = lump(file, header[12], header[13], sizeof(cell));
    per_entity = header[14];
    entities = calloc((count == 4 ? atoi(words[3]) : 0) * per_entity + 1, sizeof(cell));
    printf("%ld", run(atoi(words[2])));
    for (int i = 0; i < 3; i++)
        printf(",%08x", (unsigned)globals[RETURNED + i].i);
    printf("\n");
    return 0;
}
