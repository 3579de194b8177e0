/* A plain interpreter of C texts of the profile that mmc writes, to measure mmc's own runner by. It
   reads a text into trees and walks them. It takes the text for well formed, looks neither for
   overflow nor at bounds, and recurses as deep as the program does. `interpreter TEXT` writes what
   the text puts, and ends with what `main` returns. */
#include <ctype.h>
#include <stdint.h>
#include <stdio.h>
#include <stdlib.h>
#include <string.h>

typedef union { int32_t i; uint32_t u; int64_t l; char *p; } value;
enum kind { VOID, INT, UNSIGNED, LONG, POINTER, SHORT };
enum op {
    ADD, SUBTRACT, MULTIPLY, DIVIDE, REMAINDER,
    LESS, GREATER, LESS_EQUAL, GREATER_EQUAL, EQUAL, NOT_EQUAL
};
enum right { ATOM, BINARY, TO_INT, TO_UNSIGNED, LOAD, INDEX, CALL };
enum form { ASSIGN, STORE, RUN, IF, WHILE, BREAK, CONTINUE, RETURN, ZERO };
enum flow { NEXT, BROKE, CONTINUED, RETURNED };

typedef struct { int slot; value number; } atom; /* a local, or with slot -1 a number */
typedef struct function function;
typedef struct {
    char name[64];
    int is_functions, count;
    function **functions;
    int64_t *numbers;
} array;
typedef struct { function *f; array *a; int at; int count; atom *args; } call;
typedef struct stmt {
    enum form form;
    enum right right;
    enum kind kind; /* of operands, of a cell, or of a local that is zeroed */
    enum op op;
    int to, pointer, offset, tag;
    atom a, b;
    array *array;
    call *call;
    struct stmt *first, *second, *next;
} stmt;
struct function { char name[64]; int given, params, slots; stmt *body; };

static char *text, *at;
static char token[64];
static function *functions[4096];
static array *arrays[4096];
static int function_count, array_count;
static char locals[4096][64];
static enum kind kinds[4096];
static int local_count;
static long steps = 1000000000000;

static void *fresh(size_t size) { return calloc(1, size ? size : 1); }

static void advance(void) {
    int n = 0;
    while (isspace((unsigned char)*at)) at++;
    if (isalnum((unsigned char)*at) || *at == '_')
        while (isalnum((unsigned char)*at) || *at == '_') { if (n < 63) token[n++] = *at; at++; }
    else if (*at) {
        token[n++] = *at++;
        if (*at == '=' && strchr("<>=!", token[0])) token[n++] = *at++;
    }
    token[n] = 0;
}
static int is(const char *word) { return !strcmp(token, word); }
static int take(const char *word) { if (!is(word)) return 0; advance(); return 1; }
static void want(const char *word) {
    if (take(word)) return;
    fprintf(stderr, "%s wanted at byte %ld\n", word, (long)(at - text));
    exit(70);
}
static enum kind take_kind(void) {
    if (take("void")) return VOID;
    if (take("int")) return INT;
    if (take("long")) return LONG;
    if (take("char")) { want("*"); return POINTER; }
    want("unsigned");
    return take("short") ? SHORT : UNSIGNED;
}
static int is_kind(void) { return is("int") || is("unsigned") || is("long") || is("char"); }
static void take_name(char *name) { strcpy(name, token); advance(); }

static function *function_named(const char *name) {
    for (int i = 0; i < function_count; i++)
        if (!strcmp(functions[i]->name, name)) return functions[i];
    function *f = fresh(sizeof *f);
    strcpy(f->name, name);
    return functions[function_count++] = f;
}
static array *array_named(const char *name) {
    for (int i = 0; i < array_count; i++)
        if (!strcmp(arrays[i]->name, name)) return arrays[i];
    return 0;
}
static int local_named(const char *name) {
    for (int i = local_count; i-- > 0;)
        if (!strcmp(locals[i], name)) return i;
    return -1;
}
static int take_local(void) { int slot = local_named(token); advance(); return slot; }

/* an operand; tells its kind, which of a number is that of its suffix */
static atom take_atom(enum kind *kind) {
    atom a = { -1, { .l = 0 } };
    *kind = INT;
    if (take("(")) {
        want("-"); advance(); want("-"); advance(); want(")");
        a.number.l = INT32_MIN;
    } else if (isdigit((unsigned char)token[0]) || is("-")) {
        int minus = take("-");
        if (strchr(token, 'u')) *kind = UNSIGNED;
        a.number.l = strtoll(token, 0, 10) * (minus ? -1 : 1);
        advance();
    } else {
        a.slot = take_local();
        *kind = kinds[a.slot];
    }
    return a;
}
static void take_args(call *c) {
    atom args[256];
    enum kind kind;
    want("(");
    while (!is(")")) { args[c->count++] = take_atom(&kind); if (!take(",")) break; }
    want(")");
    c->args = fresh(c->count * sizeof *args);
    memcpy(c->args, args, c->count * sizeof *args);
}
/* the rest of a cell's place, behind its `*` */
static void take_cell(stmt *s) {
    want("("); s->kind = take_kind(); want("*"); want(")"); want("(");
    s->pointer = take_local();
    want("+"); s->offset = atoi(token); advance(); want(")");
}
static enum op take_op(void) {
    static const char *marks[] = { "+", "-", "*", "/", "%", "<", ">", "<=", ">=", "==", "!=" };
    for (int i = 0; i < 11; i++) if (take(marks[i])) return i;
    want("an operator");
    return ADD;
}
/* a call, or the element of an array, from its name on */
static void take_named(stmt *s, const char *name) {
    array *a = array_named(name);
    if (!a) {
        s->call = fresh(sizeof *s->call);
        s->call->f = function_named(name);
        take_args(s->call);
        s->right = CALL;
        return;
    }
    want("[");
    s->array = a;
    s->right = INDEX;
    if (take("*")) { take_cell(s); s->tag = 1; } else s->pointer = take_local();
    want("]");
    if (is("(")) {
        s->call = fresh(sizeof *s->call);
        s->call->a = a;
        s->call->at = s->pointer;
        take_args(s->call);
        s->right = CALL;
    }
}
static void take_right(stmt *s) {
    enum kind a, b;
    char name[64];
    if (take("*")) { take_cell(s); s->right = LOAD; return; }
    if (is("(")) {
        char *before = at;
        advance();
        if (is("int") || is("unsigned")) {
            s->right = is("int") ? TO_INT : TO_UNSIGNED;
            advance(); want(")");
            s->pointer = take_local();
            return;
        }
        at = before;
        strcpy(token, "(");
    }
    if (isalpha((unsigned char)token[0]) || token[0] == '_') {
        strcpy(name, token);
        if (local_named(name) < 0) { advance(); take_named(s, name); return; }
    }
    s->a = take_atom(&a);
    s->right = ATOM;
    if (is(";")) return;
    s->right = BINARY;
    s->op = take_op();
    s->b = take_atom(&b);
    s->kind = a == INT ? b : a;
}
static stmt *take_block(void);
static stmt *take_stmt(void) {
    stmt *s = fresh(sizeof *s);
    enum kind kind;
    char name[64];
    if (take("if")) {
        s->form = IF; want("("); s->a = take_atom(&kind); want(")");
        s->first = take_block();
        if (take("else")) s->second = take_block();
        return s;
    }
    if (take("while")) {
        s->form = WHILE; want("("); want("1"); want(")");
        s->first = take_block();
        return s;
    }
    if (take("break")) s->form = BREAK;
    else if (take("continue")) s->form = CONTINUE;
    else if (take("return")) { s->form = RETURN; if (!is(";")) s->a = take_atom(&kind); }
    else if (take("*")) { s->form = STORE; take_cell(s); want("="); s->a = take_atom(&kind); }
    else {
        take_name(name);
        s->to = local_named(name);
        if (take("=")) { s->form = ASSIGN; take_right(s); }
        else { s->form = RUN; take_named(s, name); }
    }
    want(";");
    return s;
}
static stmt *take_block(void) {
    stmt *first = 0, **last = &first;
    want("{");
    while (is_kind()) {
        stmt *s = fresh(sizeof *s);
        s->form = ZERO;
        kinds[local_count] = take_kind();
        s->to = local_count;
        take_name(locals[local_count++]);
        want("="); advance(); want(";");
        *last = s; last = &s->next;
    }
    while (!is("}")) { stmt *s = take_stmt(); *last = s; last = &s->next; }
    want("}");
    return first;
}
static void take_elements(array *a) {
    want("["); int count = atoi(token); advance(); want("]"); want("="); want("{");
    a->functions = fresh(count * sizeof *a->functions);
    a->numbers = fresh(count * sizeof *a->numbers);
    for (; a->count < count; a->count++, take(",")) {
        if (a->is_functions) {
            a->functions[a->count] = function_named(token);
            advance();
            continue;
        }
        int minus = take("-");
        a->numbers[a->count] = strtoll(token, 0, 10) * (minus ? -1 : 1);
        advance();
    }
    want("}"); want(";");
}
static void take_item(void) {
    char name[64];
    if (take("typedef")) { while (!take(";")) advance(); return; }
    if (take("static") && take("const")) {
        array *a = fresh(sizeof *a);
        a->is_functions = !take("long");
        if (a->is_functions) advance();
        take_name(a->name);
        take_elements(a);
        arrays[array_count++] = a;
        return;
    }
    take("inline");
    take_kind();
    take_name(name);
    function *f = function_named(name);
    local_count = 0;
    want("(");
    while (!take(")")) {
        enum kind kind = take_kind();
        if (kind == VOID) continue;
        kinds[local_count] = kind;
        take_name(locals[local_count++]);
        take(",");
    }
    f->params = local_count;
    if (take(";")) return;
    f->body = take_block();
    f->slots = local_count;
}

static value of(atom a, value *frame) { return a.slot < 0 ? a.number : frame[a.slot]; }
static int32_t compare(enum op op, int64_t x, int64_t y) {
    switch (op) {
    case LESS: return x < y;
    case GREATER: return x > y;
    case LESS_EQUAL: return x <= y;
    case GREATER_EQUAL: return x >= y;
    case EQUAL: return x == y;
    default: return x != y;
    }
}
static value operate(stmt *s, value *frame) {
    value x = of(s->a, frame), y = of(s->b, frame), r = { .l = 0 };
    if (s->kind == POINTER || s->kind == LONG) {
        if (s->op == ADD) r.l = x.l + (s->b.slot < 0 ? y.i : y.l);
        else r.i = compare(s->op, x.l, y.l);
        return r;
    }
    if (s->op >= LESS) {
        r.i = s->kind == UNSIGNED ? compare(s->op, x.u, y.u) : compare(s->op, x.i, y.i);
        return r;
    }
    if (s->kind == UNSIGNED) switch (s->op) {
        case ADD: r.u = x.u + y.u; break;
        case SUBTRACT: r.u = x.u - y.u; break;
        case MULTIPLY: r.u = x.u * y.u; break;
        case DIVIDE: r.u = x.u / y.u; break;
        default: r.u = x.u % y.u;
    } else switch (s->op) {
        case ADD: r.i = x.i + y.i; break;
        case SUBTRACT: r.i = x.i - y.i; break;
        case MULTIPLY: r.i = x.i * y.i; break;
        case DIVIDE: r.i = x.i / y.i; break;
        default: r.i = x.i % y.i;
    }
    return r;
}
static value run(call *c, value *frame);
static enum flow walk(stmt *s, value *frame, value *result);
static value right_of(stmt *s, value *frame) {
    value r = { .l = 0 };
    switch (s->right) {
    case ATOM: return of(s->a, frame);
    case BINARY: return operate(s, frame);
    case LOAD: memcpy(&r, frame[s->pointer].p + s->offset, s->kind == POINTER ? 8 : 4); return r;
    case INDEX:
        r.l = s->array->numbers[s->tag ? *(uint16_t *)(frame[s->pointer].p + s->offset)
                                       : frame[s->pointer].i];
        return r;
    case CALL: return run(s->call, frame);
    default: r.u = frame[s->pointer].u; return r;
    }
}
static void step(void) { if (!steps--) { fprintf(stderr, "steps spent\n"); exit(12); } }
static value given(function *f, value *args) {
    value r = { .l = 0 };
    switch (f->given) {
    case 1: printf("%d\n", args[0].i); break;
    case 2: if (scanf("%d", &r.i) != 1) exit(4); break;
    case 3: r.i = !feof(stdin); break;
    case 4: exit(args[0].i);
    default: r.p = fresh(args[0].u);
    }
    return r;
}
static value run(call *c, value *frame) {
    function *f = c->a ? c->a->functions[frame[c->at].i] : c->f;
    value inner[f->slots + 4], result = { .l = 0 };
    for (int i = 0; i < c->count; i++) inner[i] = of(c->args[i], frame);
    if (f->given) return given(f, inner);
    step();
    walk(f->body, inner, &result);
    return result;
}
static void store(stmt *s, value *frame) {
    value v = of(s->a, frame);
    memcpy(frame[s->pointer].p + s->offset, &v, s->kind == POINTER ? 8 : s->kind == SHORT ? 2 : 4);
}
static enum flow walk(stmt *s, value *frame, value *result) {
    for (; s; s = s->next) {
        enum flow flow = NEXT;
        switch (s->form) {
        case ZERO: frame[s->to].l = 0; break;
        case ASSIGN: frame[s->to] = right_of(s, frame); break;
        case STORE: store(s, frame); break;
        case RUN: run(s->call, frame); break;
        case IF: flow = walk(of(s->a, frame).i ? s->first : s->second, frame, result); break;
        case WHILE:
            do {
                step();
                flow = walk(s->first, frame, result);
            } while (flow == NEXT || flow == CONTINUED);
            if (flow == BROKE) flow = NEXT;
            break;
        case BREAK: return BROKE;
        case CONTINUE: return CONTINUED;
        case RETURN: *result = of(s->a, frame); return RETURNED;
        }
        if (flow != NEXT) return flow;
    }
    return NEXT;
}

int main(int argc, char **argv) {
    static const char *prelude[] = { "mm_put", "mm_get", "mm_more", "mm_trap", "mm_new" };
    FILE *file = argc > 1 ? fopen(argv[1], "rb") : 0;
    if (!file) return 2;
    fseek(file, 0, SEEK_END);
    long size = ftell(file);
    rewind(file);
    text = at = fresh(size + 1);
    if (fread(text, 1, size, file) != (size_t)size) return 2;
    for (int i = 0; i < 5; i++) function_named(prelude[i])->given = i + 1;
    advance();
    while (is("extern")) while (!take(";")) advance();
    while (token[0]) take_item();
    call c = { function_named("main"), 0, 0, 0, 0 };
    return run(&c, 0).i;
}
