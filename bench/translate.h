// The SQL of a formula: a SELECT of its columns in ascending order, or of a 1 where a sentence holds.
//
// Nots are pushed inwards, and a conjunction becomes one SELECT. Its records are the tables of the FROM; what stands for a variable is the first column that
// has it, or the other side of an equality. An or from which a variable is to get its value is a table too: the UNION of its sides. All other parts are
// conditions, with EXISTS for what they bind. So a formula has SQL here where records, equalities and ors generate its variables.
#ifndef TRANSLATE_H
#define TRANSLATE_H
#include "formula.h"
#include <stdarg.h>

enum { VARIABLES = 16 };

// What stands for a variable: a column of a table, or a number; empty as long as nothing has given it a value.
typedef struct {
    char text[12];
} Value;

// What stands for each variable, by its number.
typedef struct {
    Value *of[VARIABLES];
} Scope;

typedef struct {
    const Table *tables;
    char sql[1 << 14];
    size_t length;
    Value values[1 << 12];
    size_t value_count;
    int aliases;  // of the tables: t1, t2, ..
    bool fails;   // a variable that nothing generates
} Translation;

// A part of a conjunction, to be satisfied or denied. Where it is a table of the FROM it has an alias.
typedef struct {
    const Formula *formula;
    bool denied;
    Scope scope;
    int alias;
} Part;

typedef struct {
    Part parts[NODES];
    int count;
} Conjunction;

static void put_text(Translation *t, const char *format, ...) {
    va_list arguments;
    va_start(arguments, format);
    t->length += (size_t)vsnprintf(t->sql + t->length, sizeof t->sql - t->length, format, arguments);
    va_end(arguments);
    if (t->length >= sizeof t->sql) die("too long", "SQL");
}

static Value *new_value(Translation *t) {
    if (t->value_count == sizeof t->values / sizeof t->values[0]) die("too many values", "SQL");
    Value *value = &t->values[t->value_count++];
    value->text[0] = 0;
    return value;
}

// The scope with values of its own for the variables that have none yet.
static Scope renewed(Translation *t, Scope scope) {
    for (int x = 0; x < VARIABLES; x++)
        if (!scope.of[x] || !scope.of[x]->text[0]) scope.of[x] = new_value(t);
    return scope;
}

static Value *value_of(Translation *t, const Scope *scope, Term term) {
    if (!term.constant) return scope->of[term.number];
    Value *value = new_value(t);
    snprintf(value->text, sizeof value->text, "%u", term.number);
    return value;
}

static bool lacks_value(const Formula *f, const Scope *scope) {
    for (uint32_t x = 0; x < VARIABLES; x++)
        if (is_free(f, x) && !scope->of[x]->text[0]) return true;
    return false;
}

// Whether a part asks for one of two, once the nots are pushed inwards.
static bool is_either(const Formula *f, bool denied) { return f->kind == (denied ? AND : OR); }

// The parts of a formula that is to be satisfied, or denied.
static void gather(Translation *t, Conjunction *c, const Formula *f, bool denied, Scope scope) {
    if (f->kind == NOT) {
        gather(t, c, f->left, !denied, scope);
    } else if (f->kind == (denied ? OR : AND)) {
        gather(t, c, f->left, denied, scope);
        gather(t, c, f->right, denied, scope);
    } else if (f->kind == EXISTS && !denied) {
        scope.of[f->variable] = new_value(t);
        gather(t, c, f->left, denied, scope);
    } else {
        c->parts[c->count++] = (Part){f, denied, scope, 0};
    }
}

// A column of a part that is a table: a record's by the term's place, an or's by the variable's number.
static Value column_of(const Translation *t, const Part *p, int column) {
    Value v;
    if (p->formula->kind == RECORD) snprintf(v.text, sizeof v.text, "t%d.%s", p->alias, t->tables[p->formula->relation].columns[column]);
    else snprintf(v.text, sizeof v.text, "t%d.v%d", p->alias, column);
    return v;
}

static void give(Value *value, Value given) {
    if (!value->text[0]) *value = given;
}

static void give_by_record(Translation *t, Part *p) {
    p->alias = ++t->aliases;
    for (int i = 0; i < p->formula->term_count; i++) give(value_of(t, &p->scope, p->formula->terms[i]), column_of(t, p, i));
}

static void give_by_either(Translation *t, Part *p) {
    p->alias = ++t->aliases;
    for (uint32_t x = 0; x < VARIABLES; x++)
        if (is_free(p->formula, x)) give(p->scope.of[x], column_of(t, p, (int)x));
}

// Whether an equality gave one of its sides the value of the other.
static bool give_by_equality(Translation *t, Part *p) {
    Value *a = value_of(t, &p->scope, p->formula->terms[0]), *b = value_of(t, &p->scope, p->formula->terms[1]);
    if (!a->text[0] == !b->text[0]) return false;
    give(a, *b);
    give(b, *a);
    return true;
}

// Values for the variables of a conjunction: by its records; then by equalities; and where these give none, by an or.
static void give_values(Translation *t, Conjunction *c) {
    for (int i = 0; i < c->count; i++)
        if (c->parts[i].formula->kind == RECORD && !c->parts[i].denied) give_by_record(t, &c->parts[i]);
    for (bool given = true; given;) {
        given = false;
        for (int i = 0; i < c->count; i++)
            if (c->parts[i].formula->kind == EQUALITY && !c->parts[i].denied) given |= give_by_equality(t, &c->parts[i]);
        for (int i = 0; i < c->count && !given; i++) {
            Part *p = &c->parts[i];
            if (!is_either(p->formula, p->denied) || p->alias || !lacks_value(p->formula, &p->scope)) continue;
            give_by_either(t, p);
            given = true;
        }
    }
}

// A formula as a conjunction whose variables have values, as far as its parts give them.
static Conjunction conjunction_of(Translation *t, const Formula *f, bool denied, Scope scope) {
    Conjunction c = {.count = 0};
    gather(t, &c, f, denied, scope);
    give_values(t, &c);
    return c;
}

static void put_rows(Translation *t, const Formula *f, bool denied, const uint32_t *columns, int count);
static void put_condition(Translation *t, const Formula *f, bool denied, Scope scope);

static void put_value(Translation *t, Value v) {
    t->fails |= !v.text[0];
    put_text(t, "%s", v.text);
}

static int free_variables(const Formula *f, uint32_t *columns) {
    int count = 0;
    for (uint32_t x = 0; x < VARIABLES; x++)
        if (is_free(f, x)) columns[count++] = x;
    return count;
}

static void put_tables(Translation *t, const Conjunction *c) {
    const char *before = " FROM ";
    for (int i = 0; i < c->count; i++) {
        const Part *p = &c->parts[i];
        if (!p->alias) continue;
        put_text(t, "%s", before);
        before = ", ";
        if (p->formula->kind == RECORD) {
            put_text(t, "%s t%d", t->tables[p->formula->relation].name, p->alias);
        } else {
            uint32_t columns[VARIABLES];
            put_text(t, "(");
            put_rows(t, p->formula, p->denied, columns, free_variables(p->formula, columns));
            put_text(t, ") t%d", p->alias);
        }
    }
}

// Two values that are to be equal, unless they are one.
static void put_equal(Translation *t, const char **before, Value a, Value b) {
    if (a.text[0] && strcmp(a.text, b.text) == 0) return;
    put_text(t, "%s", *before);
    *before = " AND ";
    put_value(t, a);
    put_text(t, " = ");
    put_value(t, b);
}

// The equalities of a part: of a table's columns with what stands for the variables, or its own.
static void put_equalities(Translation *t, const char **before, const Part *p) {
    const Formula *f = p->formula;
    if (f->kind == EQUALITY) {
        put_equal(t, before, *value_of(t, &p->scope, f->terms[0]), *value_of(t, &p->scope, f->terms[1]));
    } else if (f->kind == RECORD) {
        for (int i = 0; i < f->term_count; i++) put_equal(t, before, column_of(t, p, i), *value_of(t, &p->scope, f->terms[i]));
    } else {
        for (uint32_t x = 0; x < VARIABLES; x++)
            if (is_free(f, x)) put_equal(t, before, column_of(t, p, (int)x), *p->scope.of[x]);
    }
}

// Whether a part is neither a table nor an equality to be satisfied, and so has a SELECT of its own.
static bool is_nested(const Part *p) { return !p->alias && (p->denied || p->formula->kind != EQUALITY); }

// The conditions of a conjunction whose variables have their values. Those with a SELECT of their own come first: SQLite's parser then has least on its stack.
static void put_conditions(Translation *t, const Conjunction *c) {
    const char *before = " WHERE ";
    for (int i = 0; i < c->count; i++) {
        if (!is_nested(&c->parts[i])) continue;
        put_text(t, "%s", before);
        before = " AND ";
        put_condition(t, c->parts[i].formula, c->parts[i].denied, c->parts[i].scope);
    }
    for (int i = 0; i < c->count; i++)
        if (!is_nested(&c->parts[i])) put_equalities(t, &before, &c->parts[i]);
}

// Whether a part holds, for some values of its variables that have none.
static void put_condition(Translation *t, const Formula *f, bool denied, Scope scope) {
    if (f->kind == NOT) {
        put_condition(t, f->left, !denied, scope);
    } else if (is_either(f, denied)) {
        put_text(t, "(");
        put_condition(t, f->left, denied, renewed(t, scope));
        put_text(t, " OR ");
        put_condition(t, f->right, denied, renewed(t, scope));
        put_text(t, ")");
    } else if (f->kind == EXISTS && !denied) {
        scope.of[f->variable] = new_value(t);
        put_condition(t, f->left, denied, scope);
    } else if (denied && f->kind != OR) {  // a record, an equality or an exists
        t->fails |= lacks_value(f, &scope);
        put_text(t, "NOT ");
        put_condition(t, f, false, scope);
    } else {
        Conjunction c = conjunction_of(t, f, denied, scope);
        put_text(t, "EXISTS (SELECT 1");
        put_tables(t, &c);
        put_conditions(t, &c);
        put_text(t, ")");
    }
}

// The rows of a formula, in these columns.
static void put_rows(Translation *t, const Formula *f, bool denied, const uint32_t *columns, int count) {
    if (is_either(f, denied)) {
        put_rows(t, f->left, denied, columns, count);
        put_text(t, " UNION ");
        put_rows(t, f->right, denied, columns, count);
        return;
    }
    Scope scope = renewed(t, (Scope){{NULL}});
    Conjunction c = conjunction_of(t, f, denied, scope);
    put_text(t, "SELECT DISTINCT ");
    for (int i = 0; i < count; i++) {
        put_text(t, i ? ", " : "");
        put_value(t, *scope.of[columns[i]]);
        put_text(t, " AS v%u", columns[i]);
    }
    put_tables(t, &c);
    put_conditions(t, &c);
}

// A row where a sentence holds.
static void put_sentence(Translation *t, const Formula *f) {
    Conjunction c = conjunction_of(t, f, false, renewed(t, (Scope){{NULL}}));
    put_text(t, "SELECT 1");
    put_tables(t, &c);
    put_conditions(t, &c);
    put_text(t, " LIMIT 1");
}

// The SQL of a formula, as long as the next one isn't asked for; NULL where it has none.
static const char *sql_of(const Formula *f, const Table *tables) {
    static Translation t;
    uint32_t columns[VARIABLES];
    int count = free_variables(f, columns);
    t.tables = tables;
    t.length = t.value_count = 0;
    t.aliases = 0;
    t.fails = false;
    if (count == 0) put_sentence(&t, f);
    else put_rows(&t, f, false, columns, count);
    for (int i = 0; i < count; i++) put_text(&t, "%s%d", i ? ", " : " ORDER BY ", i + 1);
    return t.fails ? NULL : t.sql;
}
#endif
