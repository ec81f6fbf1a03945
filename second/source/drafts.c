/* Drafts of syntax: programs with macros, loose objects, identifiers.

   Programs are first made without scopes, as a person would write them. Some
   then get scopes and bindings of their own, ambiguous ones among them. */
#include <stdio.h>
#include <string.h>

#include "chance.h"
#include "draft_parts.h"

Memory *draft_memory;
Image draft_image;

/* ---- small makers ---- */

static const ScopeSet bare[PHASES]; /* no scopes */

const Object *atom(ObjectTag tag, uint32_t content)
{
    return make_atom_object(draft_memory, (Atom){tag, content}, bare);
}

const Object *symbol(uint32_t number)
{
    return atom(SYMBOL, number);
}

const Object *primitive(uint32_t number)
{
    return atom(PRIMITIVE, number);
}

const Object *list_of(uint32_t count, const Object *const *given)
{
    const Object **parts = take_object_parts(draft_memory, count);
    for (uint32_t i = 0; i < count; i++)
        parts[i] = given[i];
    return make_list_object(draft_memory, count, parts, bare);
}

const Object *list1(const Object *a)
{
    return list_of(1, (const Object *[]){a});
}

const Object *list2(const Object *a, const Object *b)
{
    return list_of(2, (const Object *[]){a, b});
}

const Object *list3(const Object *a, const Object *b, const Object *c)
{
    return list_of(3, (const Object *[]){a, b, c});
}

const Object *list4(const Object *a, const Object *b, const Object *c, const Object *d)
{
    return list_of(4, (const Object *[]){a, b, c, d});
}

const Object *lambda_of(const Object *binder, const Object *body)
{
    return list3(symbol(LAMBDA), binder, body);
}

const Object *lambda(uint32_t word, const Object *body)
{
    return lambda_of(symbol(word), body);
}

const Object *let_syntax(uint32_t word, const Object *value, const Object *body)
{
    return list4(symbol(LET_SYNTAX), symbol(word), value, body);
}

const Object *quote(const Object *object)
{
    return list2(symbol(QUOTE), object);
}

const Object *syntax(const Object *object)
{
    return list2(symbol(SYNTAX), object);
}

/* ---- words ---- */

static const char *const pool[] = {
    "x",  "y", "z", "m",     "n",    "k",       "t",      "run", "stop", "motor-1", "fan",
    "on", "!", "~", "a0123456789-0123456789-01234567", "q{1}", "over", "lambdas", "quot",
};

static bool has_word(const char *text)
{
    for (uint32_t i = 0; i < draft_image.word_count; i++)
        if (draft_image.words[i].length == strlen(text) &&
            memcmp(draft_image.words[i].bytes, text, strlen(text)) == 0)
            return true;
    return false;
}

static uint32_t word_symbol(const char *text, size_t length)
{
    static const char *const core[] = {"lambda", "let-syntax", "quote", "syntax"};
    for (uint32_t i = 0; i < CORE_NAMES; i++)
        if (strlen(core[i]) == length && memcmp(core[i], text, length) == 0)
            return i;
    for (uint32_t i = 0; i < draft_image.word_count; i++)
        if (draft_image.words[i].length == length && memcmp(draft_image.words[i].bytes, text, length) == 0)
            return CORE_NAMES + i;
    draft_image.words[draft_image.word_count] = (Word){(const uint8_t *)text, (uint32_t)length};
    return CORE_NAMES + draft_image.word_count++;
}

static void choose_words(uint32_t count)
{
    const uint32_t many = sizeof pool / sizeof pool[0];
    for (uint32_t i = 0; i < count; i++) {
        const char *text = pool[percent(80) ? below(6) : below(many)];
        if (!has_word(text))
            word_symbol(text, strlen(text));
    }
}

uint32_t any_word(void)
{
    if (draft_image.word_count == 0 || percent(2))
        return below(CORE_NAMES);
    return CORE_NAMES + below(draft_image.word_count);
}

/* ---- notation, for the programs written by hand ---- */

/* A hole of a template stands for an argument of the macro use. */
static const uint32_t FIRST_HOLE = 4000000000U;

static bool is_hole(const Object *object)
{
    return object->tag == NUMBER && object->content - FIRST_HOLE < 10;
}

static const Object *hole(uint32_t argument)
{
    return atom(NUMBER, FIRST_HOLE + argument);
}

/* x 9 @12 #0 '0 _1 (a b): as the edge cases are written, and _1 for a hole. */
static const Object *read_notation(const char **text)
{
    while (**text == ' ')
        (*text)++;
    if (**text == '(') {
        const Object *parts[32];
        uint32_t count = 0;
        (*text)++;
        for (;;) {
            while (**text == ' ')
                (*text)++;
            if (**text == ')') {
                (*text)++;
                return list_of(count, parts);
            }
            parts[count++] = read_notation(text);
        }
    }
    const char *start = *text;
    while (**text != ' ' && **text != '(' && **text != ')' && **text != 0)
        (*text)++;
    const char *digits = *start >= '0' && *start <= '9' ? start : start + 1;
    uint32_t number = 0;
    for (const char *digit = digits; digit < *text; digit++)
        number = number * 10 + (uint32_t)(*digit - '0');
    switch (*start) {
    case '@':
        return atom(POINT, number);
    case '#':
        return atom(PRIMITIVE, number);
    case '\'':
        return atom(RUNG_WORD, number);
    case '_':
        return hole(number);
    default:
        if (digits == start)
            return atom(NUMBER, number);
        return symbol(word_symbol(start, (size_t)(*text - start)));
    }
}

const Object *notation(const char *text)
{
    return read_notation(&text);
}

/* ---- templates ---- */

static bool has_hole(const Object *object)
{
    if (is_hole(object))
        return true;
    for (uint32_t i = 0; i < object->count; i++)
        if (has_hole(object->parts[i]))
            return true;
    return false;
}

/* The text that takes an argument out of the form: (first (rest (stx-e form))). */
const Object *argument_code(uint32_t form, uint32_t argument)
{
    const Object *code = list2(primitive(0), symbol(form));
    for (uint32_t i = 0; i < argument; i++)
        code = list2(primitive(3), code);
    return list2(primitive(2), code);
}

/* The text that builds a template from the form at the phase above. */
const Object *template_code(const Object *template, uint32_t form)
{
    if (!has_hole(template))
        return syntax(template);
    if (is_hole(template))
        return argument_code(form, template->content - FIRST_HOLE);
    const Object *code = quote(list_of(0, NULL));
    for (uint32_t i = template->count; i > 0; i--)
        code = list3(primitive(4), template_code(template->parts[i - 1], form), code);
    const Object *sets_of = percent(60) ? symbol(form) : syntax(symbol(any_word()));
    return list3(primitive(1), code, sets_of);
}

/* ---- loose objects ---- */

uint32_t draft_primitives = LARGEST_PRIMITIVE + 1;

uint32_t any_primitive(void)
{
    return below(draft_primitives);
}

const Object *any_atom(void)
{
    switch (below(10)) {
    case 0:
    case 1:
        return atom(NUMBER, percent(80) ? below(4) : (uint32_t)next_chance());
    case 2:
        return atom(NUMBER, percent(50) ? 127 + below(3) : 0xffffffff - below(2));
    case 3:
    case 4:
        return atom(POINT, percent(80) ? below(30) : below(LARGEST_POINT + 1));
    case 5:
        return atom(PRIMITIVE, any_primitive());
    case 6:
        return atom(RUNG_WORD, percent(80) ? below(6) : below(LARGEST_RUNG_WORD + 1));
    default:
        return symbol(percent(15) ? below(CORE_NAMES) : any_word());
    }
}

const Object *any_object(int depth)
{
    if (depth <= 0 || percent(45))
        return any_atom();
    const Object *parts[4];
    uint32_t count = below(5);
    for (uint32_t i = 0; i < count; i++)
        parts[i] = any_object(depth - 1);
    return list_of(count, parts);
}

/* ---- programs ---- */

static uint32_t holes_allowed;

const Known *some_known(const Known *known, bool is_macro)
{
    const Known *chosen = NULL;
    uint32_t met = 0;
    for (; known != NULL; known = known->outer)
        if (known->is_macro == is_macro && below(++met) == 0)
            chosen = known;
    return chosen;
}

static const Object *leaf(const Known *known)
{
    if (holes_allowed > 0 && percent(40))
        return hole(between(1, holes_allowed));
    const Known *variable = some_known(known, false);
    if (variable != NULL && percent(75))
        return symbol(variable->word);
    if (percent(8))
        return symbol(any_word());
    if (percent(85))
        return atom(percent(50) ? NUMBER : POINT, below(20));
    return any_atom();
}

const Object *template_of(int depth, const Known *known, uint32_t holes)
{
    uint32_t before = holes_allowed;
    holes_allowed = holes;
    const Object *template = some_program(depth, known);
    holes_allowed = before;
    return template;
}

static const Object *without_holes(int depth, const Known *known)
{
    return template_of(depth, known, 0);
}

static const Object *loop_code(void)
{
    return notation(percent(70) ? "((lambda f (f f)) (lambda f (f f)))"
                                : "((lambda f ((f f) 1)) (lambda f (f f)))");
}

/* The right-hand side of a macro. Templates are made with the words known
   where the macro is used; the code itself knows nothing but core forms. */
const Object *right_hand_side(int depth, const Known *known)
{
    uint32_t form = any_word();
    switch (below(20)) {
    case 0:
    case 1:
    case 2:
    case 3:
    case 4:
        return lambda(form, syntax(without_holes(depth - 1, known)));
    case 5:
        return lambda(form, argument_code(form, between(0, 2)));
    case 6:
    case 7:
    case 8:
    case 9:
    case 10:
        return lambda(form, template_code(template_of(depth - 1, known, 2), form));
    case 11:
        return lambda(form, symbol(form));
    case 12:
        return any_atom();
    case 13:
    case 14: { /* a macro at the phase above makes the code */
        uint32_t inner = any_word();
        const Object *code = syntax(without_holes(depth - 2, known));
        return let_syntax(inner, lambda(any_word(), syntax(code)),
                          lambda(form, list1(symbol(inner))));
    }
    case 15: /* the use decides by an atom */
        return lambda(form, list4(primitive(6),
                                  list3(primitive(5), list2(primitive(0), argument_code(form, 1)),
                                        any_atom()),
                                  template_code(template_of(depth - 2, known, 2), form),
                                  syntax(without_holes(depth - 2, known))));
    case 16:
        return lambda(form, any_atom());
    case 17: /* a use that goes round until scopes run out, or stops */
        return lambda(form, list3(primitive(1), list2(primitive(0), symbol(form)),
                                  percent(50) ? symbol(form) : syntax(any_atom())));
    case 18:
        return percent(30) ? loop_code() : lambda(form, some_program(depth - 2, NULL));
    default:
        return without_holes(depth - 1, NULL);
    }
}

const Object *macro_use(int depth, const Known *known, uint32_t word)
{
    const Object *parts[4] = {symbol(word)};
    uint32_t count = 1 + between(percent(80) ? 2 : 0, 3);
    if (percent(20))
        count = 1;
    for (uint32_t i = 1; i < count; i++)
        parts[i] = some_program(depth - 2, known);
    return list_of(count, parts);
}

static const Object *odd_form(int depth, const Known *known)
{
    switch (below(8)) {
    case 0:
        return list_of(0, NULL);
    case 1:
        return symbol(below(CORE_NAMES));
    case 2:
        return list2(symbol(LAMBDA), symbol(any_word()));
    case 3:
        return list3(symbol(LAMBDA), list1(symbol(any_word())), some_program(depth - 1, known));
    case 4:
        return list3(symbol(LET_SYNTAX), symbol(any_word()), some_program(depth - 1, known));
    case 5:
        return percent(50) ? list1(symbol(QUOTE)) : list1(symbol(SYNTAX));
    case 6:
        return list3(symbol(percent(50) ? QUOTE : SYNTAX), any_atom(), any_atom());
    default:
        return any_object(2);
    }
}

/* A let-syntax whose macro is known in its body. */
static const Object *definition(int depth, const Known *known)
{
    Known defined = {.word = percent(6) ? below(CORE_NAMES) : any_word(),
                     .is_macro = true,
                     .outer = known};
    const Object *value = right_hand_side(depth, known);
    return let_syntax(defined.word, value, some_program(depth - 1, &defined));
}

const Object *some_program(int depth, const Known *known)
{
    if (depth <= 0)
        return leaf(known);
    const Known *macro = some_known(known, true);
    if (macro != NULL && percent(40))
        return macro_use(depth, known, macro->word);
    uint32_t choice = below(100);
    if (choice < 22) {
        Known variable = {.word = percent(6) ? below(CORE_NAMES) : any_word(), .outer = known};
        return lambda(variable.word, some_program(depth - 1, &variable));
    }
    if (choice < 52)
        return definition(depth, known);
    if (choice < 70) {
        const Object *parts[3];
        uint32_t count = between(1, 3);
        for (uint32_t i = 0; i < count; i++)
            parts[i] = some_program(depth - 1 - (int)below(2), known);
        return list_of(count, parts);
    }
    if (choice < 80)
        return list3(atom(RUNG_WORD, below(6)), some_program(depth - 2, known),
                     some_program(depth - 2, known));
    if (choice < 86)
        return syntax(percent(50) ? any_object(2) : some_program(depth - 2, known));
    if (choice < 90)
        return quote(any_object(2));
    if (choice < 93)
        return odd_form(depth, known);
    return leaf(known);
}

/* ---- programs of the panel ---- */

typedef struct {
    const char *template; /* of the macro m, with holes for its arguments */
    const char *use;
} PanelProgram;

static const PanelProgram panel[] = {
    /* start-stop: the output holds itself until stop */
    {"('3 _3 ('0 ('2 _2) ('1 _1 _3)))", "(m @10 @11 @20)"},
    {"('3 _3 ('0 ('2 _2) ('1 _1 _3)))", "(lambda start (lambda stop (m start stop @20)))"},
    /* interlock: one output only while the other is off */
    {"('5 ('3 _1 ('0 _2 ('2 _3))) ('3 _3 ('0 _2 ('2 _1))))", "(m @1 @2 @3)"},
    {"('5 ('3 _1 ('2 _2)) ('3 _2 ('2 _1)))", "(lambda left (lambda right (m left right)))"},
    /* fan with overrun: the fan's own word run must not take the user's */
    {"((lambda run ('3 _1 ('1 run ('4 _2 run)))) _3)", "(lambda run (m @4 @5 run))"},
    {"((lambda run ('3 _1 ('1 run _2))) _1)", "(lambda run (m run run))"},
    /* a hidden word and the user's word of the same spelling */
    {"((lambda t ('1 t _1)) _2)", "(lambda t (m t @2))"},
    {"((lambda t ('1 t _1)) _2)", "((lambda t (m t (m t t))) @3)"},
    {"(lambda x (_1 x))", "(lambda x (m x))"},
    {"(lambda x (lambda x _1))", "(lambda x (m x))"},
    {"(lambda _1 (_1 _2))", "(m x x)"},
    {"(lambda _1 x)", "(lambda x (m x))"},
    {"(lambda _1 _2)", "(m lambda lambda)"},
    {"((lambda lambda lambda) _1)", "(lambda lambda (m lambda))"},
    /* macros that make macros */
    {"(let-syntax n (lambda g (syntax _1)) (n))", "(lambda x (m x))"},
    {"(let-syntax n (lambda g (syntax (lambda x _1))) (n))", "(lambda x (m x))"},
    {"(let-syntax _1 (lambda g (syntax _2)) (_1))", "(lambda x (m n x))"},
    {"(let-syntax _1 (lambda g (syntax @7)) _2)", "(m n (n))"},
    {"(let-syntax n (lambda g (syntax (quote g))) (_1 (n)))", "(lambda x (m x))"},
    {"(let-syntax m (lambda z (#2 (#3 (#0 z)))) (m _1))", "(lambda z (m z))"},
    {"(let-syntax x (let-syntax y (lambda a (syntax (lambda b (syntax _1)))) (y)) (x))",
     "(lambda x (m x))"},
    {"(let-syntax n (let-syntax n (lambda n (syntax (syntax (lambda n n)))) (lambda n (n))) (n))",
     "(m x)"},
    {"(syntax _1)", "(lambda x (m x))"},
    {"(quote _1)", "(lambda x (m x))"},
    {"(_1 (syntax x) (quote x) x)", "(lambda x (m x))"},
    {"(lambda x (syntax _1))", "(lambda x (m (x x)))"},
    /* syntax as an argument, which loses the scope of the use */
    {"_1", "(m (syntax x))"},
    {"(_1 (lambda x _2))", "(m (syntax x) (syntax (x y)))"},
    {"(lambda x (_1 _2))", "(lambda x (m (syntax x) (m x (syntax x))))"},
    {"(let-syntax n (lambda g (syntax _1)) (_1 (n)))", "(lambda x (m (syntax x)))"},
    /* bits with their start values, as the panel's compiler takes them */
    {"((lambda run ('5 ('4 run ('1 run _1)) ('3 _2 run))) 0)", "(m @4 @5)"},
    {"((lambda run ('5 ('4 run ('1 run _1)) ('3 _2 run))) 0)",
     "((lambda run ('5 ('4 run @9) (m run @5))) 1)"},
    {"((lambda run ('5 ('4 run ('1 run _1)) ('3 _2 run))) 0)", "('5 (m @4 @5) (m @5 @6))"},
    {"((lambda run ('5 ('4 run ('1 run _1)) ('3 _2 run))) 0)", "('5 (m @4 @5) (m @5 @5))"},
    {"('5 ('4 _1 _2) ((lambda t ('5 ('4 t _1) ('3 _3 t))) 1))", "((lambda t (m t @2 @3)) 0)"},
    {"((lambda _1 _2) 0)", "(m x ((lambda x ('3 @1 x)) 1))"},
    {"((lambda _1 _2) 1)", "(m x ('5 ('4 x @1) (m y ('4 x y))))"},
};

static const char *const whole_programs[] = {
    "(lambda x x)",
    "x",
    "()",
    "(x)",
    "(lambda lambda lambda)",
    "(lambda lambda (lambda lambda lambda))",
    "(let-syntax m (lambda z (syntax x)) (lambda x (m)))",
    "(lambda x (let-syntax m (lambda z (syntax x)) (lambda x (m))))",
    "(lambda x (let-syntax m (lambda z (#2 (#3 (#0 z)))) (lambda x (m x))))",
    "(let-syntax m (lambda z (let-syntax n (lambda g (syntax (syntax 1))) (n))) (m))",
    "(let-syntax m (let-syntax n (let-syntax o 1 o) n) m)",
    "(let-syntax m (lambda z z) (m))",
    "(let-syntax m #0 (m))",
    "(let-syntax m (lambda z 1) (m))",
    "(let-syntax m 5 (m))",
    "(let-syntax m #4 (m))",
    "(let-syntax m (lambda z (#2 z)) (m))",
    "(let-syntax m ((lambda f (f f)) (lambda f (f f))) 1)",
    "(let-syntax m (lambda z ((lambda f (f f)) (lambda f (f f)))) (m))",
    "(let-syntax m (lambda z (syntax (lambda x (syntax x)))) (lambda x ((m) (syntax x))))",
    "(let-syntax m ((lambda s (lambda z s)) (syntax (lambda x x))) (m 1))",
    "(let-syntax syntax (lambda z (#2 (#3 (#0 z)))) (lambda x (syntax x)))",
    "(let-syntax quote (lambda z (syntax 7)) (quote x))",
    "(let-syntax lambda (lambda z (#2 (#3 (#3 (#0 z))))) (lambda x 3))",
    "(let-syntax n (lambda z (#2 (#3 (#0 z)))) (let-syntax m (lambda z (#2 (#3 (#0 z)))) "
    "(m (n (syntax x)))))",
    /* a binder that was an argument one phase up, and its word, which was not */
    "(let-syntax m (let-syntax k (lambda z (#2 (#3 (#0 z)))) (lambda w (#1 (#4 (syntax let-syntax) "
    "(#4 (syntax n) (#4 (#1 (#4 (syntax lambda) (#4 (k (syntax x)) (#0 (syntax (x))))) w) "
    "(#0 (syntax (1)))))) w))) (m))",
};

static const Object *panel_program(void)
{
    if (percent(30))
        return notation(whole_programs[below(sizeof whole_programs / sizeof whole_programs[0])]);
    const PanelProgram *chosen = &panel[below(sizeof panel / sizeof panel[0])];
    const Object *template = notation(chosen->template);
    uint32_t macro = word_symbol("m", 1);
    uint32_t form = percent(70) ? word_symbol("form", 4) : any_word();
    const Object *use = notation(chosen->use);
    if (percent(25))
        use = list2(use, notation(chosen->use));
    return let_syntax(macro, lambda(form, template_code(template, form)), use);
}

/* Some word stands in for another, so that words meet that were kept apart. */
static const Object *rename_word(const Object *object, uint32_t from, uint32_t to)
{
    if (object->tag == SYMBOL)
        return object->content == from ? symbol(to) : object;
    if (object->tag != LIST)
        return object;
    const Object **parts = take_object_parts(draft_memory, object->count);
    for (uint32_t i = 0; i < object->count; i++)
        parts[i] = rename_word(object->parts[i], from, to);
    return make_list_object(draft_memory, object->count, parts, bare);
}

/* ---- scopes and bindings of the image's own ---- */

/* A few scopes that most sets are made of, so that sets meet: the first ones,
   or some beside the ends of a set's words. */
enum { FAVOURED = 4 };
static uint32_t favoured_scopes[FAVOURED];

static void favour_first_scopes(void)
{
    for (uint32_t i = 0; i < FAVOURED; i++)
        favoured_scopes[i] = i + 1;
}

/* 63 to 66, and so on at the end of each word. */
static uint32_t beside_word_end(void)
{
    return WORD_BITS * between(1, SET_WORDS) - 1 + below(4);
}

static void favour_word_ends(void)
{
    for (uint32_t i = 0; i < FAVOURED; i++) {
        uint32_t chosen = beside_word_end();
        favoured_scopes[i] =
            chosen <= draft_image.scopes ? chosen : between(1, draft_image.scopes);
    }
}

static uint32_t any_scope(void)
{
    uint32_t chosen = favoured_scopes[below(FAVOURED)];
    if (chosen > draft_image.scopes || percent(10))
        return between(1, draft_image.scopes);
    return chosen;
}

/* Scopes one after another, over the end of a word or two. */
static ScopeSet run_of_scopes(void)
{
    ScopeSet set = NO_SCOPES;
    uint32_t scope = between(1, draft_image.scopes);
    for (uint32_t i = below(70); i > 0 && scope <= draft_image.scopes; i--)
        put_scope(&set, scope++);
    return set;
}

static ScopeSet any_set(void)
{
    ScopeSet set = NO_SCOPES;
    if (draft_image.scopes == 0)
        return set;
    if (draft_image.scopes > WORD_BITS && percent(3))
        return run_of_scopes();
    for (uint32_t i = below(4); i > 0; i--)
        put_scope(&set, any_scope());
    return set;
}

const Object *sprinkle(const Object *object, uint32_t of_hundred)
{
    ScopeSet sets[PHASES] = {object->sets[0], object->sets[1], object->sets[2]};
    for (int phase = 0; phase < PHASES; phase++)
        if (percent(of_hundred))
            sets[phase] = add_scopes(sets[phase], any_set());
    if (object->tag != LIST)
        return make_atom_object(draft_memory, (Atom){object->tag, object->content}, sets);
    const Object **parts = take_object_parts(draft_memory, object->count);
    for (uint32_t i = 0; i < object->count; i++)
        parts[i] = sprinkle(object->parts[i], of_hundred);
    return make_list_object(draft_memory, object->count, parts, sets);
}

void add_binding(Binding binding)
{
    uint32_t place = draft_image.binding_count;
    if (place == MOST_BINDINGS)
        return;
    while (place > 0 && compare_bindings(&draft_image.bindings[place - 1], &binding) >= 0)
        place--;
    if (place < draft_image.binding_count && compare_bindings(&draft_image.bindings[place], &binding) == 0)
        return;
    for (uint32_t i = draft_image.binding_count; i > place; i--)
        draft_image.bindings[i] = draft_image.bindings[i - 1];
    draft_image.bindings[place] = binding;
    draft_image.binding_count++;
}

static void add_bindings(uint32_t count, uint32_t favoured)
{
    for (uint32_t i = 0; i < count; i++) {
        uint32_t bound = percent(60) ? favoured : percent(20) ? below(CORE_NAMES) : any_word();
        uint32_t target = percent(35) ? below(CORE_NAMES) : below(draft_image.names);
        add_binding((Binding){.symbol = bound, .target = target, .set = any_set()});
    }
}

static void bind_somewhere(uint32_t word, ScopeSet set)
{
    add_binding((Binding){.symbol = word, .target = below(draft_image.names), .set = set});
}

/* Two bindings of a word that contain each other nowhere; a third may settle it. */
static void tangle(uint32_t word)
{
    for (uint32_t i = 0; i < 3; i++)
        if (draft_image.scopes < favoured_scopes[i])
            draft_image.scopes = favoured_scopes[i];
    ScopeSet one = only_scope(favoured_scopes[0]), two = only_scope(favoured_scopes[1]),
             three = only_scope(favoured_scopes[2]);
    bind_somewhere(word, one);
    bind_somewhere(word, two);
    if (percent(40))
        bind_somewhere(word, add_scopes(one, two));
    if (percent(30))
        bind_somewhere(word, add_scopes(one, three));
}

/* Many bindings of a word that is seldom used, to be short of room. */
static void fill_bindings(uint32_t count)
{
    enum { SPAN = 33 }; /* scopes that make more pairs than there may be bindings */
    uint32_t word = any_word(), first = between(1, MOST_SCOPES - SPAN), last = first + SPAN - 1;
    if (draft_image.scopes < last)
        draft_image.scopes = last;
    for (uint32_t low = first; low < last && draft_image.binding_count < count; low++)
        for (uint32_t high = low + 1; high <= last && draft_image.binding_count < count; high++)
            add_binding((Binding){.symbol = word,
                                  .target = word,
                                  .set = add_scopes(only_scope(low), only_scope(high))});
}

void start_draft(Memory *memory, uint32_t kind, uint32_t words)
{
    draft_memory = memory;
    clear_memory(memory);
    draft_image.kind = kind;
    draft_image.word_count = 0;
    draft_image.names = CORE_NAMES;
    draft_image.scopes = 0;
    draft_image.binding_count = 0;
    draft_image.object = NULL;
    draft_image.tree = NULL;
    holes_allowed = 0;
    favour_first_scopes();
    choose_words(words);
}

/* As many words as there may be, or a few fewer. */
static void fill_words(void)
{
    static char texts[MOST_NAMES][8];
    uint32_t count = MOST_NAMES - CORE_NAMES - below(4);
    for (uint32_t i = draft_image.word_count; i < count; i++) {
        int length = snprintf(texts[i], sizeof texts[i], "w%u", (unsigned)i);
        draft_image.words[i] = (Word){(const uint8_t *)texts[i], (uint32_t)length};
    }
    draft_image.word_count = count;
}

static void choose_names(void)
{
    if (below(1000) == 0)
        fill_words();
    uint32_t taken = CORE_NAMES + draft_image.word_count, left = MOST_NAMES - taken, made = 0;
    if (percent(15))
        made = between(1, 3);
    if (percent(1))
        made = between(1, 200);
    if (percent(4))
        made = left < 4 ? left : left - below(4);
    draft_image.names = taken + (made < left ? made : left);
}

static void choose_scopes(void)
{
    if (percent(30))
        draft_image.scopes = between(1, FAVOURED);
    if (percent(8)) /* fresh scopes go over the end of a word */
        draft_image.scopes = WORD_BITS * between(1, SET_WORDS - 1) - below(4);
    if (percent(10))
        draft_image.scopes = between(FAVOURED + 1, MOST_SCOPES);
    if (percent(5))
        draft_image.scopes = MOST_SCOPES - below(6);
    if (draft_image.scopes > FAVOURED && percent(80))
        favour_word_ends();
}

void choose_counts(void)
{
    choose_names();
    choose_scopes();
}

/* One over the limit; nothing may be made from the counts after this. */
static void overdraw_counts(void)
{
    if (percent(50))
        draft_image.names = MOST_NAMES + 1;
    else
        draft_image.scopes = MOST_SCOPES + 1;
}

void finish_draft(Draft *draft)
{
    if (below(200) == 0)
        overdraw_counts();
    draft->kind = draft_image.kind;
    if (!write_image(&draft_image, draft->bytes, DRAFT_ROOM, &draft->length))
        draft->length = 0;
}

static const Object *wrap(const Object *object, uint32_t times)
{
    for (uint32_t i = 0; i < times; i++) {
        if (percent(70))
            object = list1(object);
        else if (percent(70))
            object = list2(atom(NUMBER, 1), object);
        else
            object = list2(object, atom(POINT, 1));
    }
    return object;
}

/* Programs whose nesting or entries come near their limits. */
static const Object *deep_program(void)
{
    uint32_t inner = between(1, 62), outer = between(0, 62);
    uint32_t macro = word_symbol("m", 1), form = word_symbol("z", 1);
    if (percent(70))
        outer = 66 - inner - below(6) + below(3);
    if (outer > 60)
        outer = 60;
    switch (below(4)) {
    case 0:
        return let_syntax(macro, lambda(form, syntax(wrap(atom(NUMBER, 1), inner))),
                          wrap(list1(symbol(macro)), outer));
    case 1:
        return let_syntax(macro,
                          lambda(form, wrap(symbol(form), inner)),
                          list2(symbol(macro), wrap(atom(NUMBER, 1), outer)));
    case 2:
        return wrap(let_syntax(macro, lambda(form, wrap(symbol(form), inner)), loop_code()),
                    outer);
    default:
        return wrap(let_syntax(macro, loop_code(), atom(NUMBER, 1)), outer);
    }
}

/* A macro defined where a word is bound, so that both can meet in a template. */
static const Object *lambda_around(int depth)
{
    Known variable = {.word = any_word(), .outer = NULL};
    return lambda(variable.word, definition(depth, &variable));
}

void finish_program(const Object *root, Draft *draft)
{
    if (draft_image.word_count > 1 && percent(15))
        root = rename_word(root, any_word(), any_word());
    choose_counts();
    bool many_scopes = draft_image.scopes > WORD_BITS;
    if (percent(many_scopes ? 60 : 35))
        root = sprinkle(root, 10);
    if (percent(many_scopes ? 50 : 30))
        add_bindings(between(1, 4), any_word());
    if (percent(6)) {
        tangle(any_word());
        root = sprinkle(root, 40);
    }
    if (percent(1))
        fill_bindings(between(MOST_BINDINGS - 3, MOST_BINDINGS));
    draft_image.object = root;
    finish_draft(draft);
}

void draft_program(Memory *memory, Draft *draft)
{
    start_draft(memory, SYNTAX_IMAGE, between(1, 4));
    const Object *root;
    if (percent(30))
        root = panel_program();
    else if (percent(3))
        root = deep_program();
    else if (percent(30))
        root = some_program((int)between(1, 6), NULL);
    else
        root = percent(40) ? lambda_around((int)between(3, 6)) : definition((int)between(3, 6), NULL);
    finish_program(root, draft);
}

void draft_identifier(Memory *memory, Draft *draft)
{
    start_draft(memory, SYNTAX_IMAGE, between(0, 2));
    choose_counts();
    if (draft_image.scopes == 0)
        draft_image.scopes = between(1, 5);
    uint32_t word = any_word();
    const Object *root = percent(92) ? symbol(word) : any_object(1);
    for (uint32_t times = between(1, 3); times > 0; times--)
        root = sprinkle(root, 85);
    if (percent(30))
        tangle(word);
    add_bindings(between(0, 7), word);
    draft_image.object = root;
    if (percent(1))
        fill_bindings(MOST_BINDINGS);
    finish_draft(draft);
}

void draft_object(Memory *memory, Draft *draft)
{
    start_draft(memory, SYNTAX_IMAGE, between(0, 3));
    const Object *root = percent(50) ? any_object(3) : some_program((int)between(1, 4), NULL);
    if (percent(2))
        root = wrap(root, between(50, 63));
    if (percent(25))
        root = lambda(any_word(), root);
    if (percent(15))
        root = list2(root, quote(any_object(3)));
    choose_counts();
    if (percent(40))
        root = sprinkle(root, 20);
    add_bindings(below(4), any_word());
    if (percent(15)) {
        tangle(any_word());
        root = sprinkle(root, 50);
    }
    draft_image.object = root;
    finish_draft(draft);
}
