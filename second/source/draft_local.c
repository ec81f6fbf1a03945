/* Drafts of programs with local expansion (request T-08): macros that ask for the value
   of a macro, expand a piece with stops, and make identifiers fit to bind. */
#include "chance.h"
#include "draft_parts.h"

enum { VALUE_OF = 7, EXPAND = 8, BINDER = 9 };

/* The macro whose code is made: the word of its form, and what is known at its use. */
typedef struct {
    uint32_t form;
    const Known *known;
} Macro;

static const Object *syntax_code(int depth, const Macro *macro);

/* ---- words ---- */

static uint32_t known_word(const Known *known)
{
    const Known *chosen = some_known(known, percent(65));
    if (chosen == NULL || percent(15))
        return percent(60) ? below(CORE_NAMES) : any_word();
    return chosen->word;
}

/* ---- code one phase up ---- */

static const Object *empty_code(void)
{
    return quote(list_of(0, NULL));
}

static const Object *parts_code(const Object *code)
{
    return list2(primitive(0), code);
}

static const Object *link_code(const Object *first, const Object *rest)
{
    return list3(primitive(4), first, rest);
}

/* Code that gives an identifier, most often. */
static const Object *identifier_code(int depth, const Macro *macro)
{
    switch (below(depth > 0 ? 8 : 5)) {
    case 0:
    case 1:
    case 2:
        return syntax(symbol(known_word(macro->known)));
    case 3:
        return argument_code(macro->form, between(0, 2));
    case 4:
        return percent(80) ? syntax(symbol(any_word())) : syntax(any_atom());
    case 5:
    case 6:
        return list2(primitive(BINDER), identifier_code(depth - 1, macro));
    default: /* out of something expanded */
        return list2(primitive(2), list2(primitive(3), parts_code(syntax_code(depth - 1, macro))));
    }
}

/* Code that gives a list of identifiers, most often. */
static const Object *stops_code(int depth, const Macro *macro)
{
    const Object *words[3];
    uint32_t count = below(4);
    if (percent(30))
        return empty_code();
    if (depth > 0 && percent(30))
        return link_code(identifier_code(depth - 1, macro), stops_code(depth - 1, macro));
    if (percent(8))
        return list2(primitive(3), parts_code(symbol(macro->form)));
    if (percent(4))
        return parts_code(syntax(any_object(1)));
    for (uint32_t i = 0; i < count; i++)
        words[i] = symbol(known_word(macro->known));
    return parts_code(syntax(list_of(count, words)));
}

/* A form put together from parts: (lambda id body), (quote d), (syntax s), a use. */
static const Object *form_code(int depth, const Macro *macro)
{
    const Object *first = identifier_code(depth - 1, macro), *second = syntax_code(depth - 1, macro);
    const Object *parts;
    switch (below(4)) {
    case 0:
        parts = link_code(syntax(symbol(LAMBDA)), link_code(first, link_code(second, empty_code())));
        break;
    case 1:
        parts = link_code(syntax(symbol(percent(70) ? QUOTE : SYNTAX)),
                          link_code(percent(60) ? first : second, empty_code()));
        break;
    case 2:
        parts = link_code(first, link_code(second, empty_code()));
        break;
    default:
        parts = link_code(syntax(symbol(known_word(macro->known))),
                          list2(primitive(3), parts_code(symbol(macro->form))));
        break;
    }
    return list3(primitive(1), parts, percent(75) ? symbol(macro->form) : syntax(symbol(any_word())));
}

/* Which of two, by what stands at the head of something. */
static const Object *look_code(int depth, const Macro *macro)
{
    const Object *head = list2(primitive(2), parts_code(syntax_code(depth - 1, macro)));
    return list4(primitive(6), list3(primitive(5), parts_code(head), quote(symbol(known_word(macro->known)))),
                 syntax_code(depth - 1, macro), syntax_code(depth - 1, macro));
}

/* A piece of program, with a use of what is known at its head more often than not. */
static const Object *piece(int depth, const Known *known)
{
    const Known *used = some_known(known, percent(80));
    if (used != NULL && percent(60))
        return macro_use(depth, known, used->word);
    return some_program(depth, known);
}

/* Code that gives syntax, most often. */
static const Object *syntax_code(int depth, const Macro *macro)
{
    if (depth <= 0)
        return percent(45) ? syntax(piece(1, macro->known)) : argument_code(macro->form, between(1, 2));
    switch (below(14)) {
    case 0:
    case 1:
    case 2:
    case 3:
    case 4:
    case 5:
        return list3(primitive(EXPAND), syntax_code(depth - 1, macro), stops_code(depth - 1, macro));
    case 6:
        return list2(list2(primitive(VALUE_OF), identifier_code(depth - 1, macro)),
                     percent(60) ? symbol(macro->form) : syntax_code(depth - 1, macro));
    case 7:
        return identifier_code(depth, macro);
    case 8:
    case 9:
        return form_code(depth, macro);
    case 10:
        return look_code(depth - 1, macro);
    case 11:
        return list2(primitive(2), list2(primitive(3), parts_code(syntax_code(depth - 1, macro))));
    case 12:
        return syntax(piece(depth, macro->known));
    default:
        return percent(70) ? argument_code(macro->form, between(1, 2))
                           : template_code(template_of(depth - 1, macro->known, 2), macro->form);
    }
}

/* Code with one of the three at its head: the value of a macro applied, a piece expanded,
   or an identifier put where its scopes stay to be seen, bound or looked up. */
static const Object *asking_code(int depth, const Macro *macro)
{
    const Object *fit;
    switch (below(9)) {
    case 0:
        return list2(list2(primitive(VALUE_OF), identifier_code(depth - 1, macro)), symbol(macro->form));
    case 1:
    case 2:
    case 3:
        return list3(primitive(EXPAND), syntax_code(depth - 1, macro), stops_code(depth - 1, macro));
    case 4:
    case 5: /* quoted, or pruned */
        fit = list2(primitive(BINDER), identifier_code(depth - 1, macro));
        return list3(primitive(1), link_code(syntax(symbol(percent(60) ? QUOTE : SYNTAX)), link_code(fit, empty_code())),
                     symbol(macro->form));
    case 6: /* bound, around an argument */
        fit = list2(primitive(BINDER), percent(70) ? argument_code(macro->form, 1) : identifier_code(depth - 1, macro));
        return list3(primitive(1),
                     link_code(syntax(symbol(LAMBDA)),
                               link_code(fit, link_code(argument_code(macro->form, percent(70) ? 2 : 1), empty_code()))),
                     symbol(macro->form));
    case 7:
        return list2(primitive(BINDER), identifier_code(depth - 1, macro));
    default:
        return syntax_code(depth, macro);
    }
}

/* Code that evaluates another one's value and gives it, or gives something else. */
static const Object *bound_code(int depth, const Macro *macro)
{
    uint32_t word = any_word();
    Macro inner = {.form = percent(80) ? macro->form : word, .known = macro->known};
    return list2(lambda(word, percent(50) ? symbol(word) : asking_code(depth - 1, &inner)), asking_code(depth - 1, macro));
}

static const Object *local_macro(int depth, const Known *known)
{
    Macro macro = {.form = any_word(), .known = known};
    if (percent(2)) /* where there is no introduction scope */
        return asking_code(depth - 1, &macro);
    if (percent(1))
        return primitive(between(VALUE_OF, BINDER));
    if (percent(3)) { /* a macro one phase up that asks */
        uint32_t word = any_word();
        return let_syntax(word, lambda(macro.form, asking_code(depth - 1, &macro)),
                          lambda(any_word(), percent(50) ? list1(symbol(word)) : syntax(list1(symbol(word)))));
    }
    return lambda(macro.form, percent(8) ? bound_code(depth, &macro) : asking_code(depth, &macro));
}

/* Macros one in the other, some of them asking, and a use of the innermost. */
static const Object *local_program(int depth, uint32_t macros, const Known *known)
{
    if (macros == 0)
        return piece(depth, known);
    if (percent(25)) {
        Known variable = {.word = any_word(), .outer = known};
        return lambda(variable.word, local_program(depth, macros, &variable));
    }
    Known defined = {.word = percent(4) ? below(CORE_NAMES) : any_word(), .is_macro = true, .outer = known};
    const Object *value = macros == 1 || percent(40) ? local_macro(depth, known) : right_hand_side(2, known);
    return let_syntax(defined.word, value, local_program(depth, macros - 1, &defined));
}

/* Programs written by hand: the smallest of each rule. */
static const char *const small_programs[] = {
    "(let-syntax m (lambda z (#8 (syntax (lambda x x)) (quote ()))) (m))",
    "(let-syntax m (lambda z (#8 (syntax (lambda x x)) (#0 (syntax (lambda))))) (m))",
    "(let-syntax m (lambda z (#8 (syntax (quote x)) (#0 (syntax (quote))))) (m))",
    "(let-syntax m (lambda z (#8 (syntax x) (#0 (syntax (x y))))) (m))",
    "(let-syntax m (lambda z (#8 z (quote ()))) (m))",
    "(let-syntax m (lambda z (#8 (#2 (#3 (#0 z))) (quote ()))) (m (lambda x x)))",
    "(lambda x (let-syntax m (lambda z (#8 (#2 (#3 (#0 z))) (quote ()))) (m x)))",
    "(lambda x (let-syntax m (lambda z (#8 (syntax (x 1)) (#0 (syntax (x))))) (m)))",
    "(let-syntax m (lambda z (#7 (#2 (#0 z)))) (m))",
    "(let-syntax m (lambda z (#7 (syntax x))) (m))",
    "(let-syntax n 5 (let-syntax m (lambda z (#1 (#7 (syntax n)) z)) (m)))",
    "(let-syntax n (lambda z (syntax 5)) (let-syntax m (lambda z ((#7 (syntax n)) z)) (m)))",
    "(let-syntax n (lambda z (syntax 5)) (let-syntax m (lambda z (#8 (syntax (n)) (#0 (syntax (n))))) (m)))",
    "(let-syntax n (lambda z (syntax 5)) (let-syntax m (lambda z (#8 (syntax (n)) (quote ()))) (m)))",
    "(let-syntax m (lambda z (#9 (syntax x))) (m))",
    "(let-syntax m (lambda z (#9 (#2 (#3 (#0 z))))) (lambda x (m x)))",
    "(let-syntax m (lambda z (#9 (#2 (#3 (#0 z))))) (m x))",
    "(let-syntax m #7 (m))",
    "(let-syntax m #9 (m))",
    "(let-syntax m (#9 (1)) 1)",
    "(let-syntax m (#7 (syntax x)) 1)",
    "(let-syntax m (lambda z (#8 (syntax (let-syntax k (#9 0) 1)) (quote ()))) (m))",
};

/* Panels with bits: expanded and given back, looked at, held back by a stop, bound with
   an identifier made fit. */
static const char *const panels[] = {
    "(let-syntax m (lambda z (#8 (#2 (#3 (#0 z))) (quote ()))) (m ((lambda run ('5 ('4 run @1) ('3 @2 run))) 0)))",
    "(let-syntax n (lambda z (syntax ((lambda run ('5 ('4 run @1) ('3 @2 run))) 0))) "
    "(let-syntax m (lambda z (#8 (syntax ('5 (n) ('3 @3 @4))) (#0 (syntax (n))))) (m)))",
    "(let-syntax n (lambda z (syntax ((lambda run ('5 ('4 run @1) ('3 @2 run))) 0))) "
    "(let-syntax m (lambda z (#8 (#2 (#3 (#0 z))) (#0 (syntax (lambda))))) (m ('5 (n) ((lambda run ('4 run @1)) 1)))))",
    "(let-syntax bit (lambda z (#1 (#4 (#1 (#4 (syntax lambda) (#4 (#9 (#2 (#3 (#0 z)))) (#3 (#3 (#0 z))))) z) "
    "(#0 (syntax (0)))) z)) (bit run ('5 ('4 run ('1 run @1)) ('3 @2 run))))",
    "(let-syntax bit (lambda z (#1 (#4 (#1 (#4 (syntax lambda) (#4 (#9 (#2 (#3 (#0 z)))) (#3 (#3 (#0 z))))) z) "
    "(#0 (syntax (0)))) z)) (bit run (bit run ('5 ('4 run ('1 run @1)) ('3 @2 run)))))",
    "(let-syntax m (lambda z (#6 (#5 (#0 (#2 (#0 (#8 (#2 (#3 (#0 z))) (quote ()))))) '3) (#2 (#3 (#0 z))) "
    "(syntax ('3 @9 @9)))) ((lambda run ('5 (m ('3 @2 run)) (m ('5 ('3 @3 run))))) 1))",
};

void draft_local(Memory *memory, bool is_small, Draft *draft)
{
    start_draft(memory, SYNTAX_IMAGE, between(1, is_small ? 3 : 4));
    const Object *root;
    if (percent(is_small ? 50 : 6))
        root = notation(small_programs[below(sizeof small_programs / sizeof small_programs[0])]);
    else if (!is_small && percent(5))
        root = notation(panels[below(sizeof panels / sizeof panels[0])]);
    else if (is_small)
        root = local_program((int)between(1, 2), percent(80) ? 1 : 2, NULL);
    else
        root = local_program((int)between(1, 4), between(1, 4), NULL);
    finish_program(root, draft);
}
