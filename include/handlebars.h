/* Zerwydd: proved rendering core of handlebars 6.4.4. Link with libhandlebars.a (tools/staticlib). */
#ifndef HANDLEBARS_H
#define HANDLEBARS_H

#include <stddef.h>
#include <stdint.h>

#ifdef __cplusplus
extern "C" {
#endif

/* The entries of a table of the plan's values. */
#define HANDLEBARS_VALUES 4096

/* Whether a bundle can be rendered from: 0, or the number of its refusal: 2 it is longer than 65,536 bytes, 3 it breaks the layout,
   4 a partial's first parameter is a Name or Path. Any bytes may be given. */
uint32_t handlebars_check_bundle(const uint8_t *bundle, size_t len);

/* Whether a plan can be rendered: 0, or the number of its refusal: 1 the table has fewer than HANDLEBARS_VALUES entries, 7 the plan is longer
   than 65,536 bytes, 8 it is no JSON text (RFC 8259) or too deep, 9 it has a number that is no integer of 64 bits, 10 it has too many values.
   Any bytes may be given. The table is overwritten: after 0 it holds the places of the plan's values, and zeros behind them; after a refusal
   it is all zero. */
uint32_t handlebars_check_plan(const uint8_t *plan, size_t len, uint64_t *table, size_t entries);

/* The lengths that the scratch buffers of handlebars_render must have, in entries: places and entries are uint64_t, texts and indent uint8_t. */
#define HANDLEBARS_PLACES 4096
#define HANDLEBARS_ENTRIES 8192
#define HANDLEBARS_TEXTS 16384
#define HANDLEBARS_INDENT 256

/* Options, to be added up. All other bits are ignored. */
#define HANDLEBARS_STRICT 1u           /* what is missing is refused (11) */
#define HANDLEBARS_RECURSIVE_LOOKUP 2u /* a lone name that the newest scope's value lacks is looked for in the value around that one in the plan, and
                                          so on to the whole plan; not in other scopes, nor from a value that is no part of the plan */
#define HANDLEBARS_GUIDE_TRUTH 4u      /* for if and unless only false, null, missing, zero, "" and [] are false */

/* Why there is no page, in checking order. 1 to 10 have no template, line 0 and column 0; 11 to 25 have those of the innermost element and the
   innermost template with a name. */
#define HANDLEBARS_SCRATCH_TOO_SHORT 1           /* a scratch buffer is shorter than its length above */
#define HANDLEBARS_BUNDLE_TOO_LONG 2             /* the bundle has more than 65,536 bytes */
#define HANDLEBARS_BUNDLE_BROKEN 3               /* the bundle breaks the layout */
#define HANDLEBARS_PARTIAL_CONTEXT 4             /* a partial's first parameter is a Name or Path */
#define HANDLEBARS_OPTIONS_CLASH 5               /* strict and guide truth are both set */
#define HANDLEBARS_TEMPLATE_NOT_FOUND 6          /* the start name is not in the bundle */
#define HANDLEBARS_PLAN_TOO_LONG 7               /* the plan has more than 65,536 bytes */
#define HANDLEBARS_PLAN_BROKEN 8                 /* the plan is no text of RFC 8259, or deeper than 32 */
#define HANDLEBARS_NUMBER_OUTSIDE 9              /* a number is outside -2^63 to 2^64-1, has a point or exponent, or is -0 */
#define HANDLEBARS_TOO_MANY_VALUES 10            /* the plan has more than 4,096 values */
#define HANDLEBARS_MISSING_VARIABLE 11           /* MissingVariable */
#define HANDLEBARS_PARTIAL_NOT_FOUND 12          /* PartialNotFound */
#define HANDLEBARS_PARTIAL_BLOCK_NOT_FOUND 13    /* PartialBlockNotFound */
#define HANDLEBARS_HELPER_NOT_FOUND 14           /* HelperNotFound */
#define HANDLEBARS_PARAM_NOT_FOUND_FOR_INDEX 15  /* ParamNotFoundForIndex */
#define HANDLEBARS_DECORATOR_NOT_FOUND 16        /* DecoratorNotFound */
#define HANDLEBARS_CANNOT_INCLUDE_SELF 17        /* CannotIncludeSelf */
#define HANDLEBARS_INVALID_PARAM_TYPE 18         /* InvalidParamType */
#define HANDLEBARS_BLOCK_CONTENT_REQUIRED 19     /* BlockContentRequired */
#define HANDLEBARS_INVALID_JSON_INDEX 20         /* InvalidJsonIndex */
#define HANDLEBARS_INDENT_TOO_LONG 21            /* an indent has more than 256 bytes, alone or joined */
#define HANDLEBARS_TOO_MANY_ENTRIES 22           /* merged objects and inline partials have more than 4,096 entries */
#define HANDLEBARS_TOO_MANY_SCOPES 23            /* a scope would be the 33rd */
#define HANDLEBARS_BLOCK_TEXTS_TOO_LONG 24       /* block texts have more than 16,384 bytes */
#define HANDLEBARS_PAGE_TOO_SHORT 25             /* the text does not fit the page */

typedef struct {
    /* 0, or why there is no page */
    uint32_t number;
    /* stands for the template's name (handlebars_template_name); 0 where there is none */
    size_t template_;
    uint64_t line;
    uint64_t column;
    /* the bytes of the page that the text has; 0 after a refusal */
    size_t length;
} handlebars_answer;

/* Draws the template `start` of the bundle over the plan, on the page. Any bytes may be given, and any lengths. No two of the lent buffers may
   overlap, nor one of them a bundle, plan or start name. All that is lent is overwritten: at the end the page holds the text and zeros behind it,
   after a refusal zeros only; every scratch buffer is all zero. The deepest bundles took up to 3.1 MiB of stack when measured, so have 4
   (docs/BUFFERS.md). */
handlebars_answer handlebars_render(const uint8_t *bundle, size_t bundle_len, const uint8_t *plan, size_t plan_len, const uint8_t *start,
                                    size_t start_len, uint32_t options, uint8_t *page, size_t page_len, uint64_t *places, size_t places_len,
                                    uint64_t *entries, size_t entries_len, uint8_t *texts, size_t texts_len, uint8_t *indent,
                                    size_t indent_len);

/* The bytes of a template's name, by an answer's template_ and the bundle of that call: their count. They stand at the start of out, with zeros
   behind them. 0, and zeros only, where template_ is 0, where no string lies within the bundle there, where the bundle is too long, and where the
   name does not fit: 65,535 bytes fit every name. */
size_t handlebars_template_name(const uint8_t *bundle, size_t bundle_len, size_t template_, uint8_t *out, size_t out_len);

#ifdef __cplusplus
}
#endif

#endif
