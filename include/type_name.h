/* Reads type names, one, with the names of its templates or without, or a comma list: a file of token records in, trees of
 * node records or a numbered refusal out; counts the arguments of a tree's outer template; says which rule of a table wins for
 * a type name, and which rules overlap; and brings over files of the old format.
 * docs/FORMAT.md describes the files, the tree and the refusals, with examples; examples/build.c, examples/named.c,
 * examples/list.c, examples/outer.c, examples/rules.c and examples/convert.c are programs that use all of this. */
#ifndef TYPE_NAME_H
#define TYPE_NAME_H

#include <stddef.h>
#include <stdint.h>

#ifdef __cplusplus
extern "C" {
#endif

#define TYPE_NAME_VERSION_MAJOR 0
#define TYPE_NAME_VERSION_MINOR 1
#define TYPE_NAME_VERSION_PATCH 0
#define TYPE_NAME_VERSION "0.1.0"

/* ---- limits and lengths */

#define TYPE_NAME_MOST_BYTES 131072   /* of a file */
#define TYPE_NAME_MOST_TOKENS 1024    /* of a row */
#define TYPE_NAME_MOST_NESTING 64     /* of groups and lists in each other */
#define TYPE_NAME_LONGEST_WORD 255    /* in bytes */
#define TYPE_NAME_LEAST_WORD_BYTE 33
#define TYPE_NAME_GREATEST_WORD_BYTE 126

#define TYPE_NAME_HEAD_LENGTH 11      /* bytes of the head record */
#define TYPE_NAME_HEAD_KIND 261
#define TYPE_NAME_ALLOWANCE_AT 7      /* where the head has its allowance, 4 bytes */
#define TYPE_NAME_TOKEN_LENGTH 20     /* bytes of a token record without its word */

/* Of the old format, which type_name_widen and type_name_narrow alone know. */
#define TYPE_NAME_OLD_MOST_BYTES 65536
#define TYPE_NAME_OLD_HEAD_KIND 256
#define TYPE_NAME_OLD_TOKEN_LENGTH 12
#define TYPE_NAME_MOST_WIDENED 73728  /* bytes of `output` that are enough for every file that type_name_widen accepts */

#define TYPE_NAME_NODE_WIDTH 3        /* numbers of a node record: kind, token, extent */
#define TYPE_NAME_NUMBERS_PER_TOKEN 6 /* numbers of `tree` that a row needs for each token */
#define TYPE_NAME_TREE_LENGTH (TYPE_NAME_NUMBERS_PER_TOKEN * TYPE_NAME_MOST_TOKENS) /* enough for every file */
#define TYPE_NAME_ANSWER_LENGTH 4     /* numbers of `answer` */
#define TYPE_NAME_LIST_ANSWER_LENGTH 5 /* numbers of `answer` of type_name_read_list */
#define TYPE_NAME_NO_TOKEN 65535      /* in an answer: the refusal names no token */
#define TYPE_NAME_NO_PART 65535       /* in an answer of type_name_read_list: refused before the row is cut into parts */

#define TYPE_NAME_MOST_NAMES 512      /* of a name list */

#define TYPE_NAME_RULE_HEAD_LENGTH 4  /* bytes of a rule record without its items */
#define TYPE_NAME_RULE_KIND 272
#define TYPE_NAME_MOST_RULES 256      /* of a table */
#define TYPE_NAME_MOST_ITEMS 16       /* of a rule, the rest among them */
#define TYPE_NAME_LONGEST_SEQUENCE 4112 /* bytes of `sequence` that are enough for every table */

/* An allowance that is ample for real type names: the 5,587 rows of real names that the project is tried with take at most
 * 554 steps. It bounds a call to some 1.5 ms. */
#define TYPE_NAME_AMPLE_ALLOWANCE 100000

/* ---- numbers of the head record */

enum type_name_language {
    TYPE_NAME_LANGUAGE_C = 0,
    TYPE_NAME_LANGUAGE_CPP = 1,
    TYPE_NAME_LANGUAGE_FORTRAN = 2
};

/* Two numbers that mean a standard of whichever language the head has. In the old format 255 means what 254 means here, and
 * 254 nothing: type_name_widen writes 254 for an old file's 255, so that release archives keep their standard. */
#define TYPE_NAME_STANDARD_DEFAULT 255 /* means C23, C++23 or Fortran 2023 */
#define TYPE_NAME_STANDARD_ARCHIVE 254 /* means C18, C++17 or Fortran 2018, as 255 did in files made before */

enum type_name_c_standard {
    TYPE_NAME_C89 = 0,
    TYPE_NAME_C99 = 1,
    TYPE_NAME_C11 = 2,
    TYPE_NAME_C18 = 3,
    TYPE_NAME_C23 = 4
};

enum type_name_cpp_standard {
    TYPE_NAME_CPP98 = 0,
    TYPE_NAME_CPP11 = 1,
    TYPE_NAME_CPP14 = 2,
    TYPE_NAME_CPP17 = 3,
    TYPE_NAME_CPP20 = 4,
    TYPE_NAME_CPP23 = 5
};

enum type_name_fortran_standard {
    TYPE_NAME_FORTRAN77 = 0,
    TYPE_NAME_FORTRAN90 = 1,
    TYPE_NAME_FORTRAN95 = 2,
    TYPE_NAME_FORTRAN2003 = 3,
    TYPE_NAME_FORTRAN2008 = 4,
    TYPE_NAME_FORTRAN2018 = 5,
    TYPE_NAME_FORTRAN2023 = 6
};

/* The structure flag: whether the tree is checked for naming a type. */
enum type_name_structure_check {
    TYPE_NAME_STRUCTURE_CHECK_OFF = 0,
    TYPE_NAME_STRUCTURE_CHECK_ON = 1
};

/* ---- numbers of token records */

enum type_name_token_kind {
    TYPE_NAME_KIND_IDENTIFIER = 0,                  /* a name or a keyword; the only kind with a word */
    TYPE_NAME_KIND_RESERVED_KEYWORD = 1,            /* no part of type names */
    TYPE_NAME_KIND_INTEGER = 2,                     /* integer literal */
    TYPE_NAME_KIND_REAL = 3,                        /* real literal */
    TYPE_NAME_KIND_CHARACTER = 4,                   /* character literal of C or C++ */
    TYPE_NAME_KIND_STRING = 5,                      /* string literal; of Fortran every character literal */
    TYPE_NAME_KIND_BOOLEAN = 6,                     /* `true`, `false`; Fortran: `.true.`, `.false.` */
    TYPE_NAME_KIND_NULL_POINTER = 7,                /* `nullptr` */
    TYPE_NAME_KIND_LEFT_PAREN = 8,                  /* `(` */
    TYPE_NAME_KIND_RIGHT_PAREN = 9,                 /* `)` */
    TYPE_NAME_KIND_LEFT_BRACKET = 10,               /* `[` */
    TYPE_NAME_KIND_RIGHT_BRACKET = 11,              /* `]` */
    TYPE_NAME_KIND_COMMA = 12,                      /* `,` */
    TYPE_NAME_KIND_QUESTION = 13,                   /* `?` */
    TYPE_NAME_KIND_COLON = 14,                      /* `:` */
    TYPE_NAME_KIND_SCOPE = 15,                      /* `::` */
    TYPE_NAME_KIND_DOT = 16,                        /* `.` */
    TYPE_NAME_KIND_PERCENT = 17,                    /* `%` of Fortran */
    TYPE_NAME_KIND_ARROW = 18,                      /* `->` */
    TYPE_NAME_KIND_PLUS = 19,                       /* `+` */
    TYPE_NAME_KIND_MINUS = 20,                      /* `-` */
    TYPE_NAME_KIND_STAR = 21,                       /* `*` */
    TYPE_NAME_KIND_SLASH = 22,                      /* `/` */
    TYPE_NAME_KIND_POWER = 23,                      /* `**` of Fortran */
    TYPE_NAME_KIND_CONCAT = 24,                     /* `//` of Fortran */
    TYPE_NAME_KIND_REMAINDER = 25,                  /* `%` of C and C++ */
    TYPE_NAME_KIND_LOGICAL_NOT = 26,                /* `!`; Fortran: `.not.` */
    TYPE_NAME_KIND_BITWISE_NOT = 27,                /* `~` */
    TYPE_NAME_KIND_AMPERSAND = 28,                  /* `&` */
    TYPE_NAME_KIND_PIPE = 29,                       /* `|` */
    TYPE_NAME_KIND_CARET = 30,                      /* `^` */
    TYPE_NAME_KIND_LOGICAL_AND = 31,                /* `&&`; Fortran: `.and.` */
    TYPE_NAME_KIND_LOGICAL_OR = 32,                 /* `||`; Fortran: `.or.` */
    TYPE_NAME_KIND_LOGICAL_EQV = 33,                /* `.eqv.` */
    TYPE_NAME_KIND_LOGICAL_NEQV = 34,               /* `.neqv.` */
    TYPE_NAME_KIND_FORTRAN_DEFINED_OPERATOR = 35,   /* `.name.` */
    TYPE_NAME_KIND_EQUAL = 36,                      /* `=` */
    TYPE_NAME_KIND_EQUAL_EQUAL = 37,                /* `==`; Fortran also: `.eq.` */
    TYPE_NAME_KIND_NOT_EQUAL = 38,                  /* `!=`; Fortran: `/=`, `.ne.` */
    TYPE_NAME_KIND_LESS = 39,                       /* `<`; Fortran also: `.lt.` */
    TYPE_NAME_KIND_LESS_EQUAL = 40,                 /* `<=`; Fortran also: `.le.` */
    TYPE_NAME_KIND_GREATER = 41,                    /* `>`; Fortran also: `.gt.` */
    TYPE_NAME_KIND_GREATER_EQUAL = 42,              /* `>=`; Fortran also: `.ge.` */
    TYPE_NAME_KIND_SHIFT_LEFT = 43,                 /* `<<` */
    TYPE_NAME_KIND_SHIFT_RIGHT = 44,                /* `>>` */
    TYPE_NAME_KIND_PLUS_PLUS = 45,                  /* `++` */
    TYPE_NAME_KIND_MINUS_MINUS = 46,                /* `--` */
    TYPE_NAME_KIND_PLUS_EQUAL = 47,                 /* `+=` */
    TYPE_NAME_KIND_MINUS_EQUAL = 48,                /* `-=` */
    TYPE_NAME_KIND_STAR_EQUAL = 49,                 /* `*=` */
    TYPE_NAME_KIND_SLASH_EQUAL = 50,                /* `/=` of C and C++ */
    TYPE_NAME_KIND_REMAINDER_EQUAL = 51,            /* `%=` */
    TYPE_NAME_KIND_AMPERSAND_EQUAL = 52,            /* `&=` */
    TYPE_NAME_KIND_PIPE_EQUAL = 53,                 /* `|=` */
    TYPE_NAME_KIND_CARET_EQUAL = 54,                /* `^=` */
    TYPE_NAME_KIND_SHIFT_LEFT_EQUAL = 55,           /* `<<=` */
    TYPE_NAME_KIND_SHIFT_RIGHT_EQUAL = 56,          /* `>>=` */
    TYPE_NAME_KIND_END = 57                         /* the end of the text; a row must not have it */
};

/* ---- numbers of rule records */

/* The byte that begins an item, and the top-level nodes that the item takes. */
enum type_name_item_kind {
    TYPE_NAME_ITEM_WORD = 0,    /* a token with a word, byte for byte; behind it the word's length, a byte, and the word */
    TYPE_NAME_ITEM_KIND = 1,    /* a token of a kind that is not 0; behind it the kind, a byte */
    TYPE_NAME_ITEM_GROUP = 2,   /* parentheses or brackets */
    TYPE_NAME_ITEM_LIST = 3,    /* a list */
    TYPE_NAME_ITEM_ANY = 4,     /* any one node */
    TYPE_NAME_ITEM_REST = 5     /* all that are left, which may be none; only as a rule's last item */
};

/* ---- numbers of node records and of answers */

enum type_name_node_kind {
    TYPE_NAME_NODE_TOKEN = 0,          /* T */
    TYPE_NAME_NODE_PARENTHESES = 1,    /* G */
    TYPE_NAME_NODE_BRACKETS = 2,       /* B */
    TYPE_NAME_NODE_LIST = 3,           /* L: from `<` to its closer; its children are arguments */
    TYPE_NAME_NODE_ARGUMENT = 4        /* A */
};

/* Refusals; where a token or a detail is given, what it is. */
enum type_name_error {
    TYPE_NAME_ERROR_FILE_TOO_LONG = 1,                     /* over TYPE_NAME_MOST_BYTES bytes; old format: over 65,536 */
    TYPE_NAME_ERROR_INVALID_HEAD = 2,                      /* head record cut off, or its length, kind or structure flag wrong */
    TYPE_NAME_ERROR_UNKNOWN_PROFILE = 3,                   /* no such language or standard; old format: 254 is none */
    TYPE_NAME_ERROR_INVALID_RECORD = 4,                    /* token record malformed; detail: its byte offset */
    TYPE_NAME_ERROR_TOO_MANY_RECORDS = 5,                  /* over TYPE_NAME_MOST_TOKENS tokens */
    TYPE_NAME_ERROR_SHORT_BUFFER = 6,                      /* `tree`, `sequence` or `output` is too short */
    TYPE_NAME_ERROR_OFFSET_OVER_32_BITS = 7,               /* a span ends at 2^32 or later; of type_name_narrow alone */
    TYPE_NAME_ERROR_INVALID_NAME_LIST = 8,                 /* name list malformed, or language not C++; of type_name_read_named
                                                              alone, as are 26 and 27 */
    TYPE_NAME_ERROR_EMPTY = 10,                            /* no token */
    TYPE_NAME_ERROR_UNEXPECTED_CLOSING_DELIMITER = 11,     /* token; detail: 0, or a type_name_delimiter that was open */
    TYPE_NAME_ERROR_UNEXPECTED_ANGLE = 12,                 /* token */
    TYPE_NAME_ERROR_TOP_LEVEL_COMMA = 13,                  /* token; never of type_name_read_list */
    TYPE_NAME_ERROR_UNEXPECTED_END_TOKEN = 14,             /* token */
    TYPE_NAME_ERROR_UNCLOSED_DELIMITER = 15,               /* token: the innermost */
    TYPE_NAME_ERROR_UNCLOSED_ANGLE = 16,                   /* token: the first `<` outside brackets */
    TYPE_NAME_ERROR_MISSING_TYPE_WORD = 17,                /* no identifier */
    TYPE_NAME_ERROR_INVALID_BOUNDARY_TOKEN = 18,           /* no type name begins or ends so */
    TYPE_NAME_ERROR_NESTING_LIMIT_EXCEEDED = 20,           /* over TYPE_NAME_MOST_NESTING */
    TYPE_NAME_ERROR_UNTERMINATED_GROUP = 21,               /* a list took the closer of a group; as 22 and 23 never of
                                                              type_name_read_named */
    TYPE_NAME_ERROR_MISMATCHED_CLOSING_DELIMITER = 22,     /* the same, and the next closer is of the other sort */
    TYPE_NAME_ERROR_UNEXPECTED_TOKEN_AFTER_TYPE_NAME = 23, /* proved never to come */
    TYPE_NAME_ERROR_ALLOWANCE_PASSED = 25,                 /* one more step would pass the allowance */
    TYPE_NAME_ERROR_SHIFT_WITHOUT_LIST = 26,               /* the second half of a `>>` finds no list at that bracket depth */
    TYPE_NAME_ERROR_EMPTY_OR_UNCLOSED_LIST = 27,           /* a list is empty, has an empty argument or is not closed */
    TYPE_NAME_ERROR_NO_TYPE_NAME = 30,                     /* the structure check finds no type */
    TYPE_NAME_ERROR_NOT_AVAILABLE_IN_PROFILE = 40,         /* detail: a type_name_feature */
    TYPE_NAME_ERROR_INVALID_RULE_TABLE = 50,               /* not of its form, or over TYPE_NAME_MOST_RULES rules */
    TYPE_NAME_ERROR_NO_RULE_MATCHES = 51                   /* no rule of the table matches */
};

enum type_name_feature {
    TYPE_NAME_FEATURE_LONG_LONG = 1,               /* `long long` */
    TYPE_NAME_FEATURE_ATOMIC = 2,                  /* `_Atomic( )` */
    TYPE_NAME_FEATURE_BIT_INT = 3,                 /* `_BitInt( )` */
    TYPE_NAME_FEATURE_TYPEOF = 4,                  /* `typeof( )` */
    TYPE_NAME_FEATURE_TYPEOF_UNQUAL = 5,           /* `typeof_unqual( )` */
    TYPE_NAME_FEATURE_DECLTYPE = 6,                /* `decltype( )` */
    TYPE_NAME_FEATURE_RVALUE_REFERENCE = 7,        /* `&&` */
    TYPE_NAME_FEATURE_SELECTOR = 8,                /* a selector with `=`, as in `real(kind=8)` */
    TYPE_NAME_FEATURE_DERIVED_TYPE = 9,            /* `type( )` */
    TYPE_NAME_FEATURE_CLASS = 10,                  /* `class( )` */
    TYPE_NAME_FEATURE_ASSUMED_TYPE_OR_RANK = 11    /* `type(*)`, `(..)` */
};

enum type_name_delimiter {
    TYPE_NAME_DELIMITER_PARENTHESIS = 1,    /* `(` */
    TYPE_NAME_DELIMITER_BRACKET = 2         /* `[` */
};

/* ---- the reader */

/* Reads the `file_len` bytes at `file`.
 *
 * Returns 0 if the type name is accepted, else the refusal's number, a type_name_error. Valid names that are refused, and
 * what to write instead: docs/DIFFERENCES.md.
 *
 * `answer` gets four numbers:
 *     accepted   0, nodes, steps, 0
 *     refused    number, token (TYPE_NAME_NO_TOKEN if none), detail, steps
 * of which the first min(TYPE_NAME_ANSWER_LENGTH, answer_len) are written; later numbers of `answer` stay.
 *
 * `tree` (tree_len numbers) gets, if the type name is accepted, TYPE_NAME_NODE_WIDTH numbers a node and then zeros to its
 * end. Refusals 1 to 6 leave it as it was; every other refusal fills it with zeros. Refusal 6 says that it has fewer than
 * TYPE_NAME_NUMBERS_PER_TOKEN numbers a token.
 *
 * All of that is proved for every file, every `tree` and every `answer`. No contract covers what the caller sees to:
 *   - `file`, `tree` and `answer` do not overlap;
 *   - each points to as many elements as is said, and stays valid during the call; nobody else writes them meanwhile;
 *   - `tree` and `answer` are aligned as uint32_t is;
 *   - a pointer is not NULL, even where its length is 0: any aligned address will do then. type_name_read_or_null below
 *     sees to this.
 *
 * The allowance, in the file's head, bounds the work: a step takes some 15 ns, and there are rows of 64 tokens that take
 * more than four thousand million. With the greatest allowance such a file, of 1,323 bytes, runs for a minute.
 * Whoever takes files from others lowers it with type_name_limit_allowance.
 *
 * It calls memcpy and memset of the C library, allocates nothing and keeps no state, so that threads may call it at the
 * same time.
 * Stack, as measured: at most 7 KB for some 5,600 rows of real type names, 49 KB for 64 nested groups with the structure
 * check, the most that was seen. */
uint32_t type_name_read(const uint8_t *file, size_t file_len,
                        uint32_t *tree, size_t tree_len,
                        uint32_t *answer, size_t answer_len);

/* Reads the `file_len` bytes at `file`, a type name of C++, by the names of its templates: `<` opens a list exactly if the word
 * right before it is one of `names`. For whoever knows these names: type_name_read is not given them, tries every `<` behind a
 * word as a list, and so refuses some valid type names and reads others otherwise than C++ means them.
 *
 * `names` (names_len bytes) is a name list: 1 to TYPE_NAME_MOST_NAMES token records of kind 0, one behind the other to its
 * end, without a head, no word twice. Words are compared byte for byte, and spans decide nothing. type_name_put_name below
 * writes such records.
 *
 * A list closes only at its own bracket depth. `>` closes the innermost list that was opened since the innermost open bracket,
 * `>>` the two innermost. Where there is none, `>`, `>>` and `,` are plain tokens, as is a `<` behind any other token.
 *
 * Returns 0 if the type name is accepted, else the refusal's number. `answer` gets what type_name_read gives it, as many of the
 * four numbers as it has room for:
 *     accepted   0, nodes, steps, 0
 *     refused    number, token (TYPE_NAME_NO_TOKEN if none), detail, steps
 *
 * Tested in this order: the file (1 to 5), `tree` (6), the name list and whether the language is C++ (8, after 0 steps), the
 * row (10 to 18, as type_name_read tests it), the reading (20, 25, 26, 27), structure and profile (25, 30, 40). Of the reading:
 *     20   groups and lists nest deeper than TYPE_NAME_MOST_NESTING
 *     26   a `>>` where just one list stands at that depth, even if another is open outside the bracket
 *     27   an argument is empty at a `,`, `>` or `>>`, or a bracket closes over an open list; at one token it comes before 26
 * 8, 26 and 27 name no token and have no detail; 21 to 23 never come.
 *
 * `tree` gets, if the type name is accepted, its nodes and then zeros. Refusals 1 to 6 leave it as it was; every other
 * refusal, 8 too, fills it with zeros.
 *
 * Nothing is tried: reading takes a step for each plain token, group and list that begins, and so at most one a token. The name
 * list is read anew in each call, which the allowance does not bound: as measured, that takes some 0.007 ms for 512 names of 10
 * bytes, and 0.04 s where 512 names of 255 bytes and a row are made to be slow.
 *
 * Proved and left to the caller as with type_name_read; `file` and `names` are only read and may overlap each other.
 * Stack, as measured: at most 13 KB for some 3,400 rows of real type names of C++, 54 KB for 64 nested groups with the structure
 * check, the most that was seen: 5 KB more than type_name_read takes for a row that both read alike. */
uint32_t type_name_read_named(const uint8_t *file, size_t file_len,
                              const uint8_t *names, size_t names_len,
                              uint32_t *tree, size_t tree_len,
                              uint32_t *answer, size_t answer_len);

/* Reads the `file_len` bytes at `file` as a comma list of type names: cuts the row into parts at its commas outside brackets
 * and angles, and reads each part as a row of its own. Parts are numbered from 0, and there is at least one: a row without
 * tokens is one empty part. Angles are counted as for refusal 12: the comma of `A<b,c>` cuts nothing, whether the reader makes
 * a list of it or not. A part that is refused with 11, 12 or 14 runs to the row's end.
 *
 * Returns 0 if all parts are accepted, else the refusal's number: that of the first part refused. `answer` gets as many of
 * five numbers as it has room for:
 *     accepted   0, nodes of all trees, steps, 0, parts
 *     refused    number, token (TYPE_NAME_NO_TOKEN if none), detail, steps, part
 * The part is TYPE_NAME_NO_PART with refusals 1 to 6, and with them alone. Tokens are numbered within their part, and commas
 * that cut belong to none; type_name_find_part below finds a part's first token. Steps are those of all parts up to there,
 * which share the allowance, first part first: 25 names the part in which it ran out.
 *
 * `tree` gets, if all parts are accepted, their trees, one behind the other, each as type_name_read would give it for its
 * part alone, and then zeros to its end. A tree begins exactly where a node has kind TYPE_NAME_NODE_TOKEN and token 0;
 * type_name_next_part below goes from one to the next. Refusals treat `tree` as those of type_name_read do, and 6 counts all
 * tokens of the row, commas too.
 *
 * An empty part is refusal 10, and 13 never comes.
 *
 * Proved and left to the caller as with type_name_read; its stack is that one's, for any number of parts. */
uint32_t type_name_read_list(const uint8_t *file, size_t file_len,
                             uint32_t *tree, size_t tree_len,
                             uint32_t *answer, size_t answer_len);

/* ---- the outer template */

/* Counts the arguments of the outer template of a tree: of the list that follows the word with which the tree begins.
 *
 * Returns how many there are, at least 1; or 0 if the tree does not begin with a word followed by a list. `A<b,c>` has 2,
 * `A<B<c>>` has 1, `A` and `::A<b>` have none. No number is a refusal's, and nothing is written.
 *
 * `tree` (tree_len numbers) is what type_name_read, type_name_read_named or type_name_match left there for an accepted type
 * name: the whole buffer, or its nodes alone, TYPE_NAME_NODE_WIDTH numbers each. Of what type_name_read_list left, the first
 * part decides; for another part, hand in its nodes, which type_name_next_part below finds.
 *
 * For a first pass that wants no more than this it is cheap: it looks at the first two nodes and goes from argument to
 * argument by their extents, past whatever stands below them. It never looks at a token number.
 *
 * Proved for every slice of numbers, of a tree or not and of any length:
 *   - for an accepted tree the answer is the number counted from the full tree, and it stays whatever numbers stand outside
 *     the first two nodes and the list's argument nodes. Behind a tree of one node no list may stand where the second node
 *     would be; in the buffers named above none does;
 *   - for all other numbers the answer is 0 unless they begin as such a tree does: a T of extent 1; an L of extent 2 or more
 *     that ends within tree_len; and from there to the L's end nothing but A after A by their extents, each of 1 or more and
 *     the last one ending with the L. Then it is the number of these A. A node of which tree_len cuts something off is past
 *     the end.
 *
 * No contract covers what the caller sees to: `tree` points to tree_len numbers, is aligned as uint32_t is and not NULL, even
 * where tree_len is 0 (type_name_outer_or_null below sees to this), and nobody writes it during the call. */
uint32_t type_name_outer(const uint32_t *tree, size_t tree_len);

/* ---- rule tables */

/* Reads the `file_len` bytes at `file` as type_name_read does, and finds the first rule of the table `rules` (rules_len
 * bytes, which may be none) that matches all top-level nodes of the tree.
 *
 * Returns 0 if a rule matches, else the refusal's number. `answer` gets as many of four numbers as it has room for:
 *     accepted   0, nodes, steps, place of the rule, from 0
 *     refused    number, token (TYPE_NAME_NO_TOKEN if none), detail, steps
 *
 * Tested in this order: the file (1 to 5), `tree` (6), the table (50, after 0 steps), the row (10 to 40), the rules (51,
 * after the row's steps). 50 and 51 name no token and have no detail.
 *
 * `tree` gets what type_name_read gives it; 50 and 51 fill it with zeros.
 *
 * Proved and left to the caller as with type_name_read; `file` and `rules` are only read and may overlap each other.
 * Stack, as measured: at most 8 KB more than type_name_read takes for the same file. */
uint32_t type_name_match(const uint8_t *file, size_t file_len,
                         const uint8_t *rules, size_t rules_len,
                         uint32_t *tree, size_t tree_len,
                         uint32_t *answer, size_t answer_len);

/* Finds the first pair of rules of the table `rules` (rules_len bytes) that some sequence of top-level nodes matches
 * together, be it of a row or not, among those that come after the pair (earlier, later): by the earlier rule's place, then
 * by the later's. Any two numbers may be handed in; 0, 0 comes before all pairs, and the pair of one call handed to the next
 * leads through all of them.
 *
 * Returns 0, else the refusal's number. `answer` gets as many of four numbers as it has room for:
 *     found             0, earlier, later, bytes of `sequence` that were written
 *     no further pair   0, 0, 0, 0; a pair has a later place of 1 or more
 *     refused           number, TYPE_NAME_NO_TOKEN, 0, 0
 *
 * `sequence` (sequence_len bytes) gets one such sequence, as items without a record's head: as many as the longer of the two
 * rules has without its rest, each taking one node, TYPE_NAME_ITEM_REST never among them. Bytes behind them stay.
 *
 * Tested in this order: the table (50), whether there is a further pair, `sequence` (6: too short for what is shown;
 * TYPE_NAME_LONGEST_SEQUENCE bytes always do). No refusal touches `sequence`.
 *
 * Proved and left to the caller as with type_name_read. A call looks at 32,640 pairs at most; as measured, that takes some
 * 1.5 ms for 256 rules of 16 token kinds, and 0.05 s for 256 of 16 of the longest words, all alike but for the last.
 * Stack, as measured: at most 7 KB. */
uint32_t type_name_overlap(const uint8_t *rules, size_t rules_len,
                           uint32_t earlier, uint32_t later,
                           uint8_t *sequence, size_t sequence_len,
                           uint32_t *answer, size_t answer_len);

/* ---- the old format */

/* Brings the `file_len` bytes at `file`, a file in the old format, over to the format that all functions above read: its
 * starts and ends become 8 bytes wide, and of a head with standard 255, which meant C18, C++17 or Fortran 2018 there, the
 * standard becomes TYPE_NAME_STANDARD_ARCHIVE, which means these here. Every other standard stays, and so does all else that
 * the file says: the new file gets the answer and the tree that the old one got. type_name_narrow gives the old file back,
 * byte for byte.
 *
 * Returns 0 if the file is converted, else the refusal's number. `answer` gets as many of four numbers as it has room for:
 *     converted   0, bytes of `output` that were written, 0, 0
 *     refused     number, TYPE_NAME_NO_TOKEN, detail (of 4 the record's byte offset in `file`, else 0), 0
 *
 * `output` (output_len bytes) gets the converted file; bytes behind it stay. No refusal touches `output`.
 *
 * Tested in this order: the length (1: over TYPE_NAME_OLD_MOST_BYTES), the head (2, 3), record by record its number and its
 * form (5, 4), `output` (6: too short). A file in the new format is 2, and standard 254 is 3. The row is not looked at: a
 * file whose row is refused is converted like others.
 *
 * The new file is longer than the old one by TYPE_NAME_TOKEN_LENGTH - TYPE_NAME_OLD_TOKEN_LENGTH bytes, 8, for each token.
 * A file has at most TYPE_NAME_MOST_TOKENS of them, so TYPE_NAME_MOST_WIDENED bytes, which are
 * TYPE_NAME_OLD_MOST_BYTES + 8 * TYPE_NAME_MOST_TOKENS, always do.
 *
 * Proved and left to the caller as with type_name_read. So `file` and `output` do not overlap: a file is not converted in
 * place. Stack, as measured: under 1 KB. */
uint32_t type_name_widen(const uint8_t *file, size_t file_len,
                         uint8_t *output, size_t output_len,
                         uint32_t *answer, size_t answer_len);

/* The inverse: brings a file over to the old format. There standard 255 is written for TYPE_NAME_STANDARD_ARCHIVE and, as the
 * old format has no number that means them all, for TYPE_NAME_STANDARD_DEFAULT the standard's own: TYPE_NAME_C23,
 * TYPE_NAME_CPP23 or TYPE_NAME_FORTRAN2023. type_name_widen gives the file back, save that a standard of 255 comes back as
 * that number, which means the same.
 *
 * All is as with type_name_widen but what is tested, in this order: the length (1: over TYPE_NAME_MOST_BYTES), the head (2,
 * 3), record by record its number and its form (5, 4), whether a span ends at 2^32 or later (7), whether the old file would
 * have more than TYPE_NAME_OLD_MOST_BYTES bytes (1), `output` (6: too short). A file in the old format is 2.
 *
 * The old file is never longer than the new one, so as many bytes of `output` as `file` has always do, and so do
 * TYPE_NAME_OLD_MOST_BYTES. */
uint32_t type_name_narrow(const uint8_t *file, size_t file_len,
                          uint8_t *output, size_t output_len,
                          uint32_t *answer, size_t answer_len);

/* ---- helpers, which are not proved */

/* The functions above, for callers whose pointers may be NULL where the length is 0. */
static inline uint32_t type_name_read_or_null(const uint8_t *file, size_t file_len,
                                              uint32_t *tree, size_t tree_len,
                                              uint32_t *answer, size_t answer_len)
{
    uint8_t no_byte = 0;
    uint32_t no_tree = 0, no_answer = 0;
    return type_name_read(file_len == 0 ? &no_byte : file, file_len,
                          tree_len == 0 ? &no_tree : tree, tree_len,
                          answer_len == 0 ? &no_answer : answer, answer_len);
}

static inline uint32_t type_name_read_named_or_null(const uint8_t *file, size_t file_len,
                                                    const uint8_t *names, size_t names_len,
                                                    uint32_t *tree, size_t tree_len,
                                                    uint32_t *answer, size_t answer_len)
{
    uint8_t no_byte = 0;
    uint32_t no_tree = 0, no_answer = 0;
    return type_name_read_named(file_len == 0 ? &no_byte : file, file_len,
                                names_len == 0 ? &no_byte : names, names_len,
                                tree_len == 0 ? &no_tree : tree, tree_len,
                                answer_len == 0 ? &no_answer : answer, answer_len);
}

static inline uint32_t type_name_read_list_or_null(const uint8_t *file, size_t file_len,
                                                   uint32_t *tree, size_t tree_len,
                                                   uint32_t *answer, size_t answer_len)
{
    uint8_t no_byte = 0;
    uint32_t no_tree = 0, no_answer = 0;
    return type_name_read_list(file_len == 0 ? &no_byte : file, file_len,
                               tree_len == 0 ? &no_tree : tree, tree_len,
                               answer_len == 0 ? &no_answer : answer, answer_len);
}

static inline uint32_t type_name_outer_or_null(const uint32_t *tree, size_t tree_len)
{
    uint32_t no_tree = 0;
    return type_name_outer(tree_len == 0 ? &no_tree : tree, tree_len);
}

static inline uint32_t type_name_match_or_null(const uint8_t *file, size_t file_len,
                                               const uint8_t *rules, size_t rules_len,
                                               uint32_t *tree, size_t tree_len,
                                               uint32_t *answer, size_t answer_len)
{
    uint8_t no_byte = 0;
    uint32_t no_tree = 0, no_answer = 0;
    return type_name_match(file_len == 0 ? &no_byte : file, file_len,
                           rules_len == 0 ? &no_byte : rules, rules_len,
                           tree_len == 0 ? &no_tree : tree, tree_len,
                           answer_len == 0 ? &no_answer : answer, answer_len);
}

static inline uint32_t type_name_overlap_or_null(const uint8_t *rules, size_t rules_len,
                                                 uint32_t earlier, uint32_t later,
                                                 uint8_t *sequence, size_t sequence_len,
                                                 uint32_t *answer, size_t answer_len)
{
    uint8_t no_rule = 0, no_item = 0;
    uint32_t no_answer = 0;
    return type_name_overlap(rules_len == 0 ? &no_rule : rules, rules_len, earlier, later,
                             sequence_len == 0 ? &no_item : sequence, sequence_len,
                             answer_len == 0 ? &no_answer : answer, answer_len);
}

static inline uint32_t type_name_widen_or_null(const uint8_t *file, size_t file_len,
                                               uint8_t *output, size_t output_len,
                                               uint32_t *answer, size_t answer_len)
{
    uint8_t no_byte = 0, no_output = 0;
    uint32_t no_answer = 0;
    return type_name_widen(file_len == 0 ? &no_byte : file, file_len,
                           output_len == 0 ? &no_output : output, output_len,
                           answer_len == 0 ? &no_answer : answer, answer_len);
}

static inline uint32_t type_name_narrow_or_null(const uint8_t *file, size_t file_len,
                                                uint8_t *output, size_t output_len,
                                                uint32_t *answer, size_t answer_len)
{
    uint8_t no_byte = 0, no_output = 0;
    uint32_t no_answer = 0;
    return type_name_narrow(file_len == 0 ? &no_byte : file, file_len,
                            output_len == 0 ? &no_output : output, output_len,
                            answer_len == 0 ? &no_answer : answer, answer_len);
}

/* Writes the lowest `bytes` bytes of a number, the least first. */
static inline void type_name_put_number(uint8_t *to, uint64_t number, size_t bytes)
{
    size_t i;
    for (i = 0; i < bytes; i++)
        to[i] = (uint8_t)(number >> (8 * i));
}

/* Writes a head record to the first bytes of `file`, which has `room` bytes.
 *
 * Returns the file's length then, TYPE_NAME_HEAD_LENGTH, or 0 if there is no room. The numbers are written as they are:
 * the reader refuses those that mean nothing. */
static inline size_t type_name_put_head(uint8_t *file, size_t room, enum type_name_language language, uint8_t standard,
                                        enum type_name_structure_check structure, uint32_t allowance)
{
    if (room < TYPE_NAME_HEAD_LENGTH)
        return 0;
    type_name_put_number(file, TYPE_NAME_HEAD_LENGTH, 2);
    type_name_put_number(file + 2, TYPE_NAME_HEAD_KIND, 2);
    file[4] = (uint8_t)language;
    file[5] = standard;
    file[6] = (uint8_t)structure;
    type_name_put_number(file + TYPE_NAME_ALLOWANCE_AT, allowance, 4);
    return TYPE_NAME_HEAD_LENGTH;
}

/* Whether a token record can hold the word. */
static inline int type_name_is_word(const char *word, size_t word_len)
{
    size_t i;
    for (i = 0; i < word_len; i++)
        if (word[i] < TYPE_NAME_LEAST_WORD_BYTE || word[i] > TYPE_NAME_GREATEST_WORD_BYTE)
            return 0;
    return 1 <= word_len && word_len <= TYPE_NAME_LONGEST_WORD;
}

/* Writes a token record behind the first `length` bytes, of which there are `room`; returns the length then, or 0. */
static inline size_t type_name_put_record(uint8_t *to, size_t room, size_t length, enum type_name_token_kind kind,
                                          const char *word, size_t word_len, uint64_t start, uint64_t end)
{
    size_t record = TYPE_NAME_TOKEN_LENGTH, i;
    if (kind == TYPE_NAME_KIND_IDENTIFIER) {
        if (!type_name_is_word(word, word_len))
            return 0;
        record += word_len;
    }
    if (length > room || room - length < record || start > end)
        return 0;
    to += length;
    type_name_put_number(to, record, 2);
    type_name_put_number(to + 2, (uint64_t)kind, 2);
    type_name_put_number(to + 4, start, 8);
    type_name_put_number(to + 12, end, 8);
    for (i = TYPE_NAME_TOKEN_LENGTH; i < record; i++)
        to[i] = (uint8_t)word[i - TYPE_NAME_TOKEN_LENGTH];
    return length + record;
}

/* Writes a token record behind the first `length` bytes of `file`, which has `room` bytes. `word` is looked at for
 * identifiers alone; `start` and `end` say where the token stands in the source and decide nothing.
 *
 * Returns the file's length then, or 0 if there is no room, no record can hold the word, the span ends before it starts, or
 * `length` is 0: so the last of several calls tells whether all went well. */
static inline size_t type_name_put_token(uint8_t *file, size_t room, size_t length, enum type_name_token_kind kind,
                                         const char *word, size_t word_len, uint64_t start, uint64_t end)
{
    return length == 0 ? 0 : type_name_put_record(file, room, length, kind, word, word_len, start, end);
}

/* Writes a name behind the first *length bytes of `names`, which has `room` bytes; an empty name list has 0.
 *
 * Returns 1, with *length the list's length then; or 0 if there is no room or no record can hold the name: then `names` and
 * *length stay. How many names a list may have, and that none stands twice, type_name_read_named tells. */
static inline int type_name_put_name(uint8_t *names, size_t room, size_t *length, const char *name, size_t name_len)
{
    size_t longer = type_name_put_record(names, room, *length, TYPE_NAME_KIND_IDENTIFIER, name, name_len, 0, 0);
    if (longer == 0)
        return 0;
    *length = longer;
    return 1;
}

/* Lowers the allowance of a row file to `most`, if it is greater. A file without a whole head stays as it is. */
static inline void type_name_limit_allowance(uint8_t *file, size_t file_len, uint32_t most)
{
    uint32_t allowance = 0;
    size_t i;
    if (file_len < TYPE_NAME_HEAD_LENGTH)
        return;
    for (i = 4; i > 0; i--)
        allowance = allowance << 8 | file[TYPE_NAME_ALLOWANCE_AT + i - 1];
    if (allowance > most)
        type_name_put_number(file + TYPE_NAME_ALLOWANCE_AT, most, 4);
}

/* Goes from a node of an accepted list to the first node of the next part. Nodes are numbered from 0, and part 0 begins with
 * node 0; `nodes` is the answer's second number.
 *
 * Returns that node's number, or `nodes` behind the last part: so a part's nodes are those from its first up to it. */
static inline uint32_t type_name_next_part(const uint32_t *tree, uint32_t nodes, uint32_t node)
{
    while (++node < nodes) {
        const uint32_t *record = tree + (size_t)TYPE_NAME_NODE_WIDTH * node;
        if (record[0] == TYPE_NAME_NODE_TOKEN && record[1] == 0)
            return node;
    }
    return nodes;
}

/* Finds a part in its row: any of a file that type_name_read_list accepted, or the part that it refused, or one before.
 *
 * Returns the number that the part's first token has in the row; of an empty part that of the comma behind it, or how many
 * tokens the row has. TYPE_NAME_NO_TOKEN if the tokens end before it. */
static inline uint32_t type_name_find_part(const uint8_t *file, size_t file_len, uint32_t part)
{
    size_t at = TYPE_NAME_HEAD_LENGTH, record;
    uint32_t token = 0, brackets = 0, angles = 0;
    while (part > 0 && at < file_len && file_len - at >= TYPE_NAME_TOKEN_LENGTH) {
        record = file[at] + ((size_t)file[at + 1] << 8);
        if (record < TYPE_NAME_TOKEN_LENGTH)
            break;
        switch (file[at + 2]) {
        case TYPE_NAME_KIND_LEFT_PAREN:
        case TYPE_NAME_KIND_LEFT_BRACKET:
            brackets++;
            break;
        case TYPE_NAME_KIND_RIGHT_PAREN:
        case TYPE_NAME_KIND_RIGHT_BRACKET:
            brackets--;
            break;
        case TYPE_NAME_KIND_LESS:
            if (brackets == 0)
                angles++;
            break;
        case TYPE_NAME_KIND_GREATER:
            if (brackets == 0)
                angles--;
            break;
        case TYPE_NAME_KIND_SHIFT_RIGHT:
            /* Where no angle is open it closes none. */
            if (brackets == 0 && angles > 0)
                angles -= 2;
            break;
        case TYPE_NAME_KIND_COMMA:
            if (brackets == 0 && angles == 0)
                part--;
            break;
        }
        at += record;
        token++;
    }
    return part == 0 ? token : TYPE_NAME_NO_TOKEN;
}

/* An item of a rule. */
struct type_name_item {
    enum type_name_item_kind item;
    uint8_t kind;       /* of TYPE_NAME_ITEM_KIND: a type_name_token_kind other than 0; else not looked at */
    const char *word;   /* of TYPE_NAME_ITEM_WORD: the word, with a zero byte behind it; else not looked at */
};

/* The bytes of an item, or 0 if no rule can have it. */
static inline size_t type_name_item_length(const struct type_name_item *item)
{
    size_t word_len = 0;
    switch (item->item) {
    case TYPE_NAME_ITEM_WORD:
        while (word_len <= TYPE_NAME_LONGEST_WORD && item->word[word_len] != 0)
            word_len++;
        return type_name_is_word(item->word, word_len) ? 2 + word_len : 0;
    case TYPE_NAME_ITEM_KIND:
        return 1 <= item->kind && item->kind <= TYPE_NAME_KIND_END ? 2 : 0;
    case TYPE_NAME_ITEM_GROUP:
    case TYPE_NAME_ITEM_LIST:
    case TYPE_NAME_ITEM_ANY:
    case TYPE_NAME_ITEM_REST:
        return 1;
    }
    return 0;
}

/* Writes an item of so many bytes. */
static inline void type_name_put_item(uint8_t *to, const struct type_name_item *item, size_t item_len)
{
    size_t i;
    to[0] = (uint8_t)item->item;
    if (item->item == TYPE_NAME_ITEM_KIND)
        to[1] = item->kind;
    if (item->item == TYPE_NAME_ITEM_WORD) {
        to[1] = (uint8_t)(item_len - 2);
        for (i = 2; i < item_len; i++)
            to[i] = (uint8_t)item->word[i - 2];
    }
}

/* Writes a rule of `count` items behind the first *length bytes of `table`, which has `room` bytes; an empty table has 0.
 *
 * Returns 1, with *length the table's length then; or 0 if there is no room, the rule has not 1 to TYPE_NAME_MOST_ITEMS
 * items, an item cannot stand in it, or the rest is not the last: then `table` and *length stay. How many rules a table may
 * have, the functions above tell. */
static inline int type_name_put_rule(uint8_t *table, size_t room, size_t *length,
                                     const struct type_name_item *items, size_t count)
{
    size_t lengths[TYPE_NAME_MOST_ITEMS], record = TYPE_NAME_RULE_HEAD_LENGTH, i;
    if (count < 1 || count > TYPE_NAME_MOST_ITEMS)
        return 0;
    for (i = 0; i < count; i++) {
        lengths[i] = type_name_item_length(&items[i]);
        if (lengths[i] == 0 || (items[i].item == TYPE_NAME_ITEM_REST && i + 1 < count))
            return 0;
        record += lengths[i];
    }
    if (*length > room || room - *length < record)
        return 0;
    table += *length;
    type_name_put_number(table, record, 2);
    type_name_put_number(table + 2, TYPE_NAME_RULE_KIND, 2);
    table += TYPE_NAME_RULE_HEAD_LENGTH;
    for (i = 0; i < count; i++) {
        type_name_put_item(table, &items[i], lengths[i]);
        table += lengths[i];
    }
    *length += record;
    return 1;
}

#ifdef __cplusplus
}
#endif

#endif
