/* Fejogbu: the replay of derivations in Dirac notation, for C and whatever calls C.
 *
 * Link target/staticlib/liblibrary.a, which `./build.sh library` proves and writes. Every function is proved to give what its contract in
 * crates/library/src/lib.rt says, for all contents of what it is lent: no function relies on its caller having looked first.
 *
 * A slice is two arguments: a pointer to its first item and the number of its items. What nothing can prove of a caller in C, and what is therefore asked:
 *   - a pointer is aligned, points to as many items as are said, and is not null, also where the number is 0;
 *   - a slice that is written overlaps no other slice of the same call;
 *   - nobody else writes the slices during the call.
 * A function keeps no pointer, allocates nothing and has no state: calls on other slices may run at the same time. It is tested with 256 kilobytes of stack.
 *
 * A term is a run of words in prefix order; a word is head * 256 + a. */
#ifndef FEJOGBU_H
#define FEJOGBU_H

#include <stddef.h>
#include <stdint.h>

#ifdef __cplusplus
extern "C" {
#endif

/* ---- sizes */
#define FEJOGBU_WORDS 4096         /* words of a work slice, and the most words of a term */
#define FEJOGBU_DECLARATIONS 6179  /* words of declarations */
#define FEJOGBU_STEP 8             /* words of a lent step */
#define FEJOGBU_STEPS 1000         /* the most steps of a derivation */
#define FEJOGBU_INDEX 63           /* words for an index of a type, and the most that it has */
#define FEJOGBU_FILE 65536         /* the most bytes of a file */
#define FEJOGBU_ANSWER 6           /* numbers of a replay's or a run's answer */
#define FEJOGBU_STEP_ANSWER 5      /* numbers of a single step's answer */
#define FEJOGBU_TYPING_ANSWER 9    /* numbers of a typing's answer, and of a preview's */

/* ---- what is returned where numbers are handed out: whether the slices for them were of their size */
#define FEJOGBU_ANSWERED 0  /* the answer's numbers are written */
#define FEJOGBU_REFUSED 1   /* a slice for the answer is of another size; nothing at all is touched */

/* ---- codes: an answer's first number. A number that a code does not name is 0. */
#define FEJOGBU_ACCEPTED 0        /* All steps are good and the ends agree; `step` is the count. A single step or a typing: it was good. */
/* the calling program's doing */
#define FEJOGBU_WORK_SIZE 1       /* A work slice is not 4,096 words long; the work slices are untouched. */
/* the typist's doing; the work slices are all zero. From 3 to 9 of a file, `at` is the line, from 1 */
#define FEJOGBU_TOO_LONG 2        /* The file has over 65,536 bytes. */
#define FEJOGBU_BAD_BYTE 3        /* A byte is neither LF nor 32 to 126, or the last byte is not LF. */
#define FEJOGBU_BAD_KEY 4         /* A key is missing or out of order, or a line stands behind the end. */
#define FEJOGBU_BAD_VALUE 5       /* A value is empty or not of its form; of lent steps, a side is neither 1 nor 2. */
#define FEJOGBU_TOO_MANY 6        /* There is one basis, var or step line too many; of lent steps, the count is over 1,000. */
#define FEJOGBU_BAD_DECLARATION 7 /* A declaration is not exactly the indices wanted, or breaks a limit or a name; where lent, also a mark on anything but an operator with two equal indices. */
#define FEJOGBU_BAD_TERM 8        /* A term has an unknown head, no children where it needs some, a wrong end, over 4,096 words, over 64 levels or an undeclared name. */
#define FEJOGBU_BAD_END 9         /* The end line differs from the steps present; of lent steps, so many do not fit their slice. */
#define FEJOGBU_UNTYPED 10        /* The term on the side named has no type; `at` is the offset of the part that has none. */
#define FEJOGBU_NO_TERM 11        /* The side named is an index or a basis, and not a term. */
#define FEJOGBU_TYPES_DIFFER 12   /* The two terms have different types. */
#define FEJOGBU_UNBOUND 13        /* On the side named a bound basis (head 28) has no such sum (head 27) around it, or a ninth sum is nested; `at` is the lowest offset of either. */
/* the doing of the maker of the steps: `step` is from 1, `at` its place, `side` its side, and the work slices hold the terms before it */
#define FEJOGBU_NO_RULE 20        /* There is no rule of this number. */
#define FEJOGBU_NO_PLACE 21       /* The place is not below the term's length. */
#define FEJOGBU_NO_INSTANCE 22    /* With these indices, the part at the place is no instance of the rule's left side. */
#define FEJOGBU_PAST_LIMITS 23    /* The result would pass 255 children, 4,096 words or 64 levels. */
#define FEJOGBU_ENDS_DIFFER 30    /* All steps are good and the ends differ; `at` is the first offset where they do. */

/* ---- sides, and kinds of types and variables */
#define FEJOGBU_LEFT 1
#define FEJOGBU_RIGHT 2
#define FEJOGBU_SCALAR 0
#define FEJOGBU_KET 1
#define FEJOGBU_BRA 2
#define FEJOGBU_OPERATOR 3
#define FEJOGBU_UNITARY 7         /* An operator that is declared unitary; of variables alone: its type is an operator's. */

/* Replays the bytes of a derivation's file. The answer is code, side (0 none, 1 left, 2 right), step, at, and the lengths in words of the terms that the two work slices are left with;
 * zeros stand behind them. */
uint64_t fejogbu_replay(const uint8_t *bytes, size_t bytes_size, uint16_t *left, size_t left_size, uint16_t *right, size_t right_size, uint64_t *answer,
                        size_t answer_size);

/* Takes the first `count` lent steps, of eight words each, on the terms in the first `n` words of `left` and the first `m` of `right`, and compares the ends. The answer is that of the
 * replay; 1, 7, 8, 6, 9, 5, then 13, 10 and 11 of the left, of the right, and 12 are tested in this order, and the lines that a file's 5 to 9 name are 0. */
uint64_t fejogbu_run(const uint16_t *declarations, size_t declarations_size, uint16_t *left, size_t left_size, size_t n, uint16_t *right, size_t right_size,
                     size_t m, const uint16_t *steps, size_t steps_size, size_t count, uint64_t *answer, size_t answer_size);

/* Takes one step on the term in the first `n` words of `term`: a rule at a place, with two indices among the children. The answer is code (0, 1, 7, 8, 13, 10, 11, 20 to 23), side (0), step (1
 * from 20 on and for a good step), at, and the length of the term that is left. */
uint64_t fejogbu_step(const uint16_t *declarations, size_t declarations_size, uint16_t *term, size_t term_size, size_t n, uint16_t rule, uint16_t place,
                      uint16_t i, uint16_t j, uint64_t *answer, size_t answer_size);

/* Shows one step before it is taken: the term is not written. The answer's first five numbers are those of `fejogbu_step`, then come the depth, the type's kind and the lengths of its
 * indices, as `fejogbu_typing` has them, of what the step would leave: each is what taking the step on a copy, and typing the copy, answers. On 20 to 23 that is the term as it stands; on 1,
 * 7, 8, 13, 10 and 11 length and depth are 0 and the type is a scalar. */
uint64_t fejogbu_preview(const uint16_t *declarations, size_t declarations_size, const uint16_t *term, size_t term_size, size_t n, uint16_t rule, uint16_t place,
                         uint16_t i, uint16_t j, uint64_t *answer, size_t answer_size, uint16_t *rows, size_t rows_size, uint16_t *columns, size_t columns_size);

/* Finds the type of the term in the first `n` words of `term`, which is not written. The answer is code (0, 1, 7, 8, 13, 10, 11), side (0), step (0), at, the term's length and depth, the
 * type's kind, and the lengths of the indices of its rows and of its columns. The words of these go into `rows` and `columns`, with zeros behind; a ket has rows alone, a bra columns
 * alone, a scalar neither. */
uint64_t fejogbu_typing(const uint16_t *declarations, size_t declarations_size, const uint16_t *term, size_t term_size, size_t n, uint64_t *answer,
                        size_t answer_size, uint16_t *rows, size_t rows_size, uint16_t *columns, size_t columns_size);

/* Looks up the part that begins at the offset `at` of any words: returns how many words it has and puts its depth into `*depth`; a leaf is 1 deep. Both are 0 exactly where the offset is
 * not below the size or no whole part begins there. Limits, names and types are not looked at. A part deeper than 4,096 levels, which no term has, takes time quadratic in its words. */
size_t fejogbu_part(const uint16_t *words, size_t words_size, size_t at, size_t *depth);

/* ---- declarations put together. What is not done changes nothing. The numbers are those of the codes: 6 and 7 say what they say of a file */
#define FEJOGBU_PUT_DONE 0        /* The name is declared. */
#define FEJOGBU_PUT_WRONG_SIZE 1  /* The slice is not 6,179 words long: the calling program's doing, as code 1. */
#define FEJOGBU_PUT_FULL 6        /* There are 32 names of this kind already. */
#define FEJOGBU_PUT_BAD 7         /* There are too many types, the kind is none, a mark stands where none may, or the words are not exactly the indices wanted. */

/* Declares so many types, at most 32, and no basis and no variable, whatever stood in the slice before. */
uint64_t fejogbu_start_declarations(uint16_t *declarations, size_t declarations_size, size_t types);

/* Declares one basis name more, of an index. */
uint64_t fejogbu_put_basis(uint16_t *declarations, size_t declarations_size, const uint16_t *index, size_t index_size);

/* Declares one variable more: a scalar has no index, a ket or a bra its index as the first, an operator that of its rows and that of its columns, which
 * are equal where it is declared unitary. An absent index has 0 words. */
uint64_t fejogbu_put_variable(uint16_t *declarations, size_t declarations_size, uint16_t kind, const uint16_t *first, size_t first_size, const uint16_t *second,
                              size_t second_size);

/* Writes a step as the k-th, from 0, of those in `steps`, and returns 1; where there is no room for it, or the side is neither 1 nor 2, it changes nothing and returns 0. */
uint64_t fejogbu_put_step(uint16_t *steps, size_t steps_size, size_t k, uint16_t side, uint16_t rule, uint16_t place, uint16_t i, uint16_t j);

#ifdef __cplusplus
}
#endif
#endif
