/* Malachirp for C and C++: where one to three polynomials in one to three variables can all be zero in the unit box.
 *
 * Link with crates/malachirp/out/libmalachirp.a, which `rt lib` in crates/malachirp writes (x86-64 Linux; it needs memset and nothing else). There is no heap
 * and no state of its own: a call works in what it is lent, so calls on different places may run at the same time. examples/c/boxes.c shows a whole run.
 *
 * Every call answers with a code: 0 for done, else the number of the refusal, and sets *offset: where a file is read, to the byte that a refusal speaks of;
 * in every other case to 0. Nothing else is changed by a refusal, whatever was lent. That, and what each call leaves in every place, is proved.
 *
 * What the caller owes, as in Rust: a pointer is not null, also where its length is 0, and aligned for its type; the places behind it are as many as the array
 * has, or as the length says, and hold values; what is lent for writing overlaps nothing else that is lent to the same call. Lengths count elements, not bytes.
 *
 * What a run or a visit cannot see: whether its state and stores are those of a start with the same head. It tests what the rules let it test, and refuses 10;
 * any other state, one that no start made or under another head than the start's, is run by the rules as it stands, and then finished says nothing: zeros may
 * lie outside the list. Keep head, state, store and list of a search together, and change none of them between calls.
 *
 * From Rust the same functions are declared in an `extern "C"` block, a slice as its pointer and its length: examples/rust/boxes.rs. */
#ifndef MALACHIRP_H
#define MALACHIRP_H

#include <stddef.h>
#include <stdint.h>

#ifdef __cplusplus
extern "C" {
#endif

/* The codes. */
enum {
    MALACHIRP_DONE = 0,
    MALACHIRP_ENDED = 1,             /* input ends inside a record or before the last */
    MALACHIRP_NOT_DUE = 2,           /* a kind or a polynomial number other than the one due */
    MALACHIRP_WRONG_LENGTH = 3,      /* length wrong for the kind */
    MALACHIRP_OUT_OF_LIMITS = 4,     /* a head value outside its range, or S above 64 */
    MALACHIRP_EXPONENT_TOO_HIGH = 5, /* exponent above its degree */
    MALACHIRP_BAD_COEFFICIENT = 6,   /* coefficient beyond 10^9 in size; in a file also zero */
    MALACHIRP_NOT_RISING = 7,        /* place not above the term before */
    MALACHIRP_EXTRA_BYTES = 8,       /* bytes after the last record */
    MALACHIRP_TOO_SHORT = 9,         /* a lent buffer too short */
    MALACHIRP_OUTSIDE_RULES = 10     /* a box or a state outside the rules */
};

/* The words that a run or a visit stops with; 0 where a visit was made. */
enum {
    MALACHIRP_VISITED = 0,
    MALACHIRP_FINISHED = 1, /* nothing waits: the list is whole, if a start with this head began the search */
    MALACHIRP_SPENT = 2,    /* the budget is used up, and boxes wait */
    MALACHIRP_FULL = 3      /* the next box would be kept, and the list has no room */
};

/* What becomes of a box in a visit. */
enum { MALACHIRP_DROPPED = 1, MALACHIRP_KEPT = 2, MALACHIRP_CUT = 3 };

/* Lengths that are enough for every system. malachirp_sizes gives those of one. */
#define MALACHIRP_MOST_COEFFICIENTS 192
#define MALACHIRP_MOST_STORE 6138
#define MALACHIRP_LONGEST_FILE 1375

/* A head is 8 bytes: l, m, n1, n2, n3, g1, g2, g3 (variables, polynomials, degrees, depths).
 * A state is four counts: waiting, kept, visits, dropped.
 * A kept box is a record of seven numbers: s1, k1, s2, k2, s3, k3, mark. In direction r it reaches from k/2^s to (k+1)/2^s. Mark 1: it has its full depth;
 * mark 2: its numbers are too large to cut. */

/* Reads a system file. Done: head is the file's, and the first m x S places of coefficients are filled, polynomial after polynomial; the term (i1,i2,i3) has
 * place (i1 x (n2+1) + i2) x (n3+1) + i3. Places beyond are as they were. Refuses 1 to 8 with the offset in the file, and 9 for too few places. */
uint32_t malachirp_read(const uint8_t *file, size_t file_length, int64_t *coefficients, size_t coefficients_length, uint8_t head[8], uint64_t *offset);

/* Writes a system file. Done: its bytes stand at the front of file, and *length is how many they are; bytes beyond are as they were. Refuses 4; 9 for fewer
 * than m x S coefficients; 6; 9 where file is shorter than this very system's bytes. */
uint32_t malachirp_write(const uint8_t head[8], const int64_t *coefficients, size_t coefficients_length, uint8_t *file, size_t file_length, uint64_t *length,
                         uint64_t *offset);

/* How long the places are that a system needs: sizes[0] is m x S, its coefficients; sizes[1] is (D+1) x (6 + m x S), its waiting store. Refuses 4. */
uint32_t malachirp_sizes(const uint8_t head[8], uint64_t sizes[2], uint64_t *offset);

/* Starts a search: the unit box in slot 0 of the waiting store, zeros in the other D slots, nothing beyond; state is 1, 0, 0, 0. Refuses 4; 9 for fewer than
 * m x S coefficients; 6; 9 for a short store. */
uint32_t malachirp_start(const uint8_t head[8], const int64_t *coefficients, size_t coefficients_length, int64_t *store, size_t store_length, uint64_t state[4],
                         uint64_t *offset);

/* Makes up to `budget` visits. Done: *word says why it stopped (finished, spent or full), state, store and list are those after the visits. The list has
 * list_length / 7 records; those past the kept count are not written. Call it again with the same head and with state, store and list as it left them to
 * continue, also with a longer list that begins with the same records. With budget 0 it only tests the state. Refuses 4; 9 for a short store; 10 for a state
 * outside the rules, also where more boxes are kept than the list has room for. */
uint32_t malachirp_run(const uint8_t head[8], uint32_t budget, int64_t *store, size_t store_length, uint16_t *list, size_t list_length, uint64_t state[4],
                       uint32_t *word, uint64_t *offset);

/* Makes one visit. Done with *word 0: the visit was made, and seen holds the box, s1, k1, s2, k2, s3, k3, then what became of it: dropped (1), the polynomial
 * from 1 on, and its sign (1 above, 2 below zero); kept (2), the mark, 0; or cut (3), the direction from 1 on, 0. Done with *word finished or full: nothing
 * else is changed. Refuses as malachirp_run does. */
uint32_t malachirp_visit(const uint8_t head[8], int64_t *store, size_t store_length, uint16_t *list, size_t list_length, uint64_t state[4], uint16_t seen[9],
                         uint32_t *word, uint64_t *offset);

/* A kept box for the table builder: in each direction its middle and its half width, (2k+1)/2^(s+1) and 1/2^(s+1), both exact: middle 1, half width 1,
 * middle 2, and so on. Refuses 10 for an s above 10 or a k not below 2^s. */
uint32_t malachirp_middles(const uint16_t kept[7], double middles[6], uint64_t *offset);

#ifdef __cplusplus
}
#endif

#endif
