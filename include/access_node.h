/* The access node: calls on byte slices and numbers.
 *
 * docs/FORMATS.md has the records byte by byte and every refusal with what helps;
 * docs/OPERATORS.md what the firmware must do and must never do.
 *
 * Slices. Each length is that of the slice before it, in bytes. A slice is a non-null pointer,
 * also where its length is 0, of any alignment. The caller owns every slice; a call changes no
 * input slice, keeps no pointer and allocates nothing.
 *
 * Not in place. The slices of one call do not overlap: the output slice is another buffer than the
 * image that is handed in. A call that breaks this may seem to work with one build of the library
 * and fail with the next.
 *
 * Checkpoints. node_checkpoint writes one of kind 26, and an image begins with one. Behind S it has
 * the ordinary notice and the restart notice, 1 to 30 days each: the least age of the proposal of a
 * certify, minima or remove, and of a rejoin. A minima sets them in its two bytes behind S, where 0
 * keeps one; other numbers are malformed. node_start also takes a checkpoint of kind 16, which has
 * no notices, with 7 and 2.
 *
 * Image. What the node holds from one call to the next. Where a call writes an image
 * (ACCESS_NODE_WRITES_IMAGE) it is the node's from then on, else the one that was handed in stays
 * the node's. The answers 19, 20 and 21 write one too: it counts the miss, and a firmware that
 * drops it takes the lock (17) off the door.
 *
 * Doors. A hub has up to ACCESS_NODE_DOORS panels, doors 0 to 3. The image ends with their misses,
 * a byte for each door, 0 to 10. A query names its door in its last byte
 * (ACCESS_NODE_KIND_DOOR_QUERY), or asks at door 0 (ACCESS_NODE_KIND_QUERY). It counts, clears and
 * looks at the misses of that door alone. A performed action and a start clear those of all doors.
 *
 * Loss of power. Store the image that a call wrote, then switch to it, in one step that a loss of
 * power cannot cut in half; only then act on the answer. Above all a vote is sent only after the
 * image that holds it is stored: a node that forgets its vote can vote again in the same cycle.
 *
 * Return value. The low 8 bits are the answer (ACCESS_NODE_ANSWER): ACCESS_NODE_OK,
 * ACCESS_NODE_VOTED or the number of the refusal. The bits above are a count (ACCESS_NODE_COUNT):
 * the lines of a page, the announcements of a roster, the length of a roster's line, the shares of a
 * key or the bytes of a sum of shares that are given; 0 for every refusal and for the other calls.
 * The rules are tried in this order: 1, 2, 22 (a page: 23), then the others from the lowest number
 * up.
 *
 * Output. A call writes all that it gives to the front of its output slice, or leaves the slice as
 * it was. A longer slice keeps its tail.
 *
 * Threads. The library has no variables of its own: calls on different slices may run at once.
 *
 * Work. Each call returns for every input. No loop runs over more than a checkpoint's 1,110 bytes,
 * 64 rows, 32 seats, 16 proposals, the 47 characters of a page's 64 lines, the 34 of a roster's or
 * the 32 bytes of 16 shares; a sum of shares is as long as its first slice. docs/PERFORMANCE.md has
 * the instructions of each call.
 *
 * Stack. ACCESS_NODE_STACK_* is the most that a call was measured to use (tests/stack_use.c), in
 * bytes, rounded up with at least 512 to spare.
 *
 * Target. libnode_c.a is for x86-64 (System V ABI, ELF) and for nothing else. It uses SSE2
 * registers and the red zone below the stack pointer, so a call needs a stack of its own that is
 * aligned as the ABI says, and an interrupt handler saves those registers. It calls memcpy and
 * memset and no other function, so it needs no C library beyond these two, and has no unwind tables.
 */
#ifndef ACCESS_NODE_H
#define ACCESS_NODE_H

#include <stddef.h>
#include <stdint.h>

#ifdef __cplusplus
extern "C" {
#endif

/* Which calls, records and rules this header is for. Edition 2 adds node_page, edition 3
 * node_roster_import and node_roster_export; nothing else changes in them. In edition 4 proposals
 * lapse after 60 days: no record changes, but the rules do. In edition 5 each door has its own
 * misses: a query of kind 21 names its door, and the image grows by 3 bytes; an image of 1,139
 * bytes, as earlier editions wrote it, is malformed. In edition 6 a rejoin needs a proposal, of
 * subject kind 7: every checkpoint of an earlier edition is read as before, but one with such a
 * proposal is malformed in those. In edition 7 a park sets its notices: minima has two more bytes,
 * and so have the checkpoint that is written, now of kind 26, and the image. A checkpoint of kind 16
 * is read as before, with notices 7 and 2; an image of 1,142 bytes is malformed. In edition 8 a
 * grant into a full list takes the row of a login that is over: no record changes, but the rules do.
 * Edition 9 adds node_shares_split and node_shares_merge, edition 10 node_shares_add; nothing else
 * changes in them. All nodes of a park run under the same rules: those of editions 1 to 3, of
 * edition 4, of 5, of 6, of 7, or of 8 to 10. */
#define ACCESS_NODE_EDITION 10

/* Sizes of whole records; the earlier checkpoint is that of kind 16. A sheet has 0 to
 * ACCESS_NODE_MOST_ROWS rows. */
#define ACCESS_NODE_CHECKPOINT_SIZE 1110
#define ACCESS_NODE_EARLIER_CHECKPOINT_SIZE 1108
#define ACCESS_NODE_IMAGE_SIZE 1144
#define ACCESS_NODE_START_SIZE 9
#define ACCESS_NODE_ANNOUNCEMENT_SIZE 24
#define ACCESS_NODE_SHEET_SIZE(rows) (7 + 5 * (rows))
#define ACCESS_NODE_MOST_ROWS 64
#define ACCESS_NODE_QUERY_SIZE 13
#define ACCESS_NODE_DOOR_QUERY_SIZE 14

/* Doors are numbered from 0. */
#define ACCESS_NODE_DOORS 4

/* A page has a line for each login, of 46 characters and a line feed. */
#define ACCESS_NODE_LINE_SIZE 47
#define ACCESS_NODE_MOST_LOGINS 64
#define ACCESS_NODE_PAGE_SIZE(lines) (ACCESS_NODE_LINE_SIZE * (lines))

/* A roster has a line for each grant: at most 34 characters where its fields are quoted, and
 * ACCESS_NODE_ROSTER_LINE_SIZE as node_roster_export writes it. */
#define ACCESS_NODE_ROSTER_LINE_SIZE 28
#define ACCESS_NODE_ROSTER_MOST_LINES 64

/* The key that seals checkpoints, and each share of it. A key has ACCESS_NODE_FEWEST_SHARES to
 * ACCESS_NODE_MOST_SHARES shares, and as many of them rebuild it, at most all. */
#define ACCESS_NODE_KEY_SIZE 32
#define ACCESS_NODE_FEWEST_SHARES 2
#define ACCESS_NODE_MOST_SHARES 16
#define ACCESS_NODE_COEFFICIENTS_SIZE(k) (ACCESS_NODE_KEY_SIZE * ((k)-1))
#define ACCESS_NODE_SHARES_SIZE(n) (ACCESS_NODE_KEY_SIZE * (n))

/* The kinds of records. Those of announcements are the nine actions. */
#define ACCESS_NODE_KIND_PROPOSE 1
#define ACCESS_NODE_KIND_CANCEL 2
#define ACCESS_NODE_KIND_PRESENTS 3
#define ACCESS_NODE_KIND_CERTIFY 4
#define ACCESS_NODE_KIND_MINIMA 5
#define ACCESS_NODE_KIND_REMOVE 6
#define ACCESS_NODE_KIND_REJOIN 7
#define ACCESS_NODE_KIND_GRANT 8
#define ACCESS_NODE_KIND_END 9
#define ACCESS_NODE_KIND_EARLIER_CHECKPOINT 16
#define ACCESS_NODE_KIND_SHEET 18
#define ACCESS_NODE_KIND_START 19
#define ACCESS_NODE_KIND_QUERY 20
#define ACCESS_NODE_KIND_DOOR_QUERY 21
#define ACCESS_NODE_KIND_CHECKPOINT 26

/* Answers. */
#define ACCESS_NODE_OK 0             /* started, performed, open; what was asked for is given */
#define ACCESS_NODE_MALFORMED 1      /* an input slice other than the sheet is malformed */
#define ACCESS_NODE_BAD_SHEET 2      /* the sheet is malformed */
#define ACCESS_NODE_HALTED 3         /* the node's own seat is retired */
#define ACCESS_NODE_CYCLE_PASSED 4   /* announced for a cycle before the node's */
#define ACCESS_NODE_CYCLE_AHEAD 5    /* announced for a cycle after the node's */
#define ACCESS_NODE_LAST_CYCLE 6     /* the node is in cycle 4294967295 */
#define ACCESS_NODE_DAY_BACK 7       /* announced for a day before the agreed day */
#define ACCESS_NODE_NOT_SIGNED 8     /* too few trustees of the level that the kind needs */
#define ACCESS_NODE_SEAT_UNFIT 9     /* the seat's standing does not fit the kind or the start */
#define ACCESS_NODE_NOT_NOTICED 10   /* no equal proposal from its notice up to 60 days old */
#define ACCESS_NODE_TABLE_FULL 11    /* no row left for a proposal; for a login, and none is over */
#define ACCESS_NODE_QUORUM_LOST 12   /* fewer seats would be present than the quorum needs */
#define ACCESS_NODE_NOT_FOUND 13     /* no such proposal, or a lapsed one; no such login to end */
#define ACCESS_NODE_TOO_LOW 14       /* a life not above the listed one, or a grant that is over */
#define ACCESS_NODE_CANNOT_VOTE 15   /* no quorum, and the own seat is not present at this life */
#define ACCESS_NODE_VOTED_OTHER 16   /* no quorum, and voted for other bytes in this cycle */
#define ACCESS_NODE_LOCKED 17        /* ten bad queries at this door, none open between them */
#define ACCESS_NODE_SILENT 18        /* nothing was performed for longer than the silence limit */
#define ACCESS_NODE_NOT_LISTED 19    /* no such login; one miss is added at this door */
#define ACCESS_NODE_ENDED 20         /* the login's last day is over; one miss is added */
#define ACCESS_NODE_RIGHT_NOT_HELD 21 /* the login has no such right; one miss is added */
#define ACCESS_NODE_NO_ROOM 22       /* the output slice is too short for the image or checkpoint */
#define ACCESS_NODE_NO_PAGE_ROOM 23  /* the output slice is too short for the page */
#define ACCESS_NODE_BAD_ROSTER 24    /* the roster is malformed or too long, or no such grant */
#define ACCESS_NODE_NO_ROSTER_ROOM 25 /* the output slice is too short for the grants or the line */
#define ACCESS_NODE_OUT_OF_RANGE 26  /* k or n is not from 2 to 16, or k is above n */
#define ACCESS_NODE_BAD_SHARE_NUMBER 27 /* a number of the first k is zero, above n or comes twice */
#define ACCESS_NODE_TOO_SHORT 28     /* a slice of a split, merge or sum is too short */
#define ACCESS_NODE_VOTED 128        /* the node voted for the announcement */

/* The two parts of what a call returned. */
#define ACCESS_NODE_ANSWER(returned) ((uint32_t)(returned) & 255u)
#define ACCESS_NODE_COUNT(returned) ((uint32_t)(returned) >> 8)

/* Whether start, deliver or query wrote an image, of what it returned. */
#define ACCESS_NODE_WRITES_IMAGE(returned)                                   \
    (ACCESS_NODE_ANSWER(returned) == ACCESS_NODE_OK ||                       \
     ACCESS_NODE_ANSWER(returned) == ACCESS_NODE_VOTED ||                    \
     (ACCESS_NODE_ANSWER(returned) >= ACCESS_NODE_NOT_LISTED &&              \
      ACCESS_NODE_ANSWER(returned) <= ACCESS_NODE_RIGHT_NOT_HELD))

/* Starts a node from a checkpoint of either kind, at the seat and under the life of a start record.
 * Refusals: 1, 22, 9, 14. Writes the image with 0: no vote, no misses. A refused start makes no
 * node. */
#define ACCESS_NODE_STACK_START 8192
uint32_t node_start(const uint8_t *checkpoint, size_t checkpoint_length,
                    const uint8_t *start, size_t start_length,
                    uint8_t *image_out, size_t image_out_length);

/* Delivers an announcement with its sheet: performs it where the sheet shows a quorum, else votes.
 * Refusals: 1, 2, 22, 3 to 16. Writes the image with 0, then with no vote and no misses, and with
 * ACCESS_NODE_VOTED. */
#define ACCESS_NODE_STACK_DELIVER 16384
uint32_t node_deliver(const uint8_t *image, size_t image_length,
                      const uint8_t *announcement, size_t announcement_length,
                      const uint8_t *sheet, size_t sheet_length,
                      uint8_t *image_out, size_t image_out_length);

/* Asks at a door whether a login may use a right on a day.
 * Refusals: 1 (also for a door above 3), 22, 3, 17 to 21. Writes the image with 0, the misses of
 * that door 0, and with 19 to 21, one more; those of the other doors stay. */
#define ACCESS_NODE_STACK_QUERY 7168
uint32_t node_query(const uint8_t *image, size_t image_length,
                    const uint8_t *query, size_t query_length,
                    uint8_t *image_out, size_t image_out_length);

/* Gives the checkpoint of the node's state, of kind 26 whatever kind the node was started from.
 * Refusals: 1, 22. Writes the checkpoint with 0. */
#define ACCESS_NODE_STACK_CHECKPOINT 5120
uint32_t node_checkpoint(const uint8_t *image, size_t image_length,
                         uint8_t *checkpoint_out, size_t checkpoint_out_length);

/* Gives the access page: the login list as text, with what a query would meet on the given day, a
 * count from 1970-01-01. A slice of ACCESS_NODE_PAGE_SIZE(ACCESS_NODE_MOST_LOGINS) bytes holds every
 * page; there is no zero byte behind it. Halted nodes and those with locked doors give it too.
 * Refusals: 1, 23. Writes the page with 0, and no image; ACCESS_NODE_COUNT is its number of lines. */
#define ACCESS_NODE_STACK_PAGE 6144
uint32_t node_page(const uint8_t *image, size_t image_length, uint32_t day,
                   uint8_t *page_out, size_t page_out_length);

/* The next two calls ask nothing of a node: an office can make them as well.
 *
 * Turns a roster (RFC 4180, no header; each line a login, its end date and its rights:
 * docs/FORMATS.md) into grant announcements of ACCESS_NODE_ANNOUNCEMENT_SIZE bytes each, one for
 * each line in their order, for a day and for cycles that rise by one from a given one. A slice of
 * ACCESS_NODE_ROSTER_MOST_LINES times that size holds all that a roster can give.
 * Refusals: 24, 25. Writes the announcements with 0; ACCESS_NODE_COUNT is their number. */
#define ACCESS_NODE_STACK_ROSTER_IMPORT 3072
uint32_t node_roster_import(const uint8_t *roster, size_t roster_length,
                            uint32_t cycle, uint32_t day,
                            uint8_t *announcements_out, size_t announcements_out_length);

/* Gives the line of a roster for a grant announcement that ends by 2099-12-31. A slice of
 * ACCESS_NODE_ROSTER_LINE_SIZE bytes holds every line; there is no zero byte behind it.
 * Refusals: 24, 25. Writes the line with 0; ACCESS_NODE_COUNT is its length. */
#define ACCESS_NODE_STACK_ROSTER_EXPORT 1024
uint32_t node_roster_export(const uint8_t *announcement, size_t announcement_length,
                            uint8_t *line_out, size_t line_out_length);

/* The three calls below are for the trustees' own computer, and ask nothing of a node. The first two
 * look into tables at places that depend on the key: how long a call takes, and what it leaves in
 * the processor's caches, is not covered.
 *
 * Splits a key among n trustees so that any k of them rebuild it (Shamir's scheme, byte by byte in
 * the field of 256 elements with polynomial 0x11B). Each key byte has k-1 coefficients, in rising
 * degree, key byte by key byte: draw ACCESS_NODE_COEFFICIENTS_SIZE(k) bytes from the system's random
 * source for each split, and clear them after it. Whoever knows them and one share knows the key.
 * Shares are written from share 1 to share n. Longer input slices count by their front.
 * Refusals: 26, 28. Writes the shares with 0; ACCESS_NODE_COUNT is their number, n. */
#define ACCESS_NODE_STACK_SHARES_SPLIT 2048
uint32_t node_shares_split(const uint8_t *key, size_t key_length,
                           uint32_t k, uint32_t n,
                           const uint8_t *coefficients, size_t coefficients_length,
                           uint8_t *shares_out, size_t shares_out_length);

/* Gives the key of the first k shares. Number j, a byte from 1 to n, is that of the 32 bytes at
 * place j of the shares; any order will do. Nothing tells a wrong share from a right one: a key is
 * given, whether it is the right one or not.
 * Refusals: 26, 27 (judged on the numbers that are there, where they are fewer than k), 28. Writes
 * the key with 0. */
#define ACCESS_NODE_STACK_SHARES_MERGE 2048
uint32_t node_shares_merge(uint32_t k, uint32_t n,
                           const uint8_t *numbers, size_t numbers_length,
                           const uint8_t *shares, size_t shares_length,
                           uint8_t *key_out, size_t key_out_length);

/* Gives the sum of two runs of shares, byte for byte in the field: the exclusive or. The first slice
 * decides how many bytes, any number of them, 0 too; longer other slices count by their front.
 * Where both runs have the same numbers in the same order, of splits with the same k and n, the sum
 * is a run of shares of the sum of the two keys. So shares of a key of 32 zeros, split with new
 * coefficients, renew a set: its key stays, and new shares do not go together with old ones.
 * Refusals: 28. Writes the sum with 0; ACCESS_NODE_COUNT is the number of bytes, of which it holds
 * the low 24 bits. */
#define ACCESS_NODE_STACK_SHARES_ADD 1024
uint32_t node_shares_add(const uint8_t *shares, size_t shares_length,
                         const uint8_t *more_shares, size_t more_shares_length,
                         uint8_t *shares_out, size_t shares_out_length);

#ifdef __cplusplus
}
#endif

#endif
