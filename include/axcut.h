/*
 * AxCut's linearization over binary program images, and steppers that run such images; docs/FORMAT.md says the bytes. Proved in Rattle,
 * docs/SPEC.md says what is proved.
 *
 * The functions are those of target/staticlib/libaxcut.a, which `make library` builds; x86-64 Linux. They need nothing of the C library but
 * memcpy, memmove and memset, take no memory but the caller's buffers and the stack (less than 640 KiB of it), keep nothing between calls,
 * and may be called from any number of threads at once.
 *
 * What holds for every call:
 *
 * - Every sequence of bytes, every number and every length of a buffer is allowed. What is no image, or an image that cannot be answered, is
 *   refused; so is a start or a store that does not fit the image.
 * - Not allowed are a null pointer with a length above 0, a null pointer to a result (`length`, `max_id`, `made`), a length above what is
 *   lent, and memory that overlaps: each buffer and each result is a place of its own. They are lent for the time of the call, and nothing
 *   else writes to them meanwhile.
 * - The function returns 0 for acceptance, or the number of the first question below whose answer is no, in the order that is said with it.
 * - The results are set on every call. `image` and `values` are never changed.
 *
 * What holds for axcut_read, axcut_check, axcut_linearize and axcut_annotate:
 *
 * - On acceptance *length is the number of bytes that were written to `out` (0 where there is no `out`), and *max_id the image's max_id, for
 *   axcut_linearize that of the output. On a refusal both are 0.
 * - Of `out`, acceptance changes the first *length bytes; the refusals 11 and 12 set the whole buffer to zero; any other refusal leaves it as
 *   it was.
 *
 * What holds for the steppers stands with them.
 */
#ifndef AXCUT_H
#define AXCUT_H

#include <stddef.h>
#include <stdint.h>

#ifdef __cplusplus
extern "C" {
#endif

/* The questions, and the number for no. */
enum axcut_question {
    AXCUT_ACCEPTED = 0,
    AXCUT_SIZE = 1,          /* Has it 8 to 65,535 bytes? */
    AXCUT_LAYOUT_NUMBER = 2, /* Is the layout number 1? */
    AXCUT_DIRECTORY = 3,     /* Is N at most 4,000, and do the pairs tile the bytes from 8 + 4 * N to the end? */
    AXCUT_RECORD_FORM = 4,   /* Is each record of kind 1 to 13, of exactly its length, every count at most 128, every code, mark
                                and newline byte in range, I64's four bytes zero? */
    AXCUT_SHAPE = 5,         /* Are the records D definitions in pre-order, at most 128 statements deep? */
    AXCUT_LINEARIZED = 6,    /* Is it free of Substitute and of environments? */
    AXCUT_LIMITS = 7,        /* Are there at most 2,000 records, depth 64, counts 32, and 64 bindings in scope, repeats counted? */
    AXCUT_BINDERS = 8,       /* Does each binder take an ID not in scope there and not earlier in its list? */
    AXCUT_SCOPE = 9,         /* Is each variable used in scope? */
    AXCUT_MAX_ID = 10,       /* Is max_id at least every binder's ID? */
    AXCUT_DRAWS = 11,        /* Is max_id plus the fresh IDs that the rules draw at most 65,535? */
    AXCUT_ROOM = 12,         /* Does the answer fit the lent buffer, an image also 65,535 bytes? */
    AXCUT_PLACE = 13,        /* Is the record below N and one with an annotation (Let, Switch, Create, Literal, Op, PrintI64)? */
    AXCUT_STATE = 14,        /* Of a start: is there such a definition, and is there for each of its parameters an integer or an outside
                                number up to 255? Of steps: is the store a state of this image, of 64 bytes or more? */
    AXCUT_SPACE = 15         /* Does the first state fit the store, or the state after the next step the store and its event what is
                                left of the event buffer? */
};

/* The bytes of the largest image: a buffer of this size has room for every output of axcut_linearize, and for every annotation. */
#define AXCUT_LARGEST_IMAGE 65535

/* Is it an image? Questions 1 to 5. */
uint32_t axcut_read(const uint8_t *image, size_t image_len, size_t *length, uint32_t *max_id);

/* Is it a program that can be linearized, IDs and room apart? Questions 1 to 10. */
uint32_t axcut_check(const uint8_t *image, size_t image_len, size_t *length, uint32_t *max_id);

/* Writes the linearized program's image to `out`. Questions 1 to 12. */
uint32_t axcut_linearize(const uint8_t *image, size_t image_len, uint8_t *out, size_t out_len, size_t *length, uint32_t *max_id);

/*
 * Writes the annotation of the record with this index, counted from 0: the free variables of its next (Let, Literal, Op, PrintI64), of its
 * clauses (Switch), or of its clauses and then of its next (Create). Each is a count and so many IDs in ascending order, two bytes each, the
 * lower first. Questions 1 to 7, 13, 12, in this order.
 */
uint32_t axcut_annotate(const uint8_t *image, size_t image_len, size_t record, uint8_t *out, size_t out_len, size_t *length, uint32_t *max_id);

/*
 * The steppers: the source machine runs the programs that axcut_check accepts, the linear machine every image, outputs of axcut_linearize
 * among them. Between calls a run is the bytes of its state at the beginning of `store`, and what it shows goes to `events`, from the
 * beginning. "Stores, events and starts" in docs/FORMAT.md says the bytes, which are the same for both machines.
 *
 * - A state takes AXCUT_STORE_HEADER bytes, and AXCUT_SLOT more for each cell and for each entry of the environment or of a cell. An event
 *   takes AXCUT_SLOT bytes, and AXCUT_SLOT more for each argument value that it shows. A value of a start takes AXCUT_SLOT bytes.
 * - A state may be copied to another store, a longer one too, and the run goes on from there. Bytes behind the state mean nothing.
 * - A store that another has changed is allowed as any other: what is no state of the image is refused with 14.
 */
#define AXCUT_STORE_HEADER 64
#define AXCUT_SLOT 16

/*
 * Writes the first state of a run of the source machine to `store`: at the definition with this place among the definitions, counted from 0,
 * with `values` for its parameters. Questions 1 to 10, 14, 15. Acceptance leaves the bytes behind the state as they were, a refusal leaves
 * the whole store.
 */
uint32_t axcut_source_start(const uint8_t *image, size_t image_len, size_t definition, const uint8_t *values, size_t values_len,
                            uint8_t *store, size_t store_len);

/*
 * Makes at most `steps` steps of the source machine from the state in `store`, and leaves there the state after them; their events are the
 * first *length bytes of `events`, *made is how many steps there were. Questions 1 to 10, 14, and 15 of each step in turn.
 *
 * - With 0, *made is `steps`, or less where the run has no next step: it has ended (byte 4 of the store is 1), stopped (byte 5) or is stuck.
 * - With 15, *made and *length are those of the steps before the one that had no room, which stay made; that step changed neither buffer.
 *   A call with more room goes on from there. A call for 0 steps is never answered with 15.
 * - With any other number nothing was changed, and *made and *length are 0.
 * - Bytes of `events` past *length stay as they were. Bytes of `store` behind the state do too, or are left from longer states of the call.
 */
uint32_t axcut_source_step(const uint8_t *image, size_t image_len, uint64_t steps, uint8_t *store, size_t store_len, uint8_t *events,
                           size_t events_len, uint64_t *made, size_t *length);

/*
 * The same of the linear machine. Questions 1 to 5, 14, 15. A start after which this machine stops because of an ID is written and accepted,
 * with byte 5 of the store set.
 */
uint32_t axcut_linear_start(const uint8_t *image, size_t image_len, size_t definition, const uint8_t *values, size_t values_len,
                            uint8_t *store, size_t store_len);

/* The same of the linear machine. Questions 1 to 5, 14, and 15 of each step in turn. */
uint32_t axcut_linear_step(const uint8_t *image, size_t image_len, uint64_t steps, uint8_t *store, size_t store_len, uint8_t *events,
                           size_t events_len, uint64_t *made, size_t *length);

#ifdef __cplusplus
}
#endif

#endif
