/* The calls on files and spaces that the tests of the library share. C99 and C++. */
#ifndef CALLS_H
#define CALLS_H

#include "files.h"
#include "hitac.h"

static struct bytes table, other;
/* As much work space as the most demanding call needs. */
static uint8_t work[HITAC_SEARCH_WORK], out[HITAC_LONGEST_FILE];
/* What the runs that halt are lent besides, and the saved state that is taken up; each with a little more room than is needed. */
static struct hitac_frame frames[HITAC_FRAMES + 1];
static uint8_t state[HITAC_STATE + 5], saved[HITAC_STATE + 1];

/*
 * The calls in one form, so that a case is one line. READ_TEXT and WRITE_TEXT take no table: the other file is the text or the
 * term file. A search is at the largest height; searched_at takes another. RESUME takes up the state in saved.
 */
enum call { CHECK, RUN, FLATTEN, CHECK_FLAT, WRITE_PROOF, READ_TEXT, WRITE_TEXT, SEARCH, RUN_HALTING, RESUME };

/* The calls that may halt, with other lengths of what only they are lent. */
static inline struct hitac_answer halting_in(enum call call, size_t work_length, size_t frames_length, size_t out_length,
                                             size_t state_length, size_t saved_length, uint32_t budget)
{
    if (call == RUN_HALTING)
        return hitac_run_halting(table.at, table.length, other.at, other.length, budget, work, work_length, frames,
                                 frames_length, out, out_length, state, state_length);
    return hitac_resume(table.at, table.length, other.at, other.length, saved, saved_length, budget, work, work_length, frames,
                        frames_length, out, out_length, state, state_length);
}

static inline struct hitac_answer answer_in(enum call call, size_t work_length, size_t out_length, uint32_t budget)
{
    switch (call) {
    case CHECK:
        return hitac_check(table.at, table.length, other.at, other.length, work, work_length);
    case RUN:
        return hitac_run(table.at, table.length, other.at, other.length, budget, work, work_length, out, out_length);
    case FLATTEN:
        return hitac_flatten(table.at, table.length, other.at, other.length, work, work_length, out, out_length);
    case CHECK_FLAT:
        return hitac_check_flat(table.at, table.length, other.at, other.length, work, work_length);
    case WRITE_PROOF:
        return hitac_write_proof(table.at, table.length, other.at, other.length, work, work_length, out, out_length);
    case READ_TEXT:
        return hitac_read_text(other.at, other.length, work, work_length, out, out_length);
    case WRITE_TEXT:
        return hitac_write_text(other.at, other.length, work, work_length, out, out_length);
    case RUN_HALTING:
    case RESUME:
        return halting_in(call, work_length, HITAC_FRAMES, out_length, HITAC_STATE, HITAC_STATE, budget);
    default:
        return hitac_search(table.at, table.length, other.at, other.length, HITAC_MOST_HEIGHT, budget, work, work_length, out,
                            out_length);
    }
}

static inline size_t work_of(enum call call)
{
    switch (call) {
    case CHECK:
        return HITAC_CHECK_WORK;
    case RUN:
        return HITAC_RUN_WORK;
    case FLATTEN:
        return HITAC_FLATTEN_WORK;
    case CHECK_FLAT:
        return HITAC_CHECK_FLAT_WORK;
    case WRITE_PROOF:
        return HITAC_WRITE_PROOF_WORK;
    case READ_TEXT:
        return HITAC_READ_TEXT_WORK;
    case WRITE_TEXT:
        return HITAC_WRITE_TEXT_WORK;
    case RUN_HALTING:
        return HITAC_RUN_HALTING_WORK;
    case RESUME:
        return HITAC_RESUME_WORK;
    default:
        return HITAC_SEARCH_WORK;
    }
}

/* Steps of the state in saved. */
static inline uint32_t steps_made(void)
{
    return 256u * saved[0] + saved[1];
}

/* The largest budget of a call. */
static inline uint32_t most_of(enum call call)
{
    if (call == RESUME)
        return HITAC_MOST_STEPS - steps_made();
    return call == SEARCH ? HITAC_MOST_SEARCH_STEPS : HITAC_MOST_STEPS;
}

static inline struct hitac_answer answer(enum call call)
{
    return answer_in(call, work_of(call), sizeof out, most_of(call));
}

static inline struct hitac_answer searched_at(uint32_t height, uint32_t budget)
{
    return hitac_search(table.at, table.length, other.at, other.length, height, budget, work, HITAC_SEARCH_WORK, out,
                        sizeof out);
}

#endif
