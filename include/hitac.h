/* The Hitac proof engine, for C99 and C++. docs/ENTRIES.md says what each call does, docs/FORMAT.md what the files hold. */
#ifndef HITAC_H
#define HITAC_H

#include <stddef.h>
#include <stdint.h>

#ifdef __cplusplus
extern "C" {
#endif

/*
 * The version of this header. The minor number goes up with each new call, and with new sizes of one: 1.0 had the first five,
 * 1.1 brought hitac_read_text, 1.2 hitac_write_text, 1.3 hitac_search, 2.1 hitac_run_halting, 2.2 hitac_resume. The major number
 * goes up when every program has to be compiled anew. 2.0 brought no call: its answer has twelve numbers, where that of version 1
 * has eight. 2.3 brought none either: its runs go up to 16,384 steps and may end with HITAC_FIELDS_TOO_MANY, and
 * hitac_run_halting and hitac_resume need more frames and a longer state. A program of 2.2 that calls one of these two must be
 * compiled anew: with the spaces of 2.2 they answer HITAC_WORK_TOO_SHORT, and such a program does not start with the shared
 * library. Every other call works with programs of 2.0 on as they are. A state that was saved by 2.2 is HITAC_STATE_NOT_GENUINE.
 * A program that was built against version 1 must be built again, because a call of version 2 writes a longer answer. The names
 * of the shared libraries, libhitac.so.1 and libhitac.so.2, keep the two apart. Nothing keeps an old object file from being
 * linked with the archive of version 2, so compile all of them.
 */
#define HITAC_VERSION_MAJOR 2
#define HITAC_VERSION_MINOR 3
#define HITAC_VERSION (HITAC_VERSION_MAJOR * 65536 + HITAC_VERSION_MINOR) /* as hitac_version answers it */

/*
 * The version of the library: that of the header that it was built with. A program can go on with a library of the same
 * major number and of its own or a larger minor number, but one of 2.2 that calls hitac_run_halting or hitac_resume only
 * with 2.2, because their sizes changed with 2.3.
 */
uint32_t hitac_version(void);

/* The answer of every call. A field that does not apply is 0. */
struct hitac_answer {
    uint32_t number;    /* 0 for success, else the number of the refusal */
    uint32_t file;      /* where the refusal is: HITAC_TABLE, HITAC_OTHER_FILE or HITAC_NO_FILE */
    uint32_t place;     /* byte offset in that file */
    uint32_t steps;     /* terms begun by a run or a search; by hitac_resume with those before it */
    uint32_t length;    /* bytes written at the start of the output space */
    uint32_t fields;    /* term fields of a proof that hitac_check accepts */
    uint32_t uses;      /* uses of rules, of hitac_check and hitac_check_flat */
    uint32_t remaining; /* goals left open, of hitac_check and hitac_check_flat */
    uint32_t rules;     /* different rules used, of hitac_check and hitac_check_flat */
    uint32_t goals;     /* always 0 in this version; for a later call */
    uint32_t longest;   /* always 0 in this version; for a later call */
    uint32_t tactic;    /* always 0 in this version; for a later call */
};

/*
 * Space for a term that waits in a run, lent to hitac_run_halting and hitac_resume. What a frame holds during a call is the
 * engine's affair, and what it held before never matters.
 */
struct hitac_frame {
    uint32_t term;
    uint32_t goals;
    uint16_t count;
    uint16_t stage;
};

/*
 * Every file and space is a pointer and its length in bytes, frames a pointer and their number. A pointer is never NULL, also
 * where the length is 0. The address of an empty container may be NULL; pass that of any byte in its place, for frames that of
 * any frame, since none is read or written.
 * The spaces of a call overlap neither each other nor a file. Any bytes, lengths, height and budget get an answer. Nothing is
 * allocated and nothing is kept between calls, so calls with spaces of their own may run at the same time.
 * Work space that is long enough is all zero afterwards, and so are the frames, all that were lent. A refusal leaves the output
 * space untouched; a success leaves the bytes behind its result untouched.
 */

/*
 * Whether the proof is accepted in the table; answers number, fields, uses, remaining and rules.
 * A rule is a rule field of the table: one that is used many times counts once, and a name that is used on two goals counts
 * twice, since it has a rule for each. So rules is at most uses, and at most the number of rules in the table.
 * A proof of zero bytes, a blank document, has no goals, the empty hiproof and none remaining: it is accepted in every table
 * that is not refused, with one field, no use and no rule. So do not pass zero bytes for a proof that could not be opened or
 * read: it would be accepted by mistake. The nine bytes 3 0 0 21 0 0 3 0 0 say the same, and every library of version 1 accepts
 * them; some of these answer HITAC_FIELD_TORN to zero bytes.
 */
struct hitac_answer hitac_check(const uint8_t *table, size_t table_length,
                                const uint8_t *proof, size_t proof_length,
                                uint8_t *work, size_t work_length);

/* Runs the tactic of the job in at most budget steps; writes a proof file. */
struct hitac_answer hitac_run(const uint8_t *table, size_t table_length,
                              const uint8_t *job, size_t job_length,
                              uint32_t budget,
                              uint8_t *work, size_t work_length,
                              uint8_t *out, size_t out_length);

/* Flattens an accepted proof; writes a flat file. That of a proof of zero bytes is an empty goal list, 3 0 0. */
struct hitac_answer hitac_flatten(const uint8_t *table, size_t table_length,
                                  const uint8_t *proof, size_t proof_length,
                                  uint8_t *work, size_t work_length,
                                  uint8_t *out, size_t out_length);

/*
 * Whether the flat derivation is right in the table; answers number, uses, remaining and rules. For the flat file of a proof
 * these three are what hitac_check answers for the proof.
 */
struct hitac_answer hitac_check_flat(const uint8_t *table, size_t table_length,
                                     const uint8_t *flat, size_t flat_length,
                                     uint8_t *work, size_t work_length);

/* Writes a right flat derivation back as a proof file. */
struct hitac_answer hitac_write_proof(const uint8_t *table, size_t table_length,
                                      const uint8_t *flat, size_t flat_length,
                                      uint8_t *work, size_t work_length,
                                      uint8_t *out, size_t out_length);

/* Reads a text in the notation of docs/FORMAT.md; writes a term file. */
struct hitac_answer hitac_read_text(const uint8_t *text, size_t text_length,
                                    uint8_t *work, size_t work_length,
                                    uint8_t *out, size_t out_length);

/* Writes the text of a term file. */
struct hitac_answer hitac_write_text(const uint8_t *term, size_t term_length,
                                     uint8_t *work, size_t work_length,
                                     uint8_t *out, size_t out_length);

/*
 * Looks for an evaluation of the job's tactic by the paper's big-step rules that is at most height rules high, in at most
 * budget steps: it tries every split of a tensor, and goes back when a later term fails. Writes a proof file.
 */
struct hitac_answer hitac_search(const uint8_t *table, size_t table_length,
                                 const uint8_t *job, size_t job_length,
                                 uint32_t height, uint32_t budget,
                                 uint8_t *work, size_t work_length,
                                 uint8_t *out, size_t out_length);

/*
 * As hitac_run, for a debugger: if the budget is spent, HITAC_BUDGET_SPENT, the run is halted, and its saved state stands in the
 * first HITAC_STATE bytes of state, zeros last; docs/FORMAT.md, "The saved state of a halted run", has the layout. No other answer
 * touches state. A budget of 0 halts before the first term. Work, frames or state that are too short are HITAC_WORK_TOO_SHORT, also
 * where the run would not halt, and then nothing is touched.
 */
struct hitac_answer hitac_run_halting(const uint8_t *table, size_t table_length,
                                      const uint8_t *job, size_t job_length,
                                      uint32_t budget,
                                      uint8_t *work, size_t work_length,
                                      struct hitac_frame *frames, size_t frames_length,
                                      uint8_t *out, size_t out_length,
                                      uint8_t *state, size_t state_length);

/*
 * Goes on with a halted run for budget more steps: answers, and leaves in out and state, what hitac_run_halting does with all the
 * steps as its budget. It may halt again; saved and state are two spaces that do not overlap. Bytes that are not those of a halt
 * of the same table and job are HITAC_STATE_NOT_GENUINE; that is tested by a run.
 */
struct hitac_answer hitac_resume(const uint8_t *table, size_t table_length,
                                 const uint8_t *job, size_t job_length,
                                 const uint8_t *saved, size_t saved_length,
                                 uint32_t budget,
                                 uint8_t *work, size_t work_length,
                                 struct hitac_frame *frames, size_t frames_length,
                                 uint8_t *out, size_t out_length,
                                 uint8_t *state, size_t state_length);

/* Work space that each call needs, in bytes. */
#define HITAC_CHECK_WORK 65536        /* for hitac_check */
#define HITAC_RUN_WORK 590848         /* for hitac_run */
#define HITAC_FLATTEN_WORK 200704     /* for hitac_flatten */
#define HITAC_CHECK_FLAT_WORK 65536   /* for hitac_check_flat */
#define HITAC_WRITE_PROOF_WORK 65536  /* for hitac_write_proof */
#define HITAC_READ_TEXT_WORK 196608   /* for hitac_read_text */
#define HITAC_WRITE_TEXT_WORK 36864   /* for hitac_write_text */
#define HITAC_SEARCH_WORK 2496256     /* for hitac_search */
#define HITAC_RUN_HALTING_WORK 751116 /* for hitac_run_halting */
#define HITAC_RESUME_WORK 751116      /* for hitac_resume */

/* What hitac_run_halting and hitac_resume need besides. */
#define HITAC_FRAMES 16384 /* frames */
#define HITAC_STATE 160268 /* bytes of a saved state, and so of the space for it */

/*
 * Machine stack that each call needs, in bytes, whatever the files: from the arguments and the return address that the
 * caller pushes down to the deepest byte that is used. library/stack measures it from the machine code of the library as
 * library/build makes it, and fails if a number here is smaller; who compiles or links otherwise measures with it anew.
 * Signal handlers are not counted, nor is a name that the dynamic linker looks up at its first call: link with -z now.
 */
#define HITAC_CHECK_STACK 1536         /* for hitac_check */
#define HITAC_RUN_STACK 200704         /* for hitac_run */
#define HITAC_FLATTEN_STACK 1536       /* for hitac_flatten */
#define HITAC_CHECK_FLAT_STACK 1536    /* for hitac_check_flat */
#define HITAC_WRITE_PROOF_STACK 172032 /* for hitac_write_proof */
#define HITAC_READ_TEXT_STACK 512      /* for hitac_read_text */
#define HITAC_WRITE_TEXT_STACK 1024    /* for hitac_write_text */
#define HITAC_SEARCH_STACK 1536        /* for hitac_search */
#define HITAC_RUN_HALTING_STACK 200704 /* for hitac_run_halting */
#define HITAC_RESUME_STACK 200704      /* for hitac_resume */

/* Output space that is always long enough, in bytes. */
#define HITAC_LONGEST_PROOF 21510 /* for the runs, hitac_search and hitac_write_proof: no proof file is longer */
#define HITAC_LONGEST_FLAT 16131  /* for hitac_flatten: no flat form of an accepted proof is longer */
#define HITAC_LONGEST_TERM 20480  /* for hitac_read_text: no term file is longer */
#define HITAC_LONGEST_TEXT 28671  /* for hitac_write_text: no written text is longer */

/* Limits. */
#define HITAC_LONGEST_FILE 65535     /* bytes in a file, a text among them */
#define HITAC_MOST_STEPS 16384       /* largest budget of a run; of hitac_resume with the steps before it */
#define HITAC_MOST_HELD_FIELDS 4096  /* fields that the finished terms of a run may have at a time */
#define HITAC_MOST_SEARCH_STEPS 4096 /* largest budget of hitac_search */
#define HITAC_MOST_HEIGHT 64         /* largest height of hitac_search; 1 is the smallest */
#define HITAC_MOST_RULES 4096        /* rules in a table */
#define HITAC_MOST_PREMISES 8        /* premises of a rule */
#define HITAC_MOST_DEFINITIONS 256   /* definitions in a table */
#define HITAC_MOST_TERM_FIELDS 4096  /* term fields in a file */
#define HITAC_MOST_GOALS 256         /* goals in a goal list, and in a list that a tensor joins */
#define HITAC_MOST_USES 4096         /* uses in a flat file */
#define HITAC_MOST_OPENS 256         /* opens in a flat file */
#define HITAC_MOST_ENTRIES 2048      /* uses and opens of a flat file that hitac_write_proof takes */
#define HITAC_MOST_VALUE 65535       /* a rule name, goal, label or tactic number */

/* The field file of an answer. */
#define HITAC_NO_FILE 0    /* the refusal is in neither file */
#define HITAC_TABLE 1      /* in the table */
#define HITAC_OTHER_FILE 2 /* in the proof, job or flat file, the text or the term file */

/* The field number of an answer. */
#define HITAC_SUCCESS 0 /* the result is there */

/* Refusals while a file is read; 1 and 5 also while a text is. */
#define HITAC_INPUT_TOO_LONG 1        /* the file has more than 65,535 bytes */
#define HITAC_FIELD_TORN 2            /* a field is cut off, or its contents reach past what encloses it */
#define HITAC_TAG_NOT_ALLOWED 3       /* the tag may not stand there */
#define HITAC_LENGTH_WRONG 4          /* the length is wrong for the tag, or bytes are left over */
#define HITAC_LIMIT_PASSED 5          /* one field more than a limit allows, or over 256 goals in a list */
#define HITAC_RULE_REPEATED 6         /* a rule has the name and goal of an earlier rule */
#define HITAC_PREMISE_COUNT_DIFFERS 7 /* a rule has the name of an earlier rule and another number of premises */
#define HITAC_TACTIC_REDEFINED 8      /* a tactic number is defined a second time */
#define HITAC_LABEL_REPEATED 9        /* a label stands a second time in the definitions of the table */

/* Refusals of what the files say, and of what was lent. */
#define HITAC_RULE_MISSING 20     /* the table has no rule of this name for the goal that the atomic gets */
#define HITAC_REMAINING_DIFFER 21 /* the hiproof gives other goals than those stated as remaining */
#define HITAC_JOINED_TOO_LONG 22  /* a tensor joins more than 256 goals */
#define HITAC_TACTIC_FAILED 23    /* the tactic failed */
#define HITAC_BUDGET_SPENT 24     /* a term was to begin when the budget was used up */
#define HITAC_BUDGET_TOO_LARGE 25 /* the budget is over 16,384, of a search 4,096; of hitac_resume, with the steps of saved */
#define HITAC_OUTPUT_TOO_SHORT 26 /* the output space is shorter than the result */
#define HITAC_FLAT_WRONG 27       /* an entry of the flat file does not apply, or goals are pending at its end */
#define HITAC_ENTRIES_TOO_MANY 28 /* the flat file has more than 2,048 entries and cannot be written as a proof */
#define HITAC_WORK_TOO_SHORT 29   /* the work space is shorter than the size named for the call, or the frames or state are */

/* Refusals of a hiproof in which goals are miscounted. An atomic without exactly one goal is 34, whether it has a rule or not. */
#define HITAC_GOAL_COUNT_WRONG 34 /* an atomic, id or label gets no goal or more than one, or an empty gets a goal */
#define HITAC_GOALS_TOO_FEW 35    /* a tensor gets fewer goals than its left term takes */

/*
 * The earlier name of 20, from when it stood for all three: HITAC_RULE_MISSING, HITAC_GOAL_COUNT_WRONG and HITAC_GOALS_TOO_FEW.
 * A program that tests for it wants to test for the other two as well: libraries of version 1, but for the last ones, answered
 * 20 in place of 34 and 35.
 */
#define HITAC_NOT_VALID HITAC_RULE_MISSING

/* Refusals of a text. */
#define HITAC_TEXT_WRONG 36      /* no text of the notation goes on with this byte, or the text ends early */
#define HITAC_VALUE_TOO_LARGE 37 /* a value is over 65,535; the place is that of its first digit */

/* Refusal of a saved state. */
#define HITAC_STATE_NOT_GENUINE 30 /* the table and job, run for its step count, do not halt with just these bytes */

/* Refusal of a run. */
#define HITAC_FIELDS_TOO_MANY 40 /* a finished term makes more than 4,096 held fields */

/* Refusals of a search. */
#define HITAC_NO_EVALUATION 41  /* the tactic has no evaluation on the goals that is at most so high */
#define HITAC_HEIGHT_OUTSIDE 42 /* the height is not 1 to 64 */

#ifdef __cplusplus
}
#endif

#endif
