/* The law checker's C interface.
 *
 * Every function is total: it takes any input and gives either an answer or the refusal that stands
 * first in the order written below it. It returns 0 for an answer and the refusal's number
 * otherwise.
 *
 * A slice passes as a pointer and a length, counted in elements. Each pointer must be aligned and
 * valid for its length, not null also where the length is 0, and no slice that is written may
 * overlap another one. Nothing is kept after the return, and nothing is shared between calls.
 *
 * An answer's numbers are written, in the order stated, to the front of `out`; a number that an
 * answer does not have is written as 0, and the rest of `out` stays as it was. After a refusal all
 * of `out` stays as it was. An `out` or a run shorter than stated, or a shared copy of another
 * length, is refused with 14 before anything else, and so is a run whose change number is above
 * LAWCHECK_LAST_CHANGE.
 *
 * Terms. A fact is a number from 0 to F - 1. A mask is two words, low word first: fact f is bit f %
 * 64 of word f / 64, so where F is at most 64 the high word is 0. Wherever a mask or a copy stands,
 * in a task, a table, a run or `out`, it takes two words so. A shared copy is the mask of the facts
 * that hold for all; a local copy is what a member's own steps alone have made of the initial mask
 * I. An action answers wait, collision or go at a shared copy. What a collision is missing is the
 * mask of the action's preconditions that the shared copy lacks. It is never empty, and no fact of
 * wait is in it; every answer that is no collision has 0 in both of its words. A plan of a member
 * is a list of its actions; it solves if, from I, each precondition holds in the local copy as it
 * comes and the goal holds at the end. A run has one solving plan for each member, and a pick does
 * a member's next step. A run's change number counts the picks done on it, those that go and the
 * one that collides; a ticket is a member and a change number.
 *
 * A task is rows of nine words:
 *   row 0           F (1 to 128), members n (1 to 8), actions m (0 to 256), I, four zeros
 *   rows 1 to n     i, goal mask, six zeros         for member i from 0
 *   then m rows     member, pre, wait, add, del     for action a from 0; wait is within pre
 *
 * Plans of all members stand in one slice, one after another; `ends` has one number for each
 * member, the place in that slice at which its plan ends.
 *
 * A refusal writes nothing to any slice, except 9 (every lent writable slice but `out` is zero
 * afterwards), lawcheck_read's 15 and task check (its words are zero afterwards), and every refusal
 * of lawcheck_pddl_read but 14 (its words are zero afterwards, however few).
 */
#ifndef LAWCHECK_H
#define LAWCHECK_H

#include <stddef.h>
#include <stdint.h>

#ifdef __cplusplus
extern "C" {
#endif

/* Refusals. */
enum {
    LAWCHECK_LENGTH = 1,       /* the task's length */
    LAWCHECK_RANGE = 2,        /* F, n, m or the last four words of row 0 */
    LAWCHECK_GOAL_ROW = 3,     /* a goal row's member or its last six words */
    LAWCHECK_FACT = 4,         /* a bit at or above F */
    LAWCHECK_OWNER = 5,        /* an action's member */
    LAWCHECK_WAIT = 6,         /* wait is not within pre */
    LAWCHECK_ACTION = 7,       /* no such action */
    LAWCHECK_MEMBER = 8,       /* no such member */
    LAWCHECK_FULL = 9,         /* more rows than the table takes */
    LAWCHECK_OTHERS = 10,      /* another member's action */
    LAWCHECK_ENDS = 11,        /* the ends, or a place past its plan's end */
    LAWCHECK_NO_SOLUTION = 12, /* a plan does not solve */
    LAWCHECK_PICK = 13,        /* no step left, waiting, or already collided */
    LAWCHECK_SHORT = 14,       /* a lent slice is too short, or a change number too large */
    LAWCHECK_TEXT = 15,        /* the text's form, or the waits' */
    LAWCHECK_PDDL = 16,        /* a text outside the subset of PDDL, or without a member */
    LAWCHECK_NAME = 17,        /* a name or number unknown, a name twice, or members that differ */
    LAWCHECK_MANY = 18,        /* more facts, members or actions than a task allows */
    LAWCHECK_STALE = 19,       /* the ticket's change number is not the run's */
    LAWCHECK_CHANGES = 20      /* the run's change number is the last one */
};

/* The most facts of a task; words of a mask and of a task's row. */
enum { LAWCHECK_FACTS = 128, LAWCHECK_MASK_WORDS = 2, LAWCHECK_ROW_WORDS = 9 };

/* Words of `out`, of a run, and of the reader's word slice; bytes that the writer's texts never
 * exceed. */
enum {
    LAWCHECK_STEP_OUT = 5,
    LAWCHECK_SOLO_REPLAY_OUT = 2,
    LAWCHECK_SOLO_SEARCH_OUT = 3,
    LAWCHECK_JOINT_REPLAY_OUT = 7,
    LAWCHECK_PICK_OUT = 3,
    LAWCHECK_ASK_OUT = 7,
    LAWCHECK_COMMIT_OUT = 3,
    LAWCHECK_VERDICT_OUT = 5,
    LAWCHECK_READ_OUT = 1,
    LAWCHECK_PDDL_READ_OUT = 1,
    LAWCHECK_PDDL_WRITE_OUT = 2,
    LAWCHECK_RUN_WORDS = 12,
    LAWCHECK_TEXT_WORDS = 2385,
    LAWCHECK_PDDL_BYTES = 1048576
};

/* out[0] of lawcheck_step. */
enum { LAWCHECK_STEP_GO = 0, LAWCHECK_STEP_WAIT = 1, LAWCHECK_STEP_COLLISION = 2 };

/* out[0] of lawcheck_solo_replay. */
enum { LAWCHECK_SOLVES = 0, LAWCHECK_BREAKS = 1, LAWCHECK_GOAL_SHORT = 2 };

/* out[0] of lawcheck_joint_replay. */
enum {
    LAWCHECK_RUN_SUCCESS = 0,
    LAWCHECK_RUN_COLLISION = 1,
    LAWCHECK_RUN_DEADLOCK = 2,
    LAWCHECK_RUN_MISSED = 3,
    LAWCHECK_RUN_OPEN = 4
};

/* out[0] of lawcheck_pick and of lawcheck_commit. */
enum { LAWCHECK_PICK_GO = 0, LAWCHECK_PICK_COLLISION = 1 };

/* out[0] of lawcheck_ask. */
enum { LAWCHECK_ASK_GO = 0, LAWCHECK_ASK_WAIT = 1, LAWCHECK_ASK_COLLISION = 2 };

/* out[0] of lawcheck_verdict. */
enum {
    LAWCHECK_ROBUST = 0,
    LAWCHECK_UNSOLVABLE = 1,
    LAWCHECK_COLLISION = 2,
    LAWCHECK_DEADLOCK = 3,
    LAWCHECK_MISSED = 4
};

/* Places in a run's words; the shared copy takes two. */
enum {
    LAWCHECK_RUN_COLLIDED = 0,
    LAWCHECK_RUN_PLACES = 1,
    LAWCHECK_RUN_SHARED = 9,
    LAWCHECK_RUN_CHANGE = 11
};

/* The last change number: a run that has it takes no further pick. */
#define LAWCHECK_LAST_CHANGE UINT32_C(4294967295)

/* The task check.
 *
 * Refuses with 1 fewer than nine words; 2 F, n, m or the last four words of row 0 out of their
 * ranges; 1 a length other than 9 * (1 + n + m); 4 a bit of I at or above F; then row by row 3 (a
 * goal row's member or its last six words), 4 (a goal bit), 5 (an action's member), 4 (a bit in one
 * of its masks), 6 (wait not within pre). Every function below that takes a task starts with this
 * check.
 */
uint64_t lawcheck_task(const uint64_t *task, size_t task_len);

/* What an action answers at a shared copy, a slice of two words.
 *
 * out: 0 go, 1 wait, 2 collision; the new shared copy after go, in two words; what is missing after
 * a collision, in two words.
 * Refuses with 14 where shared_len is not 2 or out_len is below 5; the task check; 7 no such
 * action; 4 a bit of the shared copy at or above F.
 */
uint64_t lawcheck_step(const uint64_t *task, size_t task_len, uint16_t action,
                       const uint64_t *shared, size_t shared_len, uint64_t *out, size_t out_len);

/* A member's plan on its local copy alone.
 *
 * out: 0 solves, 1 breaks, 2 short (all steps done, goal missing); after breaks the index, from 0,
 * of the first step that lacks a precondition.
 * Refuses with 14 where out_len is below 2; the task check; 8 no such member; at the first bad
 * entry 7 no such action, or 10 another member's action.
 */
uint64_t lawcheck_solo_replay(const uint64_t *task, size_t task_len, uint8_t member,
                              const uint16_t *plan, size_t plan_len, uint64_t *out, size_t out_len);

/* Every local copy that a member can reach from I, in breadth order, and which of them are live.
 *
 * A row of the table is one copy, so there are table_len / 2 rows, rounded down. After an answer
 * the table holds the copies and marks holds 1 for each live one (some steps lead from it to the
 * goal) and 0 for each dead one; unused entries of both are zero, a table's odd last word too.
 * out: the count of copies; 1 where I is live, else 0; the number of marks that are 1.
 * Refuses with 14 where out_len is below 3; the task check; 8 no such member; 14 marks_len below
 * the number of rows; 9 exactly where the copies exceed the rows.
 */
uint64_t lawcheck_solo_search(const uint64_t *task, size_t task_len, uint8_t member,
                              uint64_t *table, size_t table_len, uint8_t *marks, size_t marks_len,
                              uint64_t *out, size_t out_len);

/* A list of picks from the start of a run.
 *
 * out: 0 success, 1 collision, 2 deadlock, 3 missed, 4 open; after missed the lowest member whose
 * goal does not hold; the number of picks done, a colliding one not counted; the shared copy, in
 * two words; what the colliding pick is missing, in two words.
 * Refuses with 14 where out_len is below 7; the task check; 11 ends not n in number, falling, or
 * the last not plans_len; then by member 7 or 10 at its first bad entry, 12 a plan that does not
 * solve; then at the first bad pick 8 no such member, or 13 (no step left, waiting, or already
 * collided).
 */
uint64_t lawcheck_joint_replay(const uint64_t *task, size_t task_len,
                               const uint16_t *plans, size_t plans_len,
                               const uint64_t *ends, size_t ends_len,
                               const uint8_t *picks, size_t picks_len,
                               uint64_t *out, size_t out_len);

/* One pick on a run that the caller holds.
 *
 * run is twelve words: collided where not 0, eight places (one for each member, in its plan; those
 * of members that the task does not have are not looked at), the shared copy (two words), the
 * change number. A run starts with 0, places 0, I and 0. After go the member's place and the shared
 * copy are moved on; after a collision the first word is 1; after either the change number is one
 * higher. Nothing else of the run changes.
 *
 * A runner that has to know the answer before it does the pick takes lawcheck_ask, and then
 * lawcheck_commit. A pick in between makes every ticket asked for before it stale.
 *
 * Each pick looks at the task and at all plans anew, since it is handed them anew: its time grows
 * with task_len + plans_len, and a run of as many picks as there are steps takes the square of
 * that; so do asks and commits. Picks that are known beforehand are done by one lawcheck_play, or
 * from the start by lawcheck_joint_replay: both look at the plans once.
 *
 * out: 0 go, 1 collision; what is missing after a collision, in two words.
 * Refuses with 14 where run_len is below 12, the change number above LAWCHECK_LAST_CHANGE, or
 * out_len below 3; as lawcheck_joint_replay up to 12; 4 a bit of the shared copy at or above F; 11
 * a place past its plan's end; 8 no such member; 13 (no step left, waiting, or already collided);
 * 20 where the change number is LAWCHECK_LAST_CHANGE.
 */
uint64_t lawcheck_pick(const uint64_t *task, size_t task_len,
                       const uint16_t *plans, size_t plans_len,
                       const uint64_t *ends, size_t ends_len,
                       uint64_t *run, size_t run_len, uint8_t member,
                       uint64_t *out, size_t out_len);

/* What a member's next step would answer on a run that the caller holds, and a ticket for it. The
 * run is only read.
 *
 * The ticket is the member and the run's change number. It is good for lawcheck_commit as long as
 * the run keeps that number, so until the next pick or commit that is not refused. A step that
 * waits gets a ticket too, and so does a run that has the last change number; a commit with either
 * is refused.
 *
 * out: 0 go, 1 wait, 2 collision; the new shared copy after go, in two words; what is missing after
 * a collision, in two words; the ticket's member; the ticket's change number.
 * Refuses with 14 where run_len is below 12, the change number above LAWCHECK_LAST_CHANGE, or
 * out_len below 7; as lawcheck_joint_replay up to 12; 4 a bit of the shared copy at or above F; 11
 * a place past its plan's end; 8 no such member; 13 (no step left, or already collided).
 */
uint64_t lawcheck_ask(const uint64_t *task, size_t task_len,
                      const uint16_t *plans, size_t plans_len,
                      const uint64_t *ends, size_t ends_len,
                      const uint64_t *run, size_t run_len, uint8_t member,
                      uint64_t *out, size_t out_len);

/* The pick that a ticket is for, on a run that the caller holds. member and change are the ticket;
 * one that nobody asked for is as good as any other where its change number is the run's.
 *
 * Where it is not refused, the answer is what lawcheck_ask gives for the member on this run, what
 * is missing too, and the run is left as lawcheck_pick leaves it. Asks and refused commits leave no
 * trace: without them the other calls on the run answer the same and leave it the same.
 *
 * out: 0 go, 1 collision; what is missing after a collision, in two words.
 * Refuses as lawcheck_pick; between its 8 and its 13 also with 19, where change is not the run's
 * change number.
 */
uint64_t lawcheck_commit(const uint64_t *task, size_t task_len,
                         const uint16_t *plans, size_t plans_len,
                         const uint64_t *ends, size_t ends_len,
                         uint64_t *run, size_t run_len, uint8_t member, uint32_t change,
                         uint64_t *out, size_t out_len);

/* The start of a run: 0, places 0, I and change number 0, written to run's twelve words.
 *
 * Refuses with 14 where run_len is below 12, whatever the words hold; the task check.
 */
uint64_t lawcheck_start(const uint64_t *task, size_t task_len, uint64_t *run, size_t run_len);

/* A list of picks on a run that the caller holds, done in turn; the plans are looked at once, and
 * so are the run's words.
 *
 * Each pick meets the run as the last one left it. One that is refused is passed over and changes
 * nothing.
 * answers has a number for each pick: 0 go, 1 collision, or the refusal that lawcheck_pick has for
 * it there, 8 no such member, 13 (no step left, waiting, or already collided) or 20 (the change
 * number is LAWCHECK_LAST_CHANGE); the rest of it stays as it was. Of the run afterwards the first
 * word is 1 where it has collided, whatever was there before, else 0, and the change number is
 * higher by the picks that go or collide. What a colliding pick is missing is not told here;
 * lawcheck_step tells it at the run's shared copy, which a collision leaves as it was.
 * Refuses with 14 where run_len is below 12, the change number above LAWCHECK_LAST_CHANGE, or
 * answers_len below picks_len; as lawcheck_pick up to 11, a place past its plan's end.
 */
uint64_t lawcheck_play(const uint64_t *task, size_t task_len,
                       const uint16_t *plans, size_t plans_len,
                       const uint64_t *ends, size_t ends_len,
                       uint64_t *run, size_t run_len, const uint8_t *picks, size_t picks_len,
                       uint64_t *answers, size_t answers_len);

/* Whether a law is robust: no choice of solving plans and no order of picks ends in a fault.
 *
 * A copy takes two words, so K = local_len / (2 * n) rows for each member and C =
 * configurations_len / (2 * (n + 1)) rows of a configuration (one local copy for each member, then
 * the shared copy), both rounded down.
 *
 * After an answer the local table and the marks hold what lawcheck_solo_search gives, member i's
 * from row i * K; the configuration table holds the configurations in breadth order (none after
 * unsolvable); unused entries are zero. The trail is room to work in and holds anything. After a
 * fault plans, ends and picks hold the first conflict, then zeros: the plans, the end of each, and
 * the picks with a colliding one last. Its replay by lawcheck_joint_replay, lent the plans up to
 * the last end, n ends, and the picks up to the number with a colliding one after them, ends in
 * that kind, member and number and tells the same as missing. Where there is no fault all three are
 * zero.
 *
 * The first conflict is that of the first configuration in breadth order that shows a fault. It
 * comes there by the moves that first listed the rows: each row from the first one from which a
 * move leads to it, by the lowest action that does. No run that fails, whatever its plans, has
 * fewer picks that go before its fault. An action may be its member's next one there if the local
 * copy has its preconditions and the new local copy is live. The fault is, first that is shown: a
 * collision of such an action, the lowest of any member; a deadlock; a goal missed. After the moves
 * each plan goes on so:
 * - collision: that member takes that action, and all complete their plans;
 * - deadlock: each member whose local copy lacks its goal takes its lowest waiting action and
 *   completes its plan, the others end; where none lacks its goal, the lowest member that has a
 *   waiting action does so, the others end;
 * - missed: all end.
 * A plan is completed by as few steps as lead to the member's goal, at each step by the lowest
 * action that leaves the fewest. The conflict is the task's, whatever the lengths of the slices.
 *
 * out: 0 robust, 1 unsolvable, 2 collision, 3 deadlock, 4 missed; the member (unsolvable: the
 * lowest whose I is dead; missed); the number (robust: configurations; a fault: picks done before
 * it); what the conflict's colliding pick is missing, in two words.
 * Refuses with 14 where out_len is below 5; the task check; 14 where marks_len < n * K, trail_len <
 * 2 * C, plans_len < C + n * K, ends_len < n or picks_len < C; 9 exactly where a member's copies
 * exceed K or, all members being live, the configurations exceed C.
 */
uint64_t lawcheck_verdict(const uint64_t *task, size_t task_len,
                          uint64_t *local, size_t local_len, uint8_t *marks, size_t marks_len,
                          uint64_t *configurations, size_t configurations_len,
                          uint64_t *trail, size_t trail_len, uint16_t *plans, size_t plans_len,
                          uint64_t *ends, size_t ends_len, uint8_t *picks, size_t picks_len,
                          uint64_t *out, size_t out_len);

/* Reads a task from text: RFC 4180, nine fields a record, no header, no quotes, at most 265
 * records. A field is digits without a leading zero, at most 2^64 - 1. Each record ends in CR LF,
 * which the last may lack.
 *
 * After an answer the words hold the task, then zeros.
 * out: the number of records.
 * Refuses with 14 where out_len is below 1 or words_len below 2385; 15 a text not as above; the
 * task check.
 */
uint64_t lawcheck_read(const uint8_t *text, size_t text_len, uint64_t *words, size_t words_len,
                       uint64_t *out, size_t out_len);

/* Reads a task from PDDL. The text has for each member a domain and then a problem, all of these
 * sections in this order and nothing else:
 *   (define (domain NAME) (:predicates (NAME)..)
 *     (:action NAME :parameters () :precondition CONDITION :effect EFFECT)..)
 *   (define (problem NAME) (:domain NAME) (:init (NAME)..) (:goal CONDITION))
 * A condition is (NAME) or (and CONDITION..), at most 16 `and` deep; an effect may also have
 * (not (NAME)). A name is a letter, then letters, digits, - and _, and neither `and` nor `not`.
 * Letter case (A to Z) does not matter. Blanks are space, tab, CR and LF; a ; begins a comment,
 * which may hold any byte and ends at LF or with the text.
 *
 * Facts are numbered from 0 as the predicates stand, members and actions from 0 as they stand in
 * the whole text. The waits say which preconditions are waited for: records of two fields, action
 * number and fact number, by the rules of lawcheck_read, any number of them; waits_len is 0 where
 * nothing is waited for.
 *
 * After an answer the words hold the task, then zeros. LAWCHECK_TEXT_WORDS are enough for any task.
 * out: the number of records of the task, 1 + n + m.
 * Refuses with 14 where out_len is below 1; 15 waits not as above; 16 a text with no member or not
 * as above; 17 a name that is unknown (also where a problem's :domain is not the domain before it),
 * a wait's number that is unknown, a predicate or, within one domain, an action named twice, or
 * predicates (in order) or initial facts (as sets) that differ between members; 18 more than 128
 * facts, 8 members or 256 actions; the task check; 14 where words_len is below 9 * (1 + n + m).
 * Either 14 leaves the words as they were; every other refusal leaves them zero.
 */
uint64_t lawcheck_pddl_read(const uint8_t *text, size_t text_len,
                            const uint8_t *waits, size_t waits_len,
                            uint64_t *words, size_t words_len, uint64_t *out, size_t out_len);

/* Writes a task as PDDL with its waits, in texts from which lawcheck_pddl_read reads the same task
 * with its actions grouped by member, else in order. A task has no names, so the writer makes some;
 * which ones, and the layout, is not promised.
 *
 * After an answer the two texts stand at the front of their slices, with zeros behind them.
 * out: the lengths of text and waits, in bytes.
 * Refuses with 14 where out_len is below 2; the task check; 16 a task that the subset cannot hold
 * (there is none yet); 14 a slice shorter than its text, never one of LAWCHECK_PDDL_BYTES. A
 * refusal writes nothing.
 */
uint64_t lawcheck_pddl_write(const uint64_t *task, size_t task_len,
                             uint8_t *text, size_t text_len, uint8_t *waits, size_t waits_len,
                             uint64_t *out, size_t out_len);

#ifdef __cplusplus
}
#endif

#endif
