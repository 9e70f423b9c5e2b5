/* A settlement runner in small: it checks a law, holds one run, asks members what they would do,
 * reserves a machine for each step that would go, commits the step, names the facts that a step
 * lacked, and reports how the run ended. The last line is 'N passed, M failed'. */

#include <lawcheck.h>
#include <stdbool.h>
#include <stdio.h>
#include <string.h>

enum { ROW = LAWCHECK_ROW_WORDS, MASK = LAWCHECK_MASK_WORDS };
enum { MEMBERS = 2, ACTIONS = 4, WORDS = ROW * (1 + MEMBERS + ACTIONS), MOST_PICKS = 32 };

/* L1 of the scope paper: two members share one token, and both wait for it. */
static const uint64_t LAW[WORDS] = {
    5, 2, 4, 1, 0, 0, 0, 0, 0,
    0, 5, 0, 0, 0, 0, 0, 0, 0,
    1, 17, 0, 0, 0, 0, 0, 0, 0,
    0, 1, 0, 1, 0, 2, 0, 1, 0,
    0, 2, 0, 0, 0, 5, 0, 2, 0,
    1, 1, 0, 1, 0, 8, 0, 1, 0,
    1, 8, 0, 0, 0, 17, 0, 8, 0,
};

static const char LAW_TEXT[] =
    "5,2,4,1,0,0,0,0,0\r\n0,5,0,0,0,0,0,0,0\r\n1,17,0,0,0,0,0,0,0\r\n0,1,0,1,0,2,0,1,0\r\n"
    "0,2,0,0,0,5,0,2,0\r\n1,1,0,1,0,8,0,1,0\r\n1,8,0,0,0,17,0,8,0\r\n";

/* Names of that law's facts; others are named by their number. */
static const char *const NAMES[] = {"token", "work 0", "goal 0", "work 1", "goal 1"};

static unsigned passed, failed;

/* Whether two words hold this mask. */
static bool is_mask(const uint64_t *words, uint64_t low, uint64_t high)
{
    return words[0] == low && words[1] == high;
}

static void expect(bool holds, const char *what)
{
    if (holds) {
        passed++;
    } else {
        failed++;
        printf("failed: %s\n", what);
    }
}

/* The names of a mask's facts, rising, with commas between them. */
static const char *named(const uint64_t *mask)
{
    static char text[LAWCHECK_FACTS * sizeof "fact 127, "];
    size_t length = 0;
    text[0] = '\0';
    for (unsigned fact = 0; fact < LAWCHECK_FACTS; fact++) {
        if (mask[fact / 64] >> fact % 64 & 1) {
            const char *comma = length == 0 ? "" : ", ";
            size_t room = sizeof text - length;
            length += (size_t)(fact < sizeof NAMES / sizeof *NAMES
                                   ? snprintf(text + length, room, "%s%s", comma, NAMES[fact])
                                   : snprintf(text + length, room, "%sfact %u", comma, fact));
        }
    }
    return text;
}

static bool is_named(const uint64_t *mask, const char *names)
{
    return strcmp(named(mask), names) == 0;
}

/* What the runner holds: the law, the plans, the run as it stands, the picks so far, and how often
 * it asked for a machine. */
struct runner {
    const uint64_t *law;
    size_t law_len;
    const uint16_t *plans;
    size_t plans_len;
    const uint64_t *ends;
    uint64_t run[LAWCHECK_RUN_WORDS];
    uint8_t picks[MOST_PICKS];
    size_t picks_len;
    unsigned requests, stale;
};

/* What a member would do, and the ticket for it. */
struct asked {
    uint64_t answer, shared[LAWCHECK_MASK_WORDS], missing[LAWCHECK_MASK_WORDS];
    uint8_t member;
    uint32_t change;
};

static void start(struct runner *runner, const uint64_t *law, size_t law_len, const uint16_t *plans,
                  size_t plans_len, const uint64_t *ends)
{
    memset(runner, 0, sizeof *runner);
    runner->law = law;
    runner->law_len = law_len;
    runner->plans = plans;
    runner->plans_len = plans_len;
    runner->ends = ends;
    runner->run[LAWCHECK_RUN_CHANGE] = 99;
    expect(lawcheck_start(law, law_len, runner->run, LAWCHECK_RUN_WORDS) == 0 &&
               is_mask(runner->run + LAWCHECK_RUN_SHARED, law[3], law[4]) &&
               runner->run[LAWCHECK_RUN_CHANGE] == 0,
           "a run starts at the initial copy with nothing done");
}

static void note(struct runner *runner, uint8_t member)
{
    if (runner->picks_len < MOST_PICKS) {
        runner->picks[runner->picks_len++] = member;
    }
}

/* What is missing has to be told in a collision and in no other answer. */
static void expect_missing(bool collides, const uint64_t *missing)
{
    expect(is_mask(missing, 0, 0) != collides, "a collision lacks something, another answer none");
}

/* One pick on the held run: the refusal's number, or 0 with the answer in *answer. */
static uint64_t pick(struct runner *runner, uint8_t member, uint64_t *answer)
{
    uint64_t out[LAWCHECK_PICK_OUT] = {99, 99, 99};
    uint64_t refusal =
        lawcheck_pick(runner->law, runner->law_len, runner->plans, runner->plans_len, runner->ends,
                      MEMBERS, runner->run, LAWCHECK_RUN_WORDS, member, out, LAWCHECK_PICK_OUT);
    if (refusal == 0) {
        *answer = out[0];
        expect_missing(out[0] == LAWCHECK_PICK_COLLISION, out + 1);
        note(runner, member);
    }
    return refusal;
}

/* Asks what a member would do: the refusal's number, or 0 with the answer and its ticket. */
static uint64_t ask(const struct runner *runner, uint8_t member, struct asked *asked)
{
    uint64_t before[LAWCHECK_RUN_WORDS], out[LAWCHECK_ASK_OUT] = {99, 99, 99, 99, 99, 99, 99};
    memcpy(before, runner->run, sizeof before);
    uint64_t refusal =
        lawcheck_ask(runner->law, runner->law_len, runner->plans, runner->plans_len, runner->ends,
                     MEMBERS, runner->run, LAWCHECK_RUN_WORDS, member, out, LAWCHECK_ASK_OUT);
    expect(memcmp(before, runner->run, sizeof before) == 0, "an ask leaves the run as it was");
    if (refusal == 0) {
        expect(out[5] == member && out[6] == runner->run[LAWCHECK_RUN_CHANGE],
               "a ticket is the member and the change number");
        expect_missing(out[0] == LAWCHECK_ASK_COLLISION, out + 3);
        *asked = (struct asked){
            out[0], {out[1], out[2]}, {out[3], out[4]}, (uint8_t)out[5], (uint32_t)out[6]};
    }
    return refusal;
}

/* Commits what was asked: the refusal's number, or 0. A member that collides is told why. */
static uint64_t commit(struct runner *runner, const struct asked *asked)
{
    uint64_t before[LAWCHECK_RUN_WORDS], out[LAWCHECK_COMMIT_OUT] = {99, 99, 99};
    memcpy(before, runner->run, sizeof before);
    uint64_t refusal = lawcheck_commit(runner->law, runner->law_len, runner->plans,
                                       runner->plans_len, runner->ends, MEMBERS, runner->run,
                                       LAWCHECK_RUN_WORDS, asked->member, asked->change, out,
                                       LAWCHECK_COMMIT_OUT);
    if (refusal != 0) {
        expect(memcmp(before, runner->run, sizeof before) == 0 && out[0] == 99 &&
                   is_mask(out + 1, 99, 99),
               "a refused commit changes nothing");
        return refusal;
    }
    if (asked->answer == LAWCHECK_ASK_GO) {
        expect(out[0] == LAWCHECK_PICK_GO && is_mask(runner->run + LAWCHECK_RUN_SHARED,
                                                     asked->shared[0], asked->shared[1]),
               "it goes to the shared copy that was told");
    } else {
        expect(out[0] == LAWCHECK_PICK_COLLISION && asked->answer == LAWCHECK_ASK_COLLISION,
               "it collides as was told");
        printf("member %u lacked: %s\n", asked->member, named(out + 1));
    }
    expect(is_mask(out + 1, asked->missing[0], asked->missing[1]), "it lacks what was told");
    expect(runner->run[LAWCHECK_RUN_CHANGE] == before[LAWCHECK_RUN_CHANGE] + 1,
           "a commit is one change");
    note(runner, asked->member);
    return 0;
}

/* A machine for a step; every third request is refused. */
static bool reserve(struct runner *runner)
{
    return ++runner->requests % 3 != 0;
}

/* Commits what was asked where a machine can be had. A ticket that has become stale is asked for
 * again, and the machine is given back where the member would no longer go. *left tells whether the
 * member has to come again. False where a call is refused for another reason. */
static bool settle(struct runner *runner, struct asked *asked, bool *left)
{
    if (asked->answer == LAWCHECK_ASK_WAIT) {
        return true;
    }
    *left = true;
    if (!reserve(runner)) {
        return true;
    }
    uint64_t refusal = commit(runner, asked);
    if (refusal == LAWCHECK_STALE) {
        runner->stale++;
        refusal = ask(runner, asked->member, asked);
        if (refusal == 0 && asked->answer != LAWCHECK_ASK_WAIT) {
            refusal = commit(runner, asked);
        }
    }
    return refusal == 0 || refusal == LAWCHECK_PICK;
}

/* Goes round the members until none of them would go: asks them all, then settles what each would
 * do. False where a call is refused for another reason. */
static bool finish(struct runner *runner)
{
    bool left = true;
    while (left) {
        struct asked asked[MEMBERS];
        bool open[MEMBERS];
        left = false;
        for (uint8_t member = 0; member < MEMBERS; member++) {
            uint64_t refusal = ask(runner, member, &asked[member]);
            if (refusal != 0 && refusal != LAWCHECK_PICK) {
                return false;
            }
            open[member] = refusal == 0;
        }
        for (uint8_t member = 0; member < MEMBERS; member++) {
            if (open[member] && !settle(runner, &asked[member], &left)) {
                return false;
            }
        }
    }
    return true;
}

/* Replays the held run's picks from the start. */
static uint64_t replay(const struct runner *runner, uint64_t out[LAWCHECK_JOINT_REPLAY_OUT])
{
    return lawcheck_joint_replay(runner->law, runner->law_len, runner->plans, runner->plans_len,
                                 runner->ends, MEMBERS, runner->picks, runner->picks_len, out,
                                 LAWCHECK_JOINT_REPLAY_OUT);
}

/* The verdict on a law, its conflict left in the last three slices. */
enum { COPIES = 16, CONFIGURATIONS = 64 };
static uint64_t local[MASK * MEMBERS * COPIES];
static uint64_t configurations[MASK * (MEMBERS + 1) * CONFIGURATIONS];
static uint64_t trail[2 * CONFIGURATIONS], conflict_ends[MEMBERS];
static uint8_t marks[MEMBERS * COPIES], conflict_picks[CONFIGURATIONS];
static uint16_t conflict_plans[CONFIGURATIONS + MEMBERS * COPIES];

static uint64_t verdict(const uint64_t *law, size_t law_len, uint64_t out[LAWCHECK_VERDICT_OUT])
{
    return lawcheck_verdict(law, law_len, local, MASK * MEMBERS * COPIES, marks, MEMBERS * COPIES,
                            configurations, MASK * (MEMBERS + 1) * CONFIGURATIONS, trail,
                            2 * CONFIGURATIONS, conflict_plans, CONFIGURATIONS + MEMBERS * COPIES,
                            conflict_ends, MEMBERS, conflict_picks, CONFIGURATIONS, out,
                            LAWCHECK_VERDICT_OUT);
}

/* A law from text is the law in words. */
static void read_the_law(void)
{
    static uint64_t words[LAWCHECK_TEXT_WORDS];
    uint64_t out[LAWCHECK_READ_OUT] = {99};
    const uint8_t *text = (const uint8_t *)LAW_TEXT;
    uint64_t refusal = lawcheck_read(text, strlen(LAW_TEXT), words, LAWCHECK_TEXT_WORDS, out,
                                     LAWCHECK_READ_OUT);
    expect(refusal == 0 && out[0] == 1 + MEMBERS + ACTIONS, "the text has seven records");
    expect(memcmp(words, LAW, sizeof LAW) == 0, "the text gives the law's words");
    expect(words[WORDS] == 0 && words[LAWCHECK_TEXT_WORDS - 1] == 0, "zeros come after them");
    refusal = lawcheck_read(text, strlen(LAW_TEXT) - 1, words, LAWCHECK_TEXT_WORDS, out,
                            LAWCHECK_READ_OUT);
    expect(refusal == LAWCHECK_TEXT && words[0] == 0, "half a line end is refused with zeros");
}

/* The operations on one member or one action. */
static void single_operations(void)
{
    static const uint16_t plan[] = {0, 1};
    static const uint64_t shared[] = {1, 0};
    /* L8 of the scope paper: member 0's one step loses its goal for good. */
    static const uint64_t losing[] = {
        2, 2, 2, 1, 0, 0, 0, 0, 0,
        0, 1, 0, 0, 0, 0, 0, 0, 0,
        1, 1, 0, 0, 0, 0, 0, 0, 0,
        0, 0, 0, 0, 0, 2, 0, 1, 0,
        1, 1, 0, 0, 0, 1, 0, 0, 0,
    };
    uint64_t table[9], found[LAWCHECK_SOLO_SEARCH_OUT] = {99, 99, 99};
    uint64_t out[LAWCHECK_STEP_OUT] = {99, 99, 99, 99, 99};
    uint8_t live[4];
    expect(lawcheck_task(LAW, WORDS) == 0, "the law is accepted");
    expect(lawcheck_task(LAW, WORDS - 1) == LAWCHECK_LENGTH, "a cut law is refused");
    expect(lawcheck_step(LAW, WORDS, 0, shared, 2, out, 5) == 0 && out[0] == LAWCHECK_STEP_GO &&
               is_mask(out + 1, 2, 0) && is_mask(out + 3, 0, 0),
           "the token is taken");
    expect(lawcheck_step(LAW, WORDS, 1, shared, 2, out, 5) == 0 &&
               out[0] == LAWCHECK_STEP_COLLISION && is_mask(out + 1, 0, 0) &&
               is_mask(out + 3, 2, 0) && is_named(out + 3, "work 0"),
           "posting without having begun collides, and what it lacks is named");
    out[0] = 99;
    expect(lawcheck_step(LAW, WORDS, 0, shared, 1, out, 5) == LAWCHECK_SHORT &&
               lawcheck_step(LAW, WORDS, 0, shared, 0, out, 5) == LAWCHECK_SHORT,
           "a shared copy is two words");
    expect(lawcheck_step(LAW, WORDS, 0, shared, 2, out, 4) == LAWCHECK_SHORT && out[0] == 99,
           "a step tells five numbers");
    expect(lawcheck_solo_replay(LAW, WORDS, 0, plan, 2, out, 2) == 0 && out[0] == LAWCHECK_SOLVES,
           "member 0's plan solves");
    expect(lawcheck_solo_replay(LAW, WORDS, 0, plan, 1, out, 2) == 0 &&
               out[0] == LAWCHECK_GOAL_SHORT,
           "half of it is short");
    expect(lawcheck_solo_search(LAW, WORDS, 0, table, 8, live, 4, found, 2) == LAWCHECK_SHORT &&
               found[0] == 99,
           "a search tells three numbers");
    table[8] = 99;
    expect(lawcheck_solo_search(LAW, WORDS, 0, table, 9, live, 4, found, 3) == 0 && found[0] == 4 &&
               found[1] == 1 && found[2] == 4,
           "member 0 has four copies and a plan, and all four are live");
    expect(is_mask(table, 1, 0) && is_mask(table + 2, 2, 0) && is_mask(table + 4, 5, 0) &&
               is_mask(table + 6, 6, 0) && table[8] == 0,
           "each copy is two words, and the odd word is zero");
    expect(lawcheck_solo_search(losing, 5 * ROW, 0, table, 8, live, 4, found, 3) == 0 &&
               found[0] == 2 &&
               found[1] == 1 && found[2] == 1 && live[0] == 1 && live[1] == 0,
           "one of two copies is live");
    expect(lawcheck_solo_search(LAW, WORDS, 0, table, 7, live, 3, found, 3) == LAWCHECK_FULL &&
               table[0] == 0 && found[2] == 1,
           "three rows and an odd word are too few");
}

/* A robust law: any order of picks ends in success. */
static void run_to_success(void)
{
    static const uint16_t plans[] = {0, 1, 2, 3};
    static const uint64_t ends[MEMBERS] = {2, 4};
    uint64_t out[LAWCHECK_JOINT_REPLAY_OUT], answer;
    struct runner runner;
    struct asked first, second;
    expect(verdict(LAW, WORDS, out) == 0 && out[0] == LAWCHECK_ROBUST && out[2] == 12,
           "the law is robust with 12 configurations");
    start(&runner, LAW, WORDS, plans, 4, ends);
    expect(ask(&runner, 0, &second) == 0 && second.answer == LAWCHECK_ASK_GO &&
               is_mask(second.shared, 2, 0),
           "member 0 would go");
    expect(ask(&runner, 1, &first) == 0 && first.answer == LAWCHECK_ASK_GO &&
               is_mask(first.shared, 8, 0),
           "member 1 would go");
    expect(commit(&runner, &first) == 0, "member 1 goes first");
    expect(runner.run[LAWCHECK_RUN_PLACES + 1] == 1 &&
               is_mask(runner.run + LAWCHECK_RUN_SHARED, 8, 0) &&
               runner.run[LAWCHECK_RUN_CHANGE] == 1,
           "the run moves on");
    expect(commit(&runner, &second) == LAWCHECK_STALE, "what member 0 was told is stale");
    expect(commit(&runner, &first) == LAWCHECK_STALE, "a ticket is good for one commit");
    expect(ask(&runner, 0, &second) == 0 && second.answer == LAWCHECK_ASK_WAIT &&
               is_mask(second.shared, 0, 0) && second.change == 1,
           "member 0 would wait now, and has a ticket");
    expect(commit(&runner, &second) == LAWCHECK_PICK, "what waits is not committed");
    expect(pick(&runner, 0, &answer) == LAWCHECK_PICK, "nor picked");
    expect(pick(&runner, MEMBERS, &answer) == LAWCHECK_MEMBER, "there is no third member");
    expect(ask(&runner, MEMBERS, &first) == LAWCHECK_MEMBER, "it cannot be asked");
    first = (struct asked){LAWCHECK_ASK_GO, {0, 0}, {0, 0}, MEMBERS, 7};
    expect(commit(&runner, &first) == LAWCHECK_MEMBER, "nor committed, by a stale ticket either");
    expect(finish(&runner), "the run finishes");
    expect(runner.run[LAWCHECK_RUN_CHANGE] == 4, "four picks were done");
    expect(ask(&runner, 0, &first) == LAWCHECK_PICK, "no step is left");
    expect(replay(&runner, out) == 0 && out[0] == LAWCHECK_RUN_SUCCESS && out[2] == 4 &&
               is_mask(runner.run + LAWCHECK_RUN_SHARED, out[3], out[4]),
           "the replay is a success with the run's shared copy");
    expect(lawcheck_pick(LAW, WORDS, plans, 4, ends, MEMBERS, runner.run, LAWCHECK_RUN_WORDS - 1, 0,
                         out, LAWCHECK_PICK_OUT) == LAWCHECK_SHORT,
           "a run has twelve words");
    out[0] = 99;
    expect(lawcheck_pick(LAW, WORDS, plans, 4, ends, MEMBERS, runner.run, LAWCHECK_RUN_WORDS, 0,
                         out, LAWCHECK_PICK_OUT - 1) == LAWCHECK_SHORT &&
               lawcheck_commit(LAW, WORDS, plans, 4, ends, MEMBERS, runner.run, LAWCHECK_RUN_WORDS,
                               0, 0, out, LAWCHECK_COMMIT_OUT - 1) == LAWCHECK_SHORT &&
               out[0] == 99,
           "a pick tells three numbers, and so does a commit");
}

/* Members whose steps have nothing to do with each other: what one is told becomes stale by the
 * other's commit, and machines are refused. */
static void run_side_by_side(void)
{
    static const uint64_t law[] = {
        2, 2, 2, 0, 0, 0, 0, 0, 0,
        0, 1, 0, 0, 0, 0, 0, 0, 0,
        1, 2, 0, 0, 0, 0, 0, 0, 0,
        0, 0, 0, 0, 0, 1, 0, 0, 0,
        1, 0, 0, 0, 0, 2, 0, 0, 0,
    };
    static const uint16_t plans[] = {0, 0, 0, 1, 1, 1};
    static const uint64_t ends[MEMBERS] = {3, 6};
    uint64_t out[LAWCHECK_JOINT_REPLAY_OUT], answer;
    struct runner runner;
    struct asked asked;
    start(&runner, law, 5 * ROW, plans, 6, ends);
    expect(ask(&runner, 0, &asked) == 0 && pick(&runner, 1, &answer) == 0 &&
               commit(&runner, &asked) == LAWCHECK_STALE,
           "a pick makes a ticket stale");
    expect(ask(&runner, 0, &asked) == 0 && commit(&runner, &asked) == 0, "it is asked for again");
    expect(finish(&runner) && runner.run[LAWCHECK_RUN_CHANGE] == 6, "all six steps are done");
    expect(runner.stale > 0 && runner.requests > 4, "with stale tickets and refused machines");
    expect(replay(&runner, out) == 0 && out[0] == LAWCHECK_RUN_SUCCESS && out[2] == 6,
           "the replay is a success");
}

/* Without waiting the second member collides, and the run is closed. */
static void run_to_collision(void)
{
    static const uint16_t plans[] = {0, 1, 2, 3};
    static const uint64_t ends[MEMBERS] = {2, 4};
    uint64_t law[WORDS], out[LAWCHECK_JOINT_REPLAY_OUT], answer;
    struct runner runner;
    struct asked asked;
    memcpy(law, LAW, sizeof law);
    for (int action = 0; action < ACTIONS; action++) {
        law[ROW * (1 + MEMBERS + action) + 3] = 0;
    }
    expect(verdict(law, WORDS, out) == 0 && out[0] == LAWCHECK_COLLISION &&
               is_mask(out + 3, 1, 0) && is_named(out + 3, "token"),
           "the law may collide for want of the token");
    uint64_t done = out[2];
    expect(lawcheck_joint_replay(law, WORDS, conflict_plans, conflict_ends[MEMBERS - 1],
                                 conflict_ends, MEMBERS, conflict_picks, done + 1, out,
                                 LAWCHECK_JOINT_REPLAY_OUT) == 0 &&
               out[0] == LAWCHECK_RUN_COLLISION && out[2] == done && is_mask(out + 5, 1, 0),
           "its conflict replays, and lacks the same");
    expect(lawcheck_joint_replay(law, WORDS, conflict_plans, conflict_ends[MEMBERS - 1],
                                 conflict_ends, MEMBERS, conflict_picks, done + 1, out,
                                 LAWCHECK_JOINT_REPLAY_OUT - 1) == LAWCHECK_SHORT,
           "a replay tells seven numbers");
    start(&runner, law, WORDS, plans, 4, ends);
    expect(pick(&runner, 0, &answer) == 0 && answer == LAWCHECK_PICK_GO, "member 0 goes");
    expect(ask(&runner, 1, &asked) == 0 && asked.answer == LAWCHECK_ASK_COLLISION &&
               is_mask(asked.shared, 0, 0) && is_named(asked.missing, "token"),
           "member 1 would collide for want of the token");
    expect(commit(&runner, &asked) == 0, "member 1 collides");
    expect(runner.run[LAWCHECK_RUN_COLLIDED] == 1 && runner.run[LAWCHECK_RUN_PLACES + 1] == 0 &&
               is_mask(runner.run + LAWCHECK_RUN_SHARED, 2, 0),
           "a collision changes neither copy nor place");
    expect(runner.run[LAWCHECK_RUN_CHANGE] == 2, "but it counts");
    expect(pick(&runner, 0, &answer) == LAWCHECK_PICK, "the run is closed");
    expect(ask(&runner, 0, &asked) == LAWCHECK_PICK, "nobody is told anything");
    expect(replay(&runner, out) == 0 && out[0] == LAWCHECK_RUN_COLLISION && out[2] == 1 &&
               is_mask(out + 5, 1, 0),
           "the replay collides after one pick for want of the token");
}

/* A member that keeps the token leaves the other one waiting. */
static void run_to_deadlock(void)
{
    static const uint16_t plans[] = {0, 1, 0, 2, 3};
    static const uint64_t ends[MEMBERS] = {3, 5};
    uint64_t law[WORDS], out[LAWCHECK_JOINT_REPLAY_OUT];
    struct runner runner;
    struct asked asked;
    memcpy(law, LAW, sizeof law);
    law[ROW + 1] = 4;
    law[2 * ROW + 1] = 16;
    expect(verdict(law, WORDS, out) == 0 && out[0] == LAWCHECK_DEADLOCK && is_mask(out + 3, 0, 0),
           "the law may deadlock, and nothing is told to be missing");
    start(&runner, law, WORDS, plans, 5, ends);
    for (int count = 0; count < 3; count++) {
        expect(ask(&runner, 0, &asked) == 0 && commit(&runner, &asked) == 0, "member 0 goes on");
    }
    expect(finish(&runner) && runner.picks_len == 3, "nobody can be picked");
    expect(ask(&runner, 1, &asked) == 0 && asked.answer == LAWCHECK_ASK_WAIT, "member 1 waits");
    expect(replay(&runner, out) == 0 && out[0] == LAWCHECK_RUN_DEADLOCK && out[2] == 3 &&
               is_mask(out + 5, 0, 0),
           "the replay is a deadlock after three picks");
}

/* A run that has the last change number is asked, and takes no pick. */
static void run_to_the_last_change(void)
{
    static const uint16_t plans[] = {0, 1, 2, 3};
    static const uint64_t ends[MEMBERS] = {2, 4};
    static const uint8_t picks[] = {0, 1, MEMBERS, 0};
    uint64_t answers[4], out[LAWCHECK_ASK_OUT] = {99}, answer;
    struct runner runner;
    struct asked asked;
    start(&runner, LAW, WORDS, plans, 4, ends);
    runner.run[LAWCHECK_RUN_CHANGE] = LAWCHECK_LAST_CHANGE - 1;
    expect(ask(&runner, 0, &asked) == 0 && commit(&runner, &asked) == 0, "one change is left");
    expect(runner.run[LAWCHECK_RUN_CHANGE] == LAWCHECK_LAST_CHANGE, "then none is");
    expect(ask(&runner, 0, &asked) == 0 && asked.answer == LAWCHECK_ASK_GO &&
               is_mask(asked.shared, 5, 0) &&
               asked.change == LAWCHECK_LAST_CHANGE,
           "member 0 is told that it would go");
    expect(commit(&runner, &asked) == LAWCHECK_CHANGES, "it does not");
    expect(pick(&runner, 0, &answer) == LAWCHECK_CHANGES, "nor by a pick");
    expect(pick(&runner, 1, &answer) == LAWCHECK_PICK, "what waits is refused for that");
    expect(lawcheck_play(LAW, WORDS, plans, 4, ends, MEMBERS, runner.run, LAWCHECK_RUN_WORDS, picks,
                         4, answers, 4) == 0 &&
               answers[0] == LAWCHECK_CHANGES && answers[1] == LAWCHECK_PICK &&
               answers[2] == LAWCHECK_MEMBER && answers[3] == LAWCHECK_CHANGES,
           "a list of picks is passed over");
    expect(lawcheck_ask(LAW, WORDS, plans, 4, ends, MEMBERS, runner.run, LAWCHECK_RUN_WORDS, 0, out,
                        LAWCHECK_ASK_OUT - 1) == LAWCHECK_SHORT &&
               out[0] == 99,
           "an ask tells seven numbers");
    runner.run[LAWCHECK_RUN_CHANGE]++;
    expect(ask(&runner, 0, &asked) == LAWCHECK_SHORT && pick(&runner, 0, &answer) == LAWCHECK_SHORT,
           "no run has a larger number");
    asked.change = 0;
    expect(commit(&runner, &asked) == LAWCHECK_SHORT, "it is not cut to 32 bits");
    expect(lawcheck_play(LAW, WORDS, plans, 4, ends, MEMBERS, runner.run, LAWCHECK_RUN_WORDS, picks,
                         4, answers, 4) == LAWCHECK_SHORT,
           "a list of picks is refused too");
    expect(lawcheck_start(LAW, WORDS, runner.run, LAWCHECK_RUN_WORDS - 1) == LAWCHECK_SHORT &&
               lawcheck_start(LAW, WORDS, runner.run, LAWCHECK_RUN_WORDS) == 0 &&
               runner.run[LAWCHECK_RUN_CHANGE] == 0,
           "a start needs twelve words, whatever they hold");
}

/* A law of 128 facts in which two members take turns by facts of the high word: what the low words
 * say is the same throughout. */
static void run_in_the_high_word(void)
{
    static const uint64_t last = UINT64_C(1) << 63;
    const uint64_t law[] = {
        128, 2, 2, 1, 1, 0, 0, 0, 0,
        0, 0, last, 0, 0, 0, 0, 0, 0,
        1, 0, last, 0, 0, 0, 0, 0, 0,
        0, 1, 1, 0, 1, 0, last, 0, 1,
        1, 1, 1, 0, 1, 0, last, 0, 0,
    };
    static const uint16_t plans[] = {0, 1};
    static const uint64_t ends[MEMBERS] = {1, 2};
    uint64_t out[LAWCHECK_JOINT_REPLAY_OUT], answer;
    struct runner runner;
    struct asked asked;
    expect(verdict(law, 5 * ROW, out) == 0 && out[0] == LAWCHECK_DEADLOCK && out[2] == 1,
           "the law may deadlock for want of fact 64");
    expect(is_mask(local, 1, 1) && is_mask(local + 2, 1, last), "two copies differ in high words");
    start(&runner, law, 5 * ROW, plans, 2, ends);
    expect(ask(&runner, 1, &asked) == 0 && asked.answer == LAWCHECK_ASK_GO &&
               is_mask(asked.shared, 1, last | 1) && commit(&runner, &asked) == 0,
           "member 1 goes by fact 64");
    expect(pick(&runner, 0, &answer) == 0 && answer == LAWCHECK_PICK_GO, "so does member 0");
    expect(replay(&runner, out) == 0 && out[0] == LAWCHECK_RUN_SUCCESS && out[2] == 2 &&
               is_mask(out + 3, 1, last),
           "in this order both have fact 127");
    start(&runner, law, 5 * ROW, plans, 2, ends);
    expect(pick(&runner, 0, &answer) == 0 && ask(&runner, 1, &asked) == 0 &&
               asked.answer == LAWCHECK_ASK_WAIT,
           "in the other one member 1 waits");
    runner.run[LAWCHECK_RUN_SHARED + 1] |= 1;
    expect(ask(&runner, 1, &asked) == 0 && asked.answer == LAWCHECK_ASK_GO,
           "until fact 64 is there again");
}

/* A law of 128 facts in which a member takes four away, in both words; the other one needs these
 * and fact 126, which it waits for. */
static void run_for_want_of_many(void)
{
    static const uint64_t edge = UINT64_C(1) << 63, waited = UINT64_C(1) << 62;
    const uint64_t low = edge | 1, high = edge | 1;
    const uint64_t law[] = {
        128, 2, 2, low, high | waited, 0, 0, 0, 0,
        0, 0, 0, 0, 0, 0, 0, 0, 0,
        1, 0, 0, 0, 0, 0, 0, 0, 0,
        0, 0, 0, 0, 0, 0, 0, low, high,
        1, low, high | waited, 0, waited, 0, 0, 0, 0,
    };
    static const uint16_t plans[] = {0, 1};
    static const uint64_t ends[MEMBERS] = {1, 2};
    static const char missing[] = "token, fact 63, fact 64, fact 127";
    uint64_t out[LAWCHECK_JOINT_REPLAY_OUT], answer;
    struct runner runner;
    struct asked asked;
    expect(verdict(law, 5 * ROW, out) == 0 && out[0] == LAWCHECK_COLLISION && out[2] == 1 &&
               is_mask(out + 3, low, high) && is_named(out + 3, missing),
           "the law may collide for want of four facts");
    start(&runner, law, 5 * ROW, plans, 2, ends);
    expect(pick(&runner, 0, &answer) == 0 && answer == LAWCHECK_PICK_GO, "member 0 takes them");
    expect(ask(&runner, 1, &asked) == 0 && asked.answer == LAWCHECK_ASK_COLLISION &&
               is_named(asked.missing, missing),
           "member 1 would lack them");
    runner.run[LAWCHECK_RUN_SHARED + 1] |= 1;
    expect(ask(&runner, 1, &asked) == 0 && is_named(asked.missing, "token, fact 63, fact 127"),
           "with fact 64 there again it would lack three");
    expect(commit(&runner, &asked) == 0, "it collides for want of these");
    expect(replay(&runner, out) == 0 && out[0] == LAWCHECK_RUN_COLLISION && out[2] == 1 &&
               is_mask(out + 3, 0, waited) && is_named(out + 5, missing),
           "in the replay it lacks all four");
}

int main(void)
{
    read_the_law();
    single_operations();
    run_to_success();
    run_side_by_side();
    run_to_collision();
    run_to_deadlock();
    run_to_the_last_change();
    run_in_the_high_word();
    run_for_want_of_many();
    printf("%u passed, %u failed\n", passed, failed);
    return failed == 0 ? 0 : 1;
}
