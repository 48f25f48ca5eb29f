/* A model of the crews of a round: how they ring, sleep, are woken and end (nm_crews: bells.rt, forks.rt; nm_world: rounds.rt). `.ci/wakes`
 * builds it, and holds the lines that it quotes against the sources. It makes each step on a shared word by itself, in
 * every order that there is, and looks at each state that comes of it:
 *
 *   counted   `awake` is at least the number of crews that are awake, rung or have not begun
 *   rest      where it becomes 0, each other crew sleeps or has left, nothing is rung, and no rank of a crew that sleeps
 *             has anything to take, or to send where there is room, unless a crew made that room in its last turn
 *   end       whatever happened, all crews can still come to their end
 *
 * The first two hold until the round ends. A sleep that returns for no reason only looks again, and is left out. A rank
 * sends and takes by a box for each other rank, with room for one item. Which items there are is free: a rank may have one
 * for any other in its first turn and wherever it took one, up to a number for the run. */
#include <stdint.h>
#include <stdio.h>
#include <stdlib.h>
#include <string.h>

/* Where a crew is: the step that it makes next, and the line that this is. */
#define STEPS(STEP) \
    STEP(BEGIN, "begin", "self.begun.fetch_add(1, Ordering::SeqCst);") \
    STEP(POLL, "take_soon", "let took = self.take_next(f, steps)?;") \
    STEP(REPLY, "reply", "self.run_while_idle(f, steps)?;") \
    STEP(SEND, "move_all", "let sent = self.actor.send_all(f, steps)?;") \
    STEP(REFUSE, "visit", "Err(Memory) => {") \
    STEP(RING_LOAD, "ring_at", "let seen = crew.bell.load(Ordering::SeqCst);") \
    STEP(RING_SET, "ring_at", "if seen & SLEEPS == 0 && crew.turns(seen, seen | places) {") \
    STEP(RING_ADD, "ring_at", "self.awake.fetch_add(1, Ordering::SeqCst);") \
    STEP(RING_OR, "ring_at", "if crew.bell.fetch_or(places, Ordering::SeqCst) == SLEEPS {") \
    STEP(RING_WAKE, "ring_at", "crew.bell.wake_all();") \
    STEP(RING_SUB, "ring_at", "self.awake.fetch_sub(1, Ordering::SeqCst);") \
    STEP(TAKE, "move_all", "let took = self.actor.take_all(f, steps)?;") \
    STEP(RUN, "move_all", "let ran = self.run_all(f, steps)?;") \
    STEP(LIMIT, "turns_of", "for made in 1..turns {") \
    STEP(HEAR, "hear", "let places = self.bell.load(Ordering::SeqCst);") \
    STEP(LOAD, "answer", "if self.bell.load(Ordering::SeqCst) == 0 {") \
    STEP(SWAP, "answer", "self.bell.swap(0, Ordering::SeqCst)") \
    STEP(LOOK, "look", "if self.bell.load(Ordering::SeqCst) != 0 {") \
    STEP(SLEEP, "sleep", "if !crew.turns(0, SLEEPS) {") \
    STEP(LEAVE, "leave", "if self.awake.fetch_sub(1, Ordering::SeqCst) == 1 {") \
    STEP(END_SET, "end", "self.bell.fetch_or(OVER | 1, Ordering::SeqCst);") \
    STEP(END_WAKE, "end", "self.bell.wake_all();") \
    STEP(SEE_BEGUN, "see_all_begin", "let begun = self.begun.load(Ordering::SeqCst);") \
    STEP(SEE_ASLEEP, "see_all_begin", "if begun >= self.crews.len() as u64 || !crew.is_asleep() {") \
    STEP(SEE_HAD, "see_all_begin", "if self.had.load(Ordering::SeqCst) != 0 {") \
    STEP(SEE_NAP, "see_all_begin", "crew.bell.park_timeout(rt, 0, Duration::from_millis(NAP));") \
    STEP(GIVE_BEGUN, "give_up", "let begun = self.begun.load(Ordering::SeqCst);") \
    STEP(GIVE_SET, "give_up", "let left = crew.turns(SLEEPS, 0);") \
    STEP(GIVE_HAD, "give_up", "self.had.store(begun, Ordering::SeqCst);") \
    STEP(LATE_BELL, "sleep", "let late = crew.is_asleep() && self.awake.load(Ordering::SeqCst) <= 1;") \
    STEP(LATE_AWAKE, "sleep", "let late = crew.is_asleep() && self.awake.load(Ordering::SeqCst) <= 1;") \
    STEP(WAIT, "sleep", "if !crew.is_asleep() {") \
    STEP(PARK, "sleep", "crew.bell.park(rt, 0);") \
    STEP(PARKED, "sleep", "crew.bell.park(rt, 0);") \
    STEP(IS_OVER, "sleep", "if late && !crew.is_over() {") \
    STEP(DONE, "turns_of", "return Ok(moved);")
#define NAME(name, function, line) name,
#define SPELLED(name, function, line) #name,
enum { STEPS(NAME) };
static const char *spelled[] = {STEPS(SPELLED)};

/* What is made wrong in the model, to see that it is found. */
enum {
    NOTHING, SLEEPS_UNSEEN, WAKES_FIRST, COUNTS_LATE, REFUSAL_UNTOLD, GIVES_UP_BLINDLY, ENDS_WITHOUT_A_BIT, DUE_FORGOTTEN
};

enum { MOST = 3, PLACES = 7, SLEEPS = 8, OVER = 16 };
enum { FIRST = 1, MOVED = 2, GOT = 4, LATE = 8 };  /* what a crew knows */
enum { BEFORE, LOOKED, AFTER };                    /* when `next` asks for an answer: before it sleeps or after that */
enum { THEN_SLEEP, THEN_DONE, THEN_ANSWER };       /* what a crew does that took its own from `awake`, or told the end */

typedef struct {
    uint8_t at, bell;
    uint8_t due;   /* of its own ranks, those that may have something to do in the next sweep */
    uint8_t todo;  /* those whose turn in this one is still to come: the lowest is at its turn */
    uint8_t noted; /* those that this turn rang for */
    uint8_t seen;  /* what a load found, for the step that depends on it */
    uint8_t k;     /* the crew or rank that a loop is at */
    uint8_t knows, when, then;
} Crew;

typedef struct {
    Crew crew[MOST];
    uint8_t awake, begun, had, over;
    uint8_t items, refusals, limits; /* how many there may still be */
    uint8_t out[MOST];               /* of each rank, 1 + the rank for which it has an item, or 0 */
    uint8_t box[MOST];               /* of each rank, the ranks that an item of it is under way to */
    uint8_t calls[MOST];             /* of each rank, the ranks that it has yet to ring for */
} State;

static int crews, ranks, items, refusals, limits, before[MOST], mistake;
static const char *wrong;

/* The ranks of a crew: the first one has those that are left over. */
static int ranks_of(int c) { return c ? 1 << (c + ranks - crews) : (2 << (ranks - crews)) - 1; }

static int has_one(int c) { return c || ranks == crews; }

static int crew_of(int r) { return r > ranks - crews ? r - (ranks - crews) : 0; }

static int lowest(int set) { return __builtin_ctz(set); }
static int sleeps(const Crew *x) { return x->at >= SEE_BEGUN && x->at < DONE && x->at != GIVE_HAD; }
static int left(const Crew *x) { return x->at == DONE || x->at == GIVE_HAD; }

static int can_send(const State *s, int r) { return s->out[r] && !(s->box[r] >> (s->out[r] - 1) & 1); }

/* Whether a crew makes no more turns, where the last one leaves. */
static int is_out(const State *s, int c, int last)
{
    return left(&s->crew[c]) || (c == last && s->crew[c].then == THEN_DONE);
}

/* Whether a rank can move, and what it waited for was told, or has to be before the next round. */
static int can_move(const State *s, int r, int last)
{
    for (int from = 0; from < ranks; from++)
        if (s->box[from] >> r & 1) return 1;
    return can_send(s, r) && !(s->calls[s->out[r] - 1] >> r & 1 && is_out(s, crew_of(s->out[r] - 1), last));
}

/* Looks at a state in which `awake` has become 0 by the leave of a crew. */
static void look_at_rest(const State *s, int last)
{
    for (int c = 0; c < crews; c++) {
        const Crew *x = &s->crew[c];
        if (is_out(s, c, last)) continue;
        if (c != last && !sleeps(x)) wrong = "rest: the last one sleeps while a crew is awake";
        if (x->bell & PLACES) wrong = "rest: the last one sleeps while a crew is rung";
        for (int r = 0; r < ranks; r++)
            if (ranks_of(c) >> r & 1 && can_move(s, r, last)) wrong = "rest: all sleep, and a rank could move";
    }
}

static void look_at_count(const State *s)
{
    int busy = 0;
    for (int c = 0; c < crews; c++)
        busy += sleeps(&s->crew[c]) ? (s->crew[c].bell & PLACES) != 0 : !left(&s->crew[c]);
    if (!s->over && s->awake < busy) wrong = "counted: more crews are awake or rung than `awake` says";
}

/* What a crew does after a step by itself, up to its next one. */
static void take(Crew *x);

static void answer(Crew *x, int when) { x->when = when; x->at = LOAD; }

static void then(Crew *x)
{
    if (x->then == THEN_ANSWER) answer(x, AFTER); else x->at = x->then == THEN_DONE ? DONE : SEE_BEGUN;
}

static void end_all(State *s, Crew *x, int next) { s->over = 1; x->k = 0; x->then = next; x->at = END_SET; }

/* Rings for the next crew of the ranks that are called (`tell`, `ring`). */
static void ring(State *s, Crew *x)
{
    uint8_t *calls = &s->calls[lowest(x->todo)];
    for (; x->k < crews; x->k++) {
        int places = *calls & ranks_of(x->k);
        if (x == &s->crew[x->k]) x->noted |= places;
        else if (places) { x->at = RING_LOAD; return; }
    }
    *calls = x->k = 0;
    take(x);
}

static void rung(State *s, Crew *x) { x->k++; ring(s, x); }

static void tell(State *s, Crew *x) { x->k = 0; ring(s, x); }

static void take(Crew *x)
{
    if (x->k == lowest(x->todo)) x->k++;
    x->at = x->k < ranks ? TAKE : RUN;
}

static void sent(State *s, Crew *x) { if (s->refusals) x->at = REFUSE; else tell(s, x); }

static void send(State *s, Crew *x) { if (s->out[lowest(x->todo)]) x->at = SEND; else sent(s, x); }

/* Looks for an item of the next rank, before a turn in which there is nothing to send; `take_soon` does so many times. */
static void poll(State *s, Crew *x)
{
    if (x->k == lowest(x->todo)) x->k++;
    if (x->k < ranks) x->at = POLL; else send(s, x);
}

/* Asks what was rung: a crew of one rank may keep it (`hear`). */
static void hear(const State *s, Crew *x, int when) { answer(x, when); if (has_one(x - s->crew)) x->at = HEAR; }

/* Asks which ranks may have something to do (`next`). */
static void next(const State *s, Crew *x) { hear(s, x, BEFORE); }

/* The turn of the next rank of a sweep. */
static void turn(State *s, Crew *x)
{
    if (x->todo) {
        x->k = 0;
        if (has_one(x - s->crew) && !(x->knows & FIRST) && !s->out[lowest(x->todo)]) poll(s, x); else send(s, x);
        return;
    }
    x->knows &= ~FIRST;
    if (s->limits) x->at = LIMIT; else next(s, x);
}

/* `next` has an answer. */
static void answered(State *s, Crew *x, int own, int rung)
{
    if (!(x->due | rung) && x->when != AFTER) { x->at = x->when == BEFORE ? LOOK : SLEEP; return; }
    if (rung & OVER) { x->at = DONE; return; }
    x->todo = (x->due | rung) & own;
    x->due = 0;
    turn(s, x);
}

/* The next step of a crew, in this one of the ways that it has; 0 where there are no more ways, -1 where this is none. */
static int step(State *s, int c, int way)
{
    Crew *x = &s->crew[c], *y = &s->crew[x->k < crews ? x->k : 0];
    int r = x->todo ? lowest(x->todo) : 0, places = s->calls[r] & ranks_of(x->k), bell = y->bell;
    if (way && x->at != REFUSE && x->at != REPLY && x->at != RUN && x->at != LIMIT && x->at != HEAR && x->at != SEE_NAP) return 0;
    switch (x->at) {
    case BEGIN:
        for (int d = 0; d < crews; d++)
            if (before[c] >> d & 1 && s->crew[d].at != DONE) return 0;
        s->begun++, x->knows = FIRST, x->todo = ranks_of(c);
        turn(s, x);
        return 1;
    case POLL:
        if (!(s->box[x->k] >> r & 1)) { x->k++, poll(s, x); return 1; }
        s->box[x->k] &= ~(1 << r), s->calls[r] |= 1 << x->k, x->knows |= MOVED, x->at = REPLY;
        return 1;
    case REPLY:
        if (way > ranks) return 0;
        if (way && (way - 1 == r || !s->items)) return -1;
        if (way) s->out[r] = way, s->items--;
        send(s, x);
        return 1;
    case SEND:
        if (can_send(s, r)) {
            s->box[r] |= 1 << (s->out[r] - 1), s->calls[r] |= 1 << (s->out[r] - 1);
            s->out[r] = 0, x->knows |= MOVED;
        }
        sent(s, x);
        return 1;
    case REFUSE:
        if (!way) tell(s, x);
        else if (mistake == REFUSAL_UNTOLD) s->refusals--, x->at = DONE;
        else s->refusals--, end_all(s, x, THEN_DONE);
        return way < 2;
    case RING_LOAD:
        x->seen = bell;
        if (!(places & ~bell)) rung(s, x);
        else if (!(bell & SLEEPS)) x->at = RING_SET;
        else x->at = mistake == COUNTS_LATE ? RING_OR : RING_ADD;
        return 1;
    case RING_SET:
        if (bell == x->seen) y->bell |= places, rung(s, x); else x->at = mistake == COUNTS_LATE ? RING_OR : RING_ADD;
        return 1;
    case RING_ADD:
        s->awake++, x->at = mistake == COUNTS_LATE || mistake == WAKES_FIRST ? RING_WAKE : RING_OR;
        return 1;
    case RING_OR:
        y->bell |= places;
        if (mistake == (bell == SLEEPS ? WAKES_FIRST : COUNTS_LATE)) rung(s, x);
        else x->at = bell != SLEEPS ? RING_SUB : mistake == COUNTS_LATE ? RING_ADD : RING_WAKE;
        return 1;
    case RING_WAKE:
        if (y->at == PARKED) y->at = WAIT;
        if (mistake == WAKES_FIRST) x->at = RING_OR; else rung(s, x);
        return 1;
    case RING_SUB: s->awake--; rung(s, x); return 1;
    case TAKE:
        if (s->box[x->k] >> r & 1) s->box[x->k] &= ~(1 << r), s->calls[r] |= 1 << x->k, x->knows |= MOVED | GOT;
        x->k++;
        take(x);
        return 1;
    case RUN:
        if (way > ranks) return 0;
        if (way && (way - 1 == r || !s->items || s->out[r] || !(x->knows & (FIRST | GOT)))) return -1;
        if (way) s->out[r] = way, s->items--, x->knows |= MOVED;
        if (x->knows & MOVED) x->due |= 1 << r;
        if (x->knows & MOVED || mistake != DUE_FORGOTTEN) x->due |= x->noted, x->noted = 0;
        x->knows &= ~(MOVED | GOT), x->todo &= ~(1 << r);
        turn(s, x);
        return 1;
    case LIMIT:
        if (way) s->limits--, x->then = THEN_DONE, x->at = LEAVE; else next(s, x);
        return way < 2;
    case HEAR: /* or it is not kept this time */
        if (way && !(x->bell & (OVER | SLEEPS))) answered(s, x, ranks_of(c), x->bell); else answer(x, x->when);
        return way < 2;
    case LOAD: if (x->bell) x->at = SWAP; else answered(s, x, ranks_of(c), 0); return 1;
    case SWAP: bell = x->bell, x->bell = 0; answered(s, x, ranks_of(c), bell); return 1;
    case LOOK: if (x->bell) hear(s, x, LOOKED); else x->at = SLEEP; return 1; /* `look` and `ready` do so many times */
    case SLEEP:
        if (x->bell && mistake != SLEEPS_UNSEEN) answer(x, AFTER);
        else x->bell = SLEEPS, x->then = THEN_SLEEP, x->at = LEAVE;
        return 1;
    case LEAVE:
        if (--s->awake) { then(x); return 1; }
        if (!s->over) look_at_rest(s, c);
        end_all(s, x, x->then);
        return 1;
    case END_SET: y->bell |= mistake == ENDS_WITHOUT_A_BIT ? OVER : OVER | 1, x->at = END_WAKE; return 1;
    case END_WAKE:
        if (y->at == PARKED) y->at = WAIT;
        if (++x->k == crews) then(x); else x->at = END_SET;
        return 1;
    case SEE_BEGUN: x->at = s->begun >= crews ? LATE_BELL : SEE_ASLEEP; return 1;
    case SEE_ASLEEP: x->at = x->bell != SLEEPS ? LATE_BELL : SEE_HAD; return 1;
    case SEE_HAD: x->at = s->had ? GIVE_BEGUN : SEE_NAP; return 1;
    case SEE_NAP: x->at = way ? GIVE_BEGUN : SEE_BEGUN; return way < 2; /* it may end at any time, and may be the last */
    case GIVE_BEGUN: x->seen = s->begun, x->at = GIVE_SET; return 1;
    case GIVE_SET:
        if (x->bell == SLEEPS || mistake == GIVES_UP_BLINDLY) x->bell = 0, x->at = GIVE_HAD; else x->at = LATE_BELL;
        return 1;
    case GIVE_HAD: s->had = x->seen, x->at = DONE; return 1;
    case LATE_BELL: x->at = x->bell == SLEEPS ? LATE_AWAKE : WAIT; return 1; /* after a nap, which may end at any time */
    case LATE_AWAKE: if (s->awake <= 1) x->knows |= LATE; x->at = WAIT; return 1;
    case WAIT:
        if (x->bell == SLEEPS) x->at = PARK;
        else if (x->knows & LATE) x->at = IS_OVER;
        else answer(x, AFTER);
        return 1;
    case PARK: x->at = x->bell & PLACES ? WAIT : PARKED; return 1; /* the system looks at the low bits once more */
    case IS_OVER: if (x->bell & OVER) answer(x, AFTER); else end_all(s, x, THEN_ANSWER); return 1; /* none reads `late` */
    }
    return 0; /* PARKED, until another one wakes it; DONE */
}

/* Clears what a crew has no use for where it is, so that states that go on alike are one. */
static void clear(Crew *x)
{
    int rings = x->at >= RING_LOAD && x->at <= RING_SUB, ends = x->at == END_SET || x->at == END_WAKE;
    if (x->at != RING_SET && x->at != GIVE_SET && x->at != GIVE_HAD) x->seen = 0;
    if (!rings && !ends && x->at != POLL && x->at != TAKE) x->k = 0;
    if (!ends && x->at != LEAVE) x->then = 0;
    if (x->at != HEAR && x->at != LOAD && x->at != SWAP) x->when = 0;
    if (x->at < LATE_BELL) x->knows &= ~LATE;
}

/* All states, in the order in which they are found, each with the one before it and the crew that made the step. */
enum { ROOM = 1 << 23, TABLE = 1 << 25 };
typedef union { State state; uint64_t word[6]; } Entry;
static Entry all[ROOM];
static uint32_t table[TABLE], from[ROOM], count;
static uint8_t by[ROOM], ends[ROOM];
static int wrong_by;

/* The place of a state in the table. */
static uint32_t *find(const Entry *e)
{
    uint64_t h = 0;
    for (int i = 0; i < 6; i++) h = (h ^ e->word[i]) * 0x9e3779b97f4a7c15u, h ^= h >> 29;
    while (table[h % TABLE] && memcmp(&all[table[h % TABLE] - 1], e, sizeof *e)) h++;
    return &table[h % TABLE];
}

/* Calls `see` with each state that comes next. A step on no shared word is made before those of the other crews. */
static int each(uint32_t n, int (*see)(const Entry *, uint32_t, int))
{
    int only = crews;
    for (int c = 0; c < crews; c++) {
        int at = all[n].state.crew[c].at;
        if (at == REFUSE || at == REPLY || at == RUN || at == LIMIT) only = c;
    }
    for (int c = 0; c < crews; c++)
        for (int way = 0, is = only == crews || only == c; is; way++) {
            Entry e = all[n];
            is = step(&e.state, c, way);
            for (int d = 0; d < crews; d++) clear(&e.state.crew[d]);
            if (is > 0 && see(&e, n, c)) return 1;
        }
    return 0;
}

static int add(const Entry *e, uint32_t n, int c)
{
    uint32_t *place = find(e);
    if (!wrong) look_at_count(&e->state);
    wrong_by = c;
    if (!*place) {
        if (count == ROOM) { puts("more states than there is room for"); exit(2); }
        all[count] = *e, from[count] = n, by[count] = c, *place = ++count;
    }
    return wrong != NULL;
}

static int may_end(const Entry *e, uint32_t n, int c) { (void)c; return ends[n] = ends[*find(e) - 1]; }
static int goes_on(const Entry *e, uint32_t n, int c) { (void)e, (void)n, (void)c; return 1; }

/* The steps that led to a state, a line for each stretch of one crew, and one step more of a crew. */
static int tell_steps(const char *what, uint32_t n, int more)
{
    static uint32_t path[1000];
    int length = 0, last = -1;
    for (uint32_t k = n; k; k = from[k]) path[length++] = k;
    printf("%s\n", what);
    for (int i = length; i-- > -(more >= 0);) {
        int c = i < 0 ? more : by[path[i]];
        if (c != last) printf("%s    crew %d:", last < 0 ? "" : "\n", c);
        printf(" %s", spelled[all[i < 0 ? n : from[path[i]]].state.crew[last = c].at]);
    }
    puts("");
    return 1;
}

/* Whether a state is found that is wrong, or from which not all crews can come to their end. */
static int is_wrong(void)
{
    Entry root = {.state = {.awake = crews, .items = items, .refusals = refusals, .limits = limits}};
    add(&root, 0, 0);
    for (uint32_t n = 0; n < count; n++)
        if (each(n, add)) return tell_steps(wrong, n, wrong_by);
    for (uint32_t n = 0; n < count; n++) {
        ends[n] = 1;
        for (int c = 0; c < crews; c++) ends[n] &= all[n].state.crew[c].at == DONE;
    }
    for (int more = 1; more;) {
        more = 0;
        for (uint32_t n = count; n-- > 0;)
            if (!ends[n]) more |= each(n, may_end);
    }
    for (int stuck = 1; stuck >= 0; stuck--)
        for (uint32_t n = 0; n < count; n++)
            if (!ends[n] && !(stuck && each(n, goes_on)))
                return tell_steps(stuck ? "end: a crew sleeps for good" : "end: crews go round for good", n, -1);
    return 0;
}

/* REFUSALS: how many turns are refused memory; LIMITS: how many crews come to their last turn; BEFOREn has a bit for each
 * crew that ends before crew n begins, as where no thread can be had for it. */
int main(int many, char **words)
{
    int *given[] = {&crews, &ranks, &items, &refusals, &limits, &before[0], &before[1], &before[2], &mistake};
    for (int i = 0; i < 9 && i + 1 < many; i++) *given[i] = atoi(words[i + 1]);
    if (many != 10 || is_wrong()) return 1;
    printf("%u states\n", count);
    return 0;
}
