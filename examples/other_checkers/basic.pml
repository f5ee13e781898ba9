/* The script of examples/basic on one gateway, for Spin: CALLS calls, each on two lines of its own.

   What is bounded, where mgcall bounds nothing: the calls, the requests and the notes of a call, the restarts, and the numbers that the gateway
   gives to contexts. Left out: that another call begins on the lines of one that has ended; signals, digits, flashes and timers, of which this
   script has none; the two codes of a chosen refusal, which an agent can't tell apart.

   The link loses, repeats and reorders: what was sent may arrive at any time, any number of times, or never. A repeat that changes nothing is no step.
   Only the latest request of a call is kept: an earlier one was executed, or is of an association that is past, and does nothing any more. A note
   that was accepted, or whose association the agent has left, is forgotten for the same reason. */

#ifndef CALLS
#define CALLS 1
#endif
#ifndef REQUESTS
#define REQUESTS 3
#endif
#ifndef NOTES
#define NOTES 2
#endif
#ifndef RESTARTS
#define RESTARTS 1
#endif
#ifndef NUMBERS
#define NUMBERS CALLS
#endif

#define LINES (2 * CALLS)
#define A 0
#define B 1
#define NOBODY 15

/* states */
#define IDLE 0
#define TALK 1
#define PART 2
#define DONE 3
#define REARM 4

/* phases */
#define RESTS 0
#define AWAITS_REPLY 1
#define AWAITS_PASS 2

/* events lists */
#define EMPTY 0
#define ARMED 1
#define HANG 2

typedef Line {
  unsigned off : 1;		/* off hook */
  unsigned both : 1;		/* SendReceive, else Inactive */
  unsigned place : 3;		/* 0: the null context */
  unsigned list : 2;
  unsigned id : 4		/* its RequestID */
}

typedef Note {
  unsigned association : 3;	/* 0: there is none */
  unsigned line : 1;
  unsigned off : 1;		/* off hook, else on hook */
  unsigned id : 4
}

typedef Call {
  /* the agent */
  unsigned state : 3;
  unsigned phase : 2;
  unsigned association : 3;
  unsigned context : 3;		/* what the name c is bound to; 0: nothing */
  unsigned next : 4;
  byte expected[2];
  /* its latest request: that of its state, by next - 1 */
  unsigned asked : 1;
  unsigned names : 3;		/* the context that it names */
  unsigned asker : 3;		/* its association */
  unsigned asks : 3;		/* the state that built it */
  /* its reply */
  unsigned answered : 1;
  unsigned failed : 1;
  unsigned done : 2;		/* how many commands were done */
  unsigned made : 3;		/* the context that was created */
  unsigned freed : 2;		/* the lines that were subtracted, as bits */
  /* the gateway's link */
  unsigned last : 4;
  unsigned sent : 4;		/* how many notes */
  Note note[NOTES]
}

Line line[LINES];
Call call[CALLS];
unsigned association : 3;
hidden byte x, y, refused, number, newer;

#define LINE(k, i) line[2 * (k) + (i)]
#define NOTE(k, n) call[k].note[n]
#define MARKED(s) (s == TALK || (s == PART && MARK_OF_PART))
#ifndef MARK_OF_PART
#define MARK_OF_PART true
#endif
#define JOINED(i, j) (line[i].place && line[i].place == line[j].place && line[i].both && line[j].both)
#define ENDED(k) (call[k].state == DONE && call[k].phase == RESTS && call[k].association == association)
#define SILENT(l) (l.place == 0 && l.list == ARMED)

/* Lines are joined only inside one call whose state marks them, and a call that has ended has its lines in the null context and armed. */
inline check() {
  for (x : 0 .. LINES - 1) {
    for (y : 0 .. LINES - 1) {
      assert(x == y || !JOINED(x, y) || (x / 2 == y / 2 && MARKED(call[x / 2].state)))
    }
  }
  for (x : 0 .. CALLS - 1) {
    assert(!ENDED(x) || (SILENT(LINE(x, A)) && SILENT(LINE(x, B))))
  }
}

/* A line is silent, with an empty list, in the null context. */
inline clear(l) {
  line[l].place = 0;
  line[l].both = 0;
  line[l].list = EMPTY;
  line[l].id = 0
}

/* A state is entered with its request; an empty one takes no number. */
inline enter(k, s) {
  call[k].state = s;
  if
  :: s == DONE || (s == PART && call[k].context == 0) -> call[k].phase = AWAITS_PASS
  :: else ->
    call[k].phase = AWAITS_REPLY;
    call[k].asked = 1;
    call[k].names = call[k].context;
    call[k].asker = call[k].association;
    call[k].asks = s;
    call[k].next++;
    call[k].answered = 0;
    call[k].failed = 0;
    call[k].done = 0;
    call[k].made = 0;
    call[k].freed = 0
  fi
}

/* A note of a line is sent. */
inline send(k, i, is_off) {
  NOTE(k, call[k].sent).association = association;
  NOTE(k, call[k].sent).line = i;
  NOTE(k, call[k].sent).off = is_off;
  NOTE(k, call[k].sent).id = LINE(k, i).id;
  call[k].sent++
}

inline forget(k, n) {
  NOTE(k, n).association = 0;
  NOTE(k, n).line = 0;
  NOTE(k, n).off = 0;
  NOTE(k, n).id = 0
}

#define FREE(n) (n <= NUMBERS && !(USED(n)))
#if CALLS == 1
#define USED(n) (line[0].place == n || line[1].place == n)
#elif CALLS == 2
#define USED(n) (line[0].place == n || line[1].place == n || line[2].place == n || line[3].place == n)
#else
#define USED(n) (line[0].place == n || line[1].place == n || line[2].place == n || line[3].place == n || line[4].place == n || line[5].place == n)
#endif

/* add $c a mode=SendReceive events=hang, add c b mode=SendReceive */
inline run_talk(k) {
  number = 0;
  if
  :: FREE(1) -> number = 1
  :: FREE(2) -> number = 2
  :: FREE(3) -> number = 3
  :: FREE(4) -> number = 4
  :: else -> skip
  fi;
  if
  :: refused == 0 || LINE(k, A).place || number == 0 -> call[k].failed = 1
  :: else ->
    LINE(k, A).place = number;
    LINE(k, A).both = 1;
    LINE(k, A).list = HANG;
    LINE(k, A).id = call[k].next - 1;
    call[k].made = number;
    call[k].done = 1;
    if
    :: refused == 1 || LINE(k, B).place -> call[k].failed = 1
    :: else ->
      LINE(k, B).place = number;
      LINE(k, B).both = 1;
      call[k].done = 2
    fi;
    if
    :: LINE(k, A).off -> skip
    :: else -> send(k, A, 0)
    fi
  fi
}

/* subtract c * */
inline run_part(k) {
  if
  :: refused == 0 || !(USED(call[k].names)) -> call[k].failed = 1
  :: else ->
    call[k].done = 1;
    call[k].freed = (LINE(k, A).place == call[k].names) + 2 * (LINE(k, B).place == call[k].names);
    for (x : 0 .. LINES - 1) {
      if
      :: line[x].place == call[k].names -> clear(x)
      :: else -> skip
      fi
    }
  fi
}

/* modify - a events=armed signals=none, modify - b events=armed signals=none */
inline run_rearm(k) {
  if
  :: refused == 0 || LINE(k, A).place -> call[k].failed = 1
  :: else ->
    LINE(k, A).list = ARMED;
    LINE(k, A).id = call[k].next - 1;
    call[k].done = 1;
    if
    :: refused == 1 || LINE(k, B).place -> call[k].failed = 1
    :: else ->
      LINE(k, B).list = ARMED;
      LINE(k, B).id = call[k].next - 1;
      call[k].done = 2
    fi
  fi
}

/* The latest request reaches the gateway for the first time, which refuses one of its commands or none. */
inline execute(k) {
  if
  :: refused = 0
  :: call[k].asks != PART -> refused = 1
  :: refused = 2
  fi;
  if
  :: call[k].asks == TALK -> run_talk(k)
  :: call[k].asks == PART -> run_part(k)
  :: call[k].asks == REARM -> run_rearm(k)
  fi;
  call[k].last = call[k].next - 1;
  call[k].answered = 1
}

/* What was done is bound, and the state that follows is entered. */
inline reply(k) {
  if
  :: call[k].asks == TALK && call[k].done >= 1 ->
    call[k].context = call[k].made;
    call[k].expected[A] = call[k].next - 1
  :: call[k].asks == PART && call[k].done >= 1 ->
    call[k].context = 0;
    if
    :: call[k].freed & 1 -> call[k].expected[A] = NOBODY
    :: else -> skip
    fi;
    if
    :: call[k].freed & 2 -> call[k].expected[B] = NOBODY
    :: else -> skip
    fi
  :: call[k].asks == REARM && call[k].done >= 1 ->
    call[k].expected[A] = call[k].next - 1;
    if
    :: call[k].done >= 2 -> call[k].expected[B] = call[k].next - 1
    :: else -> skip
    fi
  :: else -> skip
  fi;
  if
  :: call[k].state == TALK && !call[k].failed -> call[k].phase = RESTS
  :: call[k].state == TALK && call[k].failed -> enter(k, PART)
  :: call[k].state == PART && !call[k].failed -> enter(k, REARM)
  :: call[k].state == PART && call[k].failed -> enter(k, PART)
  :: call[k].state == REARM && !call[k].failed -> enter(k, DONE)
  :: call[k].state == REARM && call[k].failed -> enter(k, REARM)
  fi
}

/* A note leads on where its RequestID is the one that is expected of its line. */
inline accept(k, n) {
  if
  :: NOTE(k, n).line == A && NOTE(k, n).id == call[k].expected[A] && call[k].state == IDLE && NOTE(k, n).off ->
    forget(k, n);
    enter(k, TALK)
  :: NOTE(k, n).line == A && NOTE(k, n).id == call[k].expected[A] && call[k].state == TALK && !NOTE(k, n).off ->
    forget(k, n);
    enter(k, PART)
  :: else -> forget(k, n)
  fi
}

/* The call hears of a newer association. */
inline hear(k) {
  if
  :: association >= 2 && call[k].association < 2 -> newer = 2
  :: association >= 3 && call[k].association < 3 -> newer = 3
  :: association >= 4 && call[k].association < 4 -> newer = 4
  fi;
  call[k].association = newer;
  call[k].context = 0;
  call[k].expected[A] = NOBODY;
  call[k].expected[B] = NOBODY;
  for (x : 0 .. NOTES - 1) {
    if
    :: NOTE(k, x).association < newer -> forget(k, x)
    :: else -> skip
    fi
  }
  enter(k, REARM)
}

#define IS_RAISED(l) ((!l.off && l.list == ARMED) || (l.off && l.list == HANG))
#define IS_NUMBERED(k) (call[k].next <= REQUESTS)
#define SENDS_AFTER_REPLY(k) (call[k].failed && (call[k].state != TALK || call[k].done) || !call[k].failed && call[k].state == PART)
#define LEADS_ON(k, n) (NOTE(k, n).line == A && NOTE(k, n).id == call[k].expected[A] && (call[k].state == IDLE && NOTE(k, n).off || call[k].state == TALK && !NOTE(k, n).off))
#define ARRIVES(k, n) (NOTE(k, n).association == call[k].association && (IS_NUMBERED(k) || !LEADS_ON(k, n)))

inline hook(k, i) {
  LINE(k, i).off = 1 - LINE(k, i).off;
  if
  :: LINE(k, i).off && LINE(k, i).list == ARMED -> send(k, i, 1)
  :: !LINE(k, i).off && LINE(k, i).list == HANG -> send(k, i, 0)
  :: else -> skip
  fi
}

proctype steps(byte k) {
end:
  do
  :: atomic { call[k].sent < NOTES || !IS_RAISED(LINE(k, A)) -> hook(k, A); check() }
  :: atomic { call[k].sent < NOTES || !IS_RAISED(LINE(k, B)) -> hook(k, B); check() }
  :: atomic {
      call[k].asked && call[k].asker == association && call[k].next - 1 > call[k].last && (call[k].asks != TALK || call[k].sent < NOTES) ->
      execute(k); check()
    }
  :: atomic {
      call[k].phase == AWAITS_REPLY && call[k].answered && (IS_NUMBERED(k) || !SENDS_AFTER_REPLY(k)) -> reply(k); check()
    }
  :: atomic { call[k].phase == AWAITS_PASS && call[k].state == DONE -> call[k].phase = RESTS; check() }
  :: atomic { call[k].phase == AWAITS_PASS && call[k].state == PART && IS_NUMBERED(k) -> enter(k, REARM); check() }
  :: atomic { call[k].phase == RESTS && call[k].state != DONE && ARRIVES(k, 0) -> accept(k, 0); check() }
#if NOTES > 1
  :: atomic { call[k].phase == RESTS && call[k].state != DONE && ARRIVES(k, 1) -> accept(k, 1); check() }
#endif
#if NOTES > 2
  :: atomic { call[k].phase == RESTS && call[k].state != DONE && ARRIVES(k, 2) -> accept(k, 2); check() }
#endif
#if NOTES > 3
  :: atomic { call[k].phase == RESTS && call[k].state != DONE && ARRIVES(k, 3) -> accept(k, 3); check() }
#endif
  :: atomic { association > call[k].association && IS_NUMBERED(k) -> hear(k); check() }
  od
}

/* The gateway restarts: contexts, descriptors and kept replies are lost, hook states stay. */
proctype restarts() {
end:
  do
  :: atomic {
      association <= RESTARTS ->
      association++;
      for (x : 0 .. LINES - 1) { clear(x) }
      for (x : 0 .. CALLS - 1) { call[x].last = 0 }
      check()
    }
  od
}

/* Each call is at rest in its start state, its lines on hook and armed. */
init {
  atomic {
    association = 1;
    for (x : 0 .. LINES - 1) { line[x].list = ARMED }
    for (x : 0 .. CALLS - 1) {
      call[x].association = 1;
      call[x].next = 1;
      run steps(x)
    }
    run restarts()
  }
}

/* Asked by `spin -a -DENDS`: a call that talks has ended at some time. It isn't so, since nothing has to happen. */
#ifdef ENDS
ltl ends { [] (call[0].state == TALK -> <> (call[0].state == DONE)) }
#endif
