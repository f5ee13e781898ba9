-- The script of examples/basic on one gateway, in Murphi's language: CALLS calls, each on two lines of its own. It is basic.pml once more, rule for
-- rule, with the same bounds and left out the same. Calls and numbers of contexts are scalarsets: states that differ by a permutation are one.

const
  CALLS: 1;
  REQUESTS: 3;
  NOTES: 2;
  RESTARTS: 1;
  NOBODY: 15;

type
  Calls: scalarset(CALLS);
  Numbers: scalarset(CALLS); -- of contexts: as many as calls
  Ends: 0 .. 1; -- lines a and b
  Associations: 0 .. RESTARTS + 1;
  Ids: 0 .. NOBODY;
  Slots: 0 .. NOTES - 1;
  States: enum { idle, talk, part, done, rearm };
  Phases: enum { rests, awaits_reply, awaits_pass };
  Lists: enum { nothing, armed, hang };

  Line: record
    off: boolean; -- off hook
    both: boolean; -- SendReceive, else Inactive
    place: Numbers; -- undefined: the null context
    list: Lists;
    id: Ids; -- its RequestID
  end;

  Note: record
    association: Associations; -- 0: there is none
    line: Ends;
    off: boolean;
    id: Ids;
  end;

  Call: record
    -- the agent
    state: States;
    phase: Phases;
    association: Associations;
    context: Numbers; -- what the name c is bound to, if it is
    next: 1 .. REQUESTS + 1;
    expected: array [Ends] of Ids;
    -- its latest request: that of its state, by next - 1
    asked: boolean;
    names: Numbers; -- the context that it names
    asker: Associations;
    asks: States;
    -- its reply
    answered: boolean;
    failed: boolean;
    ran: 0 .. 2; -- how many commands were done
    made: Numbers; -- the context that was created
    freed: array [Ends] of boolean;
    -- the gateway's link
    last: 0 .. REQUESTS;
    sent: 0 .. NOTES;
    note: array [Slots] of Note;
  end;

var
  line: array [Calls] of array [Ends] of Line;
  call: array [Calls] of Call;
  association: Associations;

procedure silence(var l: Line);
begin
  undefine l.place;
  l.both := false;
  l.list := nothing;
  l.id := 0;
end;

procedure forget(var n: Note);
begin
  n.association := 0;
  n.line := 0;
  n.off := false;
  n.id := 0;
end;

-- A state is entered with its request; an empty one takes no number.
procedure enter(k: Calls; s: States);
begin
  call[k].state := s;
  if s = done | (s = part & isundefined(call[k].context)) then
    call[k].phase := awaits_pass;
  else
    call[k].phase := awaits_reply;
    call[k].asked := true;
    if isundefined(call[k].context) then
      undefine call[k].names;
    else
      call[k].names := call[k].context;
    end;
    call[k].asker := call[k].association;
    call[k].asks := s;
    call[k].next := call[k].next + 1;
    call[k].answered := false;
    call[k].failed := false;
    call[k].ran := 0;
    undefine call[k].made;
    for i: Ends do call[k].freed[i] := false; end;
  end;
end;

-- A note of a line is sent.
procedure send(k: Calls; i: Ends; is_off: boolean);
begin
  call[k].note[call[k].sent].association := association;
  call[k].note[call[k].sent].line := i;
  call[k].note[call[k].sent].off := is_off;
  call[k].note[call[k].sent].id := line[k][i].id;
  call[k].sent := call[k].sent + 1;
end;

function is_in(k: Calls; i: Ends; n: Numbers): boolean;
begin
  if isundefined(line[k][i].place) then return false; end;
  return line[k][i].place = n;
end;

function is_used(n: Numbers): boolean;
begin
  return exists k: Calls do exists i: Ends do is_in(k, i, n) end end;
end;

function is_marked(s: States): boolean;
begin
  return s = talk | s = part;
end;

function is_raised(k: Calls; i: Ends): boolean;
begin
  return (!line[k][i].off & line[k][i].list = armed) | (line[k][i].off & line[k][i].list = hang);
end;

function leads_on(k: Calls; n: Slots): boolean;
begin
  return call[k].note[n].line = 0 & call[k].note[n].id = call[k].expected[0]
    & ((call[k].state = idle & call[k].note[n].off) | (call[k].state = talk & !call[k].note[n].off));
end;

function sends_after_reply(k: Calls): boolean;
begin
  if call[k].failed then return call[k].state != talk | call[k].ran > 0; end;
  return call[k].state = part;
end;

-- Whether the latest request reaches the gateway for the first time, and has room for its note.
function may_execute(k: Calls; s: States): boolean;
begin
  return call[k].asked & call[k].asker = association & call[k].next - 1 > call[k].last & call[k].asks = s
    & (s != talk | call[k].sent < NOTES);
end;

procedure executed(k: Calls);
begin
  call[k].last := call[k].next - 1;
  call[k].answered := true;
end;

startstate
begin
  association := 1;
  for k: Calls do
    for i: Ends do
      silence(line[k][i]);
      line[k][i].off := false;
      line[k][i].list := armed;
      call[k].expected[i] := 0;
      call[k].freed[i] := false;
    end;
    call[k].state := idle;
    call[k].phase := rests;
    call[k].association := 1;
    undefine call[k].context;
    call[k].next := 1;
    call[k].asked := false;
    undefine call[k].names;
    call[k].asker := 0;
    call[k].asks := idle;
    call[k].answered := false;
    call[k].failed := false;
    call[k].ran := 0;
    undefine call[k].made;
    call[k].last := 0;
    call[k].sent := 0;
    for n: Slots do forget(call[k].note[n]); end;
  end;
end;

ruleset k: Calls; i: Ends do
  rule "hook" call[k].sent < NOTES | !is_raised(k, i) ==>
  begin
    line[k][i].off := !line[k][i].off;
    if line[k][i].off & line[k][i].list = armed then
      send(k, i, true);
    elsif !line[k][i].off & line[k][i].list = hang then
      send(k, i, false);
    end;
  end;
end;

-- add $c a mode=SendReceive events=hang, add c b mode=SendReceive; the command at `refused` is refused, if there is one
ruleset k: Calls; number: Numbers; refused: 0 .. 2 do
  rule "execute talk" may_execute(k, talk) & !is_used(number) ==>
  begin
    if refused = 0 | !isundefined(line[k][0].place) then
      call[k].failed := true;
    else
      line[k][0].place := number;
      line[k][0].both := true;
      line[k][0].list := hang;
      line[k][0].id := call[k].next - 1;
      call[k].made := number;
      call[k].ran := 1;
      if refused = 1 | !isundefined(line[k][1].place) then
        call[k].failed := true;
      else
        line[k][1].place := number;
        line[k][1].both := true;
        call[k].ran := 2;
      end;
      if !line[k][0].off then send(k, 0, false); end;
    end;
    executed(k);
  end;
end;

ruleset k: Calls do
  rule "execute talk without a number" may_execute(k, talk) & forall n: Numbers do is_used(n) end ==>
  begin
    call[k].failed := true;
    executed(k);
  end;
end;

-- subtract c *
ruleset k: Calls; refused: boolean do
  rule "execute part" may_execute(k, part) ==>
  var named: Numbers;
  begin
    if refused | !is_used(call[k].names) then
      call[k].failed := true;
    else
      named := call[k].names;
      call[k].ran := 1;
      for i: Ends do call[k].freed[i] := is_in(k, i, named); end;
      for other: Calls do
        for i: Ends do
          if is_in(other, i, named) then silence(line[other][i]); end;
        end;
      end;
    end;
    executed(k);
  end;
end;

-- modify - a events=armed signals=none, modify - b events=armed signals=none
ruleset k: Calls; refused: 0 .. 2 do
  rule "execute rearm" may_execute(k, rearm) ==>
  begin
    if refused = 0 | !isundefined(line[k][0].place) then
      call[k].failed := true;
    else
      line[k][0].list := armed;
      line[k][0].id := call[k].next - 1;
      call[k].ran := 1;
      if refused = 1 | !isundefined(line[k][1].place) then
        call[k].failed := true;
      else
        line[k][1].list := armed;
        line[k][1].id := call[k].next - 1;
        call[k].ran := 2;
      end;
    end;
    executed(k);
  end;
end;

ruleset k: Calls do
  rule "reply" call[k].phase = awaits_reply & call[k].answered & (call[k].next <= REQUESTS | !sends_after_reply(k)) ==>
  begin
    if call[k].ran > 0 then
      switch call[k].asks
        case talk:
          call[k].context := call[k].made;
          call[k].expected[0] := call[k].next - 1;
        case part:
          undefine call[k].context;
          for i: Ends do
            if call[k].freed[i] then call[k].expected[i] := NOBODY; end;
          end;
        case rearm:
          for i: Ends do
            if i < call[k].ran then call[k].expected[i] := call[k].next - 1; end;
          end;
      end;
    end;
    switch call[k].state
      case talk:
        if call[k].failed then enter(k, part); else call[k].phase := rests; end;
      case part:
        if call[k].failed then enter(k, part); else enter(k, rearm); end;
      case rearm:
        if call[k].failed then enter(k, rearm); else enter(k, done); end;
    end;
  end;

  rule "pass in done" call[k].phase = awaits_pass & call[k].state = done ==>
  begin
    call[k].phase := rests;
  end;

  rule "pass in part" call[k].phase = awaits_pass & call[k].state = part & call[k].next <= REQUESTS ==>
  begin
    enter(k, rearm);
  end;
end;

ruleset k: Calls; n: Slots do
  rule "note" call[k].phase = rests & call[k].state != done & call[k].note[n].association = call[k].association
    & (call[k].next <= REQUESTS | !leads_on(k, n)) ==>
  var leads: boolean;
  begin
    leads := leads_on(k, n);
    forget(call[k].note[n]);
    if leads then
      if call[k].state = idle then enter(k, talk); else enter(k, part); end;
    end;
  end;
end;

ruleset k: Calls; newer: Associations do
  rule "hear" newer > call[k].association & newer <= association & call[k].next <= REQUESTS ==>
  begin
    call[k].association := newer;
    undefine call[k].context;
    for i: Ends do call[k].expected[i] := NOBODY; end;
    for n: Slots do
      if call[k].note[n].association < newer then forget(call[k].note[n]); end;
    end;
    enter(k, rearm);
  end;
end;

rule "restart" association <= RESTARTS ==>
begin
  association := association + 1;
  for k: Calls do
    for i: Ends do silence(line[k][i]); end;
    call[k].last := 0;
  end;
end;

invariant "lines are joined only inside one call whose state marks them"
  forall k: Calls do forall l: Calls do forall i: Ends do forall j: Ends do
    (k = l & i = j)
    | isundefined(line[k][i].place)
    | !is_in(l, j, line[k][i].place)
    | !line[k][i].both
    | !line[l][j].both
    | (k = l & is_marked(call[k].state))
  end end end end;

invariant "a call that has ended has its lines in the null context, and armed"
  forall k: Calls do
    (call[k].state = done & call[k].phase = rests & call[k].association = association)
    -> forall i: Ends do isundefined(line[k][i].place) & line[k][i].list = armed end
  end;
