% A planner of blocks that tries its moves on the facts themselves, each in a snapshot, so that nothing is left of what it tries. The plan
% that it finds is carried out in one transaction.
:- dynamic on/2.

on(a, floor).
on(b, floor).
on(c, a).
on(d, c).

wanted([on(a, b), on(b, c), on(c, d), on(d, floor)]).

% Nothing stands on a block that is moved, nor on the one that it comes to stand on.
free(B) :- \+ on(_, B).

possible(B, To) :-
    findall(X, on(X, _), Blocks),
    member(B, Blocks), free(B),
    ( To = floor ; member(To, Blocks), To \== B, free(To) ),
    \+ on(B, To).

move(B, To) :- retract(on(B, _)), assertz(on(B, To)).

reached :- wanted(Facts), forall(member(Fact, Facts), Fact).

% A plan of at most so many moves.
plan(_, []) :- reached, !.
plan(Most, [move(B, To)|Plan]) :-
    Most > 0,
    Less is Most - 1,
    possible(B, To),
    snapshot((move(B, To), plan(Less, Plan))).

% The shortest plan.
shortest(Most, Plan) :- plan(Most, Plan), !.
shortest(Most, Plan) :- More is Most + 1, shortest(More, Plan).

carried_out(Plan) :- transaction(each(Plan)).

each([]).
each([move(B, To)|Plan]) :- possible(B, To), !, move(B, To), each(Plan).

tell :- findall(B-On, on(B, On), Facts), msort(Facts, Sorted), writeq(Sorted), nl.

main :-
    tell,
    shortest(0, Plan), forall(member(Move, Plan), ( writeq(Move), nl )),
    write('nothing was moved yet: '), tell,
    ( carried_out([move(d, floor), move(a, b)]) ; write('no such plan: '), tell ),
    carried_out(Plan), tell.

:- initialization(main).
