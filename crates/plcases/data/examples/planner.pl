% A planner that searches depth first: a farmer brings a wolf, a goat and a cabbage over a river, in a boat that takes
% one of them besides himself. A state is state(Farmer, Wolf, Goat, Cabbage), each w(est) or e(ast).
opposite(w, e).
opposite(e, w).

move(state(A, A, G, C), state(B, B, G, C), wolf) :- opposite(A, B).
move(state(A, W, A, C), state(B, W, B, C), goat) :- opposite(A, B).
move(state(A, W, G, A), state(B, W, G, B), cabbage) :- opposite(A, B).
move(state(A, W, G, C), state(B, W, G, C), nothing) :- opposite(A, B).

% Nobody eats where the farmer is.
unsafe(state(A, B, B, _)) :- opposite(A, B).
unsafe(state(A, _, B, B)) :- opposite(A, B).

plan(Goal, Goal, _, []).
plan(State, Goal, Seen, [Load|Plan]) :-
    move(State, Next, Load),
    \+ unsafe(Next),
    \+ member(Next, Seen),
    plan(Next, Goal, [Next|Seen], Plan).

steps([], _).
steps([Load|Plan], N) :- write(N), write(': '), write(Load), nl, M is N + 1, steps(Plan, M).

main :- Start = state(w, w, w, w), plan(Start, state(e, e, e, e), [Start], Plan), steps(Plan, 1).
:- initialization(main).
