% A store of values with an undo log. Each change and what undoes it are made in one transaction, so that the log fits the store whatever
% happens.
:- dynamic value/2.
:- dynamic undone_by/1.

% The latest entry of the log stands in front.
do(Action) :- transaction(( act(Action, Inverse), asserta(undone_by(Inverse)), allowed )).

undo :- transaction(( retract(undone_by(Action)), act(Action, _) )).

% So many, or none.
undo(Count) :- transaction(undone(Count)).
undone(0) :- !.
undone(Count) :- undo, Less is Count - 1, undone(Less).

% An action on the store, and the one that undoes it.
act(set(Key, New), Inverse) :- retract(value(Key, Old)), !, assertz(value(Key, New)), Inverse = set(Key, Old).
act(set(Key, New), drop(Key)) :- assertz(value(Key, New)).
act(drop(Key), set(Key, Old)) :- retract(value(Key, Old)), !.
act(add(Key, More), set(Key, Old)) :- retract(value(Key, Old)), New is Old + More, assertz(value(Key, New)).
act(all(Actions), all(Inverses)) :- acts(Actions, [], Inverses).

acts([], Inverses, Inverses).
acts([Action|Actions], So, Inverses) :- act(Action, Inverse), acts(Actions, [Inverse|So], Inverses).

% No more than ten in all.
allowed :- findall(V, value(_, V), Vs), sum(Vs, 0, Sum), Sum =< 10.
sum([], Sum, Sum).
sum([V|Vs], So, Sum) :- More is So + V, sum(Vs, More, Sum).

try(Goal) :-
    writeq(Goal),
    catch(( Goal -> true ; write(' fails') ), error(E, _), ( write(' raises '), writeq(E) )),
    findall(K=V, value(K, V), Values), msort(Values, Sorted),
    findall(A, undone_by(A), Log), length(Log, Entries),
    write('  '), writeq(Sorted), write(', entries: '), write(Entries), nl.

main :-
    try(do(set(x, 3))),
    try(do(set(y, 4))),
    try(do(add(x, 2))),
    try(do(set(z, 7))),
    try(do(add(y, w))),
    try(do(drop(w))),
    try(do(all([drop(x), set(z, 6), add(y, -1)]))),
    try(do(all([drop(z), drop(z)]))),
    try(undo),
    try(undo(2)),
    try(undo(2)),
    try(undo).

:- initialization(main).
