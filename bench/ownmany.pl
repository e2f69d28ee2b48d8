% A snapshot with 10,000 own facts f(K, V): each is looked up by its first argument, and every tenth is erased.
:- dynamic f/2.

fill(10000) :- !.
fill(K) :- V is K mod 1000, assertz(f(K, V)), J is K + 1, fill(J).

looks(10000, Sum, Sum) :- !.
looks(K, Sum, All) :- f(K, V), drop(K), More is Sum + V, J is K + 1, looks(J, More, All).

drop(K) :- 0 is K mod 10, retract(f(K, _)), !.
drop(_).

round(Sum) :- snapshot((fill(0), looks(0, 0, Sum))).
