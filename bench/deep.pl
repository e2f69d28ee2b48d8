% An append of 100 elements, each a term of 1,023 nodes with variables. The list is made once, before all rounds.
app([], L, L).
app([H|T], L, [H|R]) :- app(T, L, R).

tree(o, _).
tree(s(N), f(X, Y)) :- tree(N, X), tree(N, Y).

elements([], _).
elements([E|Es], D) :- tree(D, E), elements(Es, D).

hundred([_,_,_,_,_,_,_,_,_,_,_,_,_,_,_,_,_,_,_,_,_,_,_,_,_,_,_,_,_,_,_,_,_,_,_,_,_,_,_,_,_,_,_,_,_,_,_,_,_,_,
      _,_,_,_,_,_,_,_,_,_,_,_,_,_,_,_,_,_,_,_,_,_,_,_,_,_,_,_,_,_,_,_,_,_,_,_,_,_,_,_,_,_,_,_,_,_,_,_,_,_]).

before(L) :- hundred(L), elements(L, s(s(s(s(s(s(s(s(s(o)))))))))).
round(L, L) :- app(L, [], _).
