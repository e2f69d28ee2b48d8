% A report of what is in store: a line for each item by format/2, in columns, and a sum behind them.
stock([item(nails, 1200, 2), item(hammers, 14, 950), item('long ladders', 3, 12400), item(screws, 880, 3)]).

report :-
    stock(Items),
    heading, maplist(line, Items),
    worth(Items, 0, Sum), length(Items, Kinds),
    format("~d kinds, worth ~d: ~q~n", [Kinds, Sum, sum(Sum)]).

heading :- left(what, 13), right(count, 8), right(each, 8), right(all, 8), nl.

line(item(What, Count, Each)) :-
    All is Count * Each,
    left(What, 13), right(Count, 8), right(Each, 8), right(All, 8), nl.

% An atom or an integer on the left or the right of a column.
left(X, Width) :- format("~w", [X]), gap(X, Width).
right(X, Width) :- gap(X, Width), format("~w", [X]).

gap(X, Width) :- atom_codes(X, Codes), length(Codes, N), tab(Width - N).

worth([], Sum, Sum).
worth([item(_, Count, Each)|Items], I, Sum) :- J is I + Count * Each, worth(Items, J, Sum).

:- initialization(report).
