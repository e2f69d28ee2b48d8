% What is in store, kept as facts that change: goods come in, go out, and are told.
:- dynamic stock/2.
:- dynamic missed/1.

stock(nails, 1200).
stock(hammers, 14).
stock(ladders, 3).

% So many more of an item, which may be a new one.
receive(Item, Count) :-
    retract(stock(Item, Old)), !,
    New is Old + Count,
    assertz(stock(Item, New)).
receive(Item, Count) :- assertz(stock(Item, Count)).

% So many less, where there are enough; an order that is not met is noted.
ship(Item, Count) :-
    stock(Item, Old), Old >= Count, !,
    retract(stock(Item, Old)),
    New is Old - Count,
    assertz(stock(Item, New)).
ship(Item, Count) :- assertz(missed(order(Item, Count))), fail.

% An item of which nothing is left is not kept.
clear :- retract(stock(_, 0)), fail.
clear.

tell :- stock(Item, Count), format("~w: ~d~n", [Item, Count]), fail.
tell :- findall(Order, missed(Order), Orders), format("missed: ~w~n", [Orders]).

day :-
    receive(hammers, 6), receive(saws, 2),
    ship(nails, 700), ship(ladders, 3),
    ( ship(saws, 5) ; true ), ( ship(nails, 501) ; true ),
    clear, !.

:- initialization((day, tell)).
