% Reads dates out of a text by its codes, and writes them as the year, the month and the day.
% Each part of the parser takes codes from the front and leaves those behind it.
date(date(Y, M, D), Cs, Rest) :-
    number(D, Cs, [0' |A]), month(M, A, [0' |B]), number(Y, B, Rest).

number(N, [C|Cs], Rest) :- digit(C, D), digits(Cs, D, N, Rest).

digits([C|Cs], I, N, Rest) :- digit(C, D), !, J is I * 10 + D, digits(Cs, J, N, Rest).
digits(Rest, N, N, Rest).

digit(C, D) :- C >= 0'0, C =< 0'9, D is C - 0'0.

month(M, Cs, Rest) :- named(M, Name), atom_codes(Name, Front), append(Front, Rest, Cs), !.

named(1, 'January').   named(2, 'February'). named(3, 'March').     named(4, 'April').
named(5, 'May').       named(6, 'June').     named(7, 'July').      named(8, 'August').
named(9, 'September'). named(10, 'October'). named(11, 'November'). named(12, 'December').

% All dates of a text: where none begins, a code is passed over.
dates([], []).
dates(Cs, [D|Ds]) :- date(D, Cs, Rest), !, dates(Rest, Ds).
dates([C|Cs], Ds) :- digit(C, _), !, number(_, [C|Cs], Rest), dates(Rest, Ds).
dates([_|Cs], Ds) :- dates(Cs, Ds).

show(date(Y, M, D)) :- write(Y), write(-), two(M), write(-), two(D), nl.

two(N) :- N < 10, !, write(0), write(N).
two(N) :- write(N).

:- initialization((dates("It was begun on 1 March 1871, halted on 28 Mai 1871 and on 12 12, and opened on 30 September 1889.", Ds),
       maplist(show, Ds), length(Ds, N), write(N), write(' dates'), nl)).
