% A rule base that is worked forward: each rule whose conditions are facts adds its conclusion, until nothing new comes.
:- dynamic fact/1.
:- dynamic why/2.

rule(mammal, [hair]).
rule(mammal, [milk]).
rule(bird, [feathers]).
rule(carnivore, [mammal, meat]).
rule(ungulate, [mammal, hooves]).
rule(tiger, [carnivore, tawny, stripes]).
rule(zebra, [ungulate, stripes]).
rule(penguin, [bird, swims]).

holds([]).
holds([C|Cs]) :- fact(C), holds(Cs).

% One new conclusion.
derive(What) :- rule(What, If), \+ fact(What), holds(If), assertz(fact(What)), assertz(why(What, If)).

forward :- derive(_), !, forward.
forward.

% Starts over with other observations.
observe(Seen) :- retractall(fact(_)), retractall(why(_, _)), note(Seen).

note([]).
note([F|Fs]) :- assertz(fact(F)), note(Fs).

explain :- why(What, If), format("~w, since ~w~n", [What, If]), fail.
explain.

case(Seen) :- observe(Seen), forward, format("from ~w:~n", [Seen]), explain.

:- initialization((case([hair, meat, tawny, stripes]), case([milk, hooves, stripes]), case([feathers, swims]))).
