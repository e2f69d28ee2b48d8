% Counts the words of a text, and writes them with how often they come, the most frequent first.
words(Text, Words) :- atom_codes(Text, Codes), split(Codes, [], Words).

% The letters of a word are gathered from the front, so the last one stands first.
split([], [], []) :- !.
split([], Letters, [Word]) :- word(Letters, Word).
split([C|Cs], Letters, Words) :- letter(C), !, split(Cs, [C|Letters], Words).
split([_|Cs], [], Words) :- !, split(Cs, [], Words).
split([_|Cs], Letters, [Word|Words]) :- word(Letters, Word), split(Cs, [], Words).

letter(C) :- C >= 0'a, C =< 0'z.
word(Letters, Word) :- reverse(Letters, Codes), atom_codes(Word, Codes).

% The runs of equal words in an ordered list, each with a key that puts the longest first.
runs([], []).
runs([W|Ws], [Key-W|Rs]) :- run(Ws, W, 1, N, Rest), Key is -N, runs(Rest, Rs).
run([W|Ws], V, I, N, Rest) :- W == V, !, J is I + 1, run(Ws, V, J, N, Rest).
run(Rest, _, N, N, Rest).

report(Text) :-
    words(Text, Words), msort(Words, Ordered), runs(Ordered, Pairs), keysort(Pairs, Sorted),
    member(Key-W, Sorted), line(W, Key), fail.
report(_).

line(W, Key) :- N is -Key, atom_length(W, L), write(W), tab(10 - L), writeln(N).

:- initialization(report('the cat sat on the mat, and the dog sat by the door')).
