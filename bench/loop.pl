% A deterministic loop, which has no end.
loop :- loop.

:- initialization((write(loop), nl)).
:- initialization(loop).
