% A call of a procedure that nothing defines raises an existence error: the run ends with status 2.
:- initialization(q).
