% A bank, whose accounts are facts. A transfer is a transaction: it is made whole, or nothing of it is left, whether it fails or raises an
% error on its way.
:- dynamic account/2.
:- dynamic transfer/3.

account(ann, 100).
account(ben, 50).
account(cleo, 0).

% An account gets so much more, or less.
change(Who, By) :-
    ( retract(account(Who, Old)) -> true ; throw(no_account(Who)) ),
    New is Old + By,
    assertz(account(Who, New)).

% The money is moved first, and then it is looked at whether there was enough.
pay(From, To, Sum) :-
    transaction((
        change(From, -Sum),
        change(To, Sum),
        assertz(transfer(From, To, Sum)),
        account(From, Rest),
        Rest >= 0
    )).

% All of some payments, or none of them: what an inner transaction left goes with the outer one.
pay_all(Payments) :- transaction(each_paid(Payments)).

each_paid([]).
each_paid([pay(From, To, Sum)|Payments]) :- pay(From, To, Sum), each_paid(Payments).

% What would be left, if it were paid.
rest_after(Who, Payments, Rest) :- snapshot((each_paid(Payments), account(Who, Rest))).

try(Goal) :-
    writeq(Goal),
    catch(( Goal -> write(': done') ; write(': not enough') ), no_account(Who), ( write(': no account of '), write(Who) )),
    nl.

tell :- findall(Who-Sum, account(Who, Sum), Accounts), keysort(Accounts, Sorted), writeq(Sorted), nl.

main :-
    try(pay(ann, ben, 30)), tell,
    try(pay(cleo, ben, 5)), tell,
    try(pay(ann, dan, 10)), tell,
    try(pay_all([pay(ann, cleo, 20), pay(cleo, ben, 15), pay(cleo, ann, 5)])), tell,
    try(pay_all([pay(ann, cleo, 20), pay(cleo, ben, 15), pay(cleo, ann, 50)])), tell,
    rest_after(ben, [pay(ben, ann, 90), pay(ann, ben, 1)], Rest), writeq(rest(ben, Rest)), nl, tell,
    findall(pay(From, To, Sum), transfer(From, To, Sum), Made), writeq(Made), nl.

:- initialization(main).
