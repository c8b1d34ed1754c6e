% Derivation, clash and support of a sheet for SWI-Prolog with CHR; the facts are those that closure.lp is given.
% Prints how many <=, ~, clashes and supported questions there are.
:- use_module(library(chr)).
:- use_module(library(aggregate)).
:- use_module(library(apply)).
:- use_module(library(readutil)).
:- chr_option(debug, off).
:- chr_option(optimize, full).
:- chr_constraint le(+int, +int), step(+int, +int), ok(+int, +int), sel(+int, +int, +int), lab(+int, +int),
       clash(+int, +int), ask_le(+int, +int, +int), ask_ok(+int, +int, +int), ask_sel(+int, +int, +int, +int),
       upper(+int, +int, +int, +int), ask_lab(+int, +int, +int), always(+int).

% A fact is kept once.
step(I, J) \ step(I, J) <=> true.
le(I, J) \ le(I, J) <=> true.
ok(I, J) \ ok(I, J) <=> true.
clash(I, J) \ clash(I, J) <=> true.

% F1, by steps: what is stated and what F2 gives; then F2 to F5.
le(I, J), step(J, K) ==> le(I, K).
sel(I, F, C), le(I, J), sel(J, F, D) ==> step(C, D).
ok(I, J) ==> ok(J, I).
step(I, J), ok(J, K) ==> ok(I, K).
sel(I, F, C), ok(I, J), sel(J, F, D) ==> ok(C, D).
lab(A, I), ok(I, J), lab(B, J) ==> A \== B | clash(I, J).

% Support; a question that is answered is taken away. Two heads never match one constraint, so that i[f]j where both
% <= would be the same one has rules of its own.
le(I, J) \ ask_le(Q, I, J) <=> always(Q).
ok(I, J) \ ask_ok(Q, I, J) <=> always(Q).
lab(A, K), le(K, I) \ ask_lab(Q, A, I) <=> always(Q).
sel(K, F, M), le(K, I), le(J, M) \ ask_sel(Q, I, F, J) <=> upper(Q, I, F, J).
sel(K, F, M), le(K, M) \ ask_sel(Q, M, F, K) <=> upper(Q, M, F, K).
sel(K, F, M), le(I, K), le(M, J) \ upper(Q, I, F, J) <=> always(Q).
sel(K, F, M), le(M, K) \ upper(Q, M, F, K) <=> always(Q).

post(var(I)) :- !, le(I, I), ok(I, I).
post(le0(I, J)) :- !, step(I, J).
post(ok0(I, J)) :- !, ok(I, J).
post(Stated) :- call(Stated).

total(Constraint, Count) :- aggregate_all(count, find_chr_constraint(Constraint), Count).

main :-
    current_prolog_flag(argv, [File | _]),
    read_file_to_terms(File, Sheet, []),
    maplist(post, Sheet),
    maplist(total, [le(_, _), ok(_, _), clash(_, _), always(_)], Counts),
    atomic_list_concat(Counts, ' ', Line),
    writeln(Line).

:- initialization(main, main).
