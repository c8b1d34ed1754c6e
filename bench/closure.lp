% Derivation, clash and support of a sheet for gringo. A sheet is var(I). le0(I,J). ok0(I,J). sel(I,F,J). lab(A,I).
% and its questions ask_le(Q,I,J). ask_ok(Q,I,J). ask_sel(Q,I,F,J). ask_lab(Q,A,I).
#defined le0/2. #defined ok0/2. #defined sel/3. #defined lab/2.
#defined var/1. #defined ask_le/3. #defined ask_ok/3. #defined ask_sel/4. #defined ask_lab/3.

% F1, by steps: what is stated and what F2 gives.
le(I,I) :- var(I).
le(I,K) :- le(I,J), step(J,K).
step(I,J) :- le0(I,J).
% F2
step(C,D) :- le(I,J), sel(I,F,C), sel(J,F,D).
% F3
ok(I,I) :- var(I).
ok(I,J) :- ok0(I,J).
ok(I,K) :- step(I,J), ok(J,K).
ok(J,I) :- ok(I,J).
% F4
ok(C,D) :- ok(I,J), sel(I,F,C), sel(J,F,D).
% F5
clash(I,J) :- ok(I,J), lab(A,I), lab(B,J), A != B.

% Support.
always(Q) :- ask_le(Q,I,J), le(I,J).
always(Q) :- ask_ok(Q,I,J), ok(I,J).
always(Q) :- ask_lab(Q,A,I), lab(A,K), le(K,I).
always(Q) :- lower(Q), upper(Q).
lower(Q) :- ask_sel(Q,I,F,J), sel(K,F,M), le(K,I), le(J,M).
upper(Q) :- ask_sel(Q,I,F,J), sel(K,F,M), le(I,K), le(M,J).

#show le/2. #show ok/2. #show clash/2. #show always/1.
