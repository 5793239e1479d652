% The lawful plans of a rule book, and what they cost. The stable models of these rules beside a book's facts are its
% lawful plans, one for each: a stable model has nothing that supports only itself, so active is the least closed set.
%
%   size(D, N)         decision D has the values 1 to N
%   on(D)              decision D is marked on
%   forbid(R)          R is a forbid rule
%   activate(R, D)     R is an activate rule with target D
%   price(R, T, C)     R is a price rule of tier T and C cents
%   pair(R, D, V)      the condition of R has the pair D=V
%
% Each rule of the book has a number R of its own, so one that is held twice counts twice.

#defined size/2.
#defined on/1.
#defined forbid/1.
#defined activate/2.
#defined price/3.
#defined pair/3.

% a decision that is active has just one of its values, and no other decision has any
active(D) :- on(D).
active(D) :- activate(R, D), met(R).
{ chosen(D, V) : V = 1..N } = 1 :- active(D), size(D, N).

% a rule is met if all of its pairs are chosen
met(R) :- pair(R, _, _); chosen(D, V) : pair(R, D, V).

:- forbid(R), met(R).

% the least tier, then the least cents; the tier is the number of tiers from 1 up to the highest that is paid.
% The zeros are there so that both numbers are told of a book without prices too.
reached(1..T) :- price(R, T, _), met(R).
#minimize { 0@2, zero; 1@2, T : reached(T) }.
#minimize { 0@1, zero; C@1, R : price(R, _, C), met(R) }.

#show chosen/2.
