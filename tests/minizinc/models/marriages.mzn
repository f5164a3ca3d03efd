% Three men and three women, stable.
% asks: all
% known by: fzn-gecode 6.2
include "globals.mzn";
enum Man = {Abe, Ben, Cal};
enum Woman = {Una, Vic, Wyn};
array [Man, Woman] of int: by_man = [|1, 2, 3|2, 1, 3|1, 3, 2|];
array [Woman, Man] of int: by_woman = [|2, 1, 3|1, 3, 2|1, 2, 3|];
array [Man] of var Woman: wife;
array [Woman] of var Man: husband;
constraint inverse(wife, husband);
constraint forall (m in Man, w in Woman) (by_man[m, w] < by_man[m, wife[m]] -> by_woman[w, husband[w]] < by_woman[w, m]);
solve satisfy;
output ["\(wife) \(husband)"];
