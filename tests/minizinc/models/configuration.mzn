% A computer: a board, a processor that fits, memory, and a price of 500 at most.
% asks: all
% known by: another solver (Gecode 6.2)
include "globals.mzn";
enum Board = {Small, Large};
enum Processor = {Slow, Fast, Fastest};
var Board: board; var Processor: processor; var {8, 16, 32}: memory;
array [Board] of int: board_price = [80, 150];
array [Processor] of int: processor_price = [100, 200, 350];
constraint processor = Fastest -> board = Large;
constraint memory > 16 -> board = Large;
constraint table([board, processor], [| Small, Slow | Small, Fast | Large, Fast | Large, Fastest |]);
constraint board_price[board] + processor_price[processor] + 5 * memory <= 500;
constraint memory >= 16;
solve satisfy;
output [show(board), " ", show(processor), " ", show(memory)];
