% A computer from a catalogue: parts that fit each other, as cheap as may be.
include "globals.mzn";

enum Boards;
enum Processors;
enum Housings;
array[int, 1..2] of int: fits;                % pairs of a board and a processor, by their numbers
array[Boards] of int: board_price;
array[Processors] of int: processor_price;
array[Processors] of int: speed;
array[Processors] of int: watts;
array[Housings] of int: housing_price;
array[Housings] of int: supply;
int: wanted_speed;

var Boards: board;
var Processors: processor;
var Housings: housing;
var 0..10000: price = board_price[board] + processor_price[processor] + housing_price[housing];

constraint table([board, processor], fits);
constraint speed[processor] >= wanted_speed;
constraint watts[processor] + 50 <= supply[housing];

solve minimize price;

output ["\(board), \(processor), \(housing): \(price)\n"];
