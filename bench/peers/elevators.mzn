% The snapshot problem as a constraint model, in MiniZinc: `data constraints` writes the values of a case. It
% uses nothing of `lift`. Each car has numbered stops; each rider, which is a call or a group aboard, has a
% car and the numbers of the stops at which it boards and gets off. Moments are counted from that of the
% snapshot.
int: floors;
int: cars;
int: calls;
int: groups;
int: waiting_weight;
int: riding_weight;
int: patience;
int: patience_weight;
% no tour takes longer
int: horizon;
array[1..floors, 1..floors] of int: travel;
array[1..cars] of int: capacity;
array[1..cars] of int: opening;
array[1..cars] of int: closing;
array[1..cars] of int: boarding;
array[1..cars] of int: alighting;
% where and from when the tour is timed; the floors where the car may stop first; whether it has to
array[1..cars] of int: start;
array[1..cars] of int: free;
array[1..cars] of bool: is_under_way;
array[1..cars] of set of 1..floors: serves;
array[1..cars] of set of 1..floors: first;
array[1..calls] of int: origin;
% of the riders: the calls, and after them the groups, which came when they boarded
set of int: riders = 1..calls + groups;
array[riders] of int: came;
array[riders] of int: destination;
array[riders] of int: persons;
array[riders] of set of 1..cars: possible;
% the calls that are before a call in its queue
array[1..calls] of set of 1..calls: earlier;

int: stops = 2 * calls + groups + 1;

array[riders] of var 1..cars: car;
array[riders] of var 0..stops: board;
array[riders] of var 1..stops: alight;
array[riders] of var min(came)..horizon: boarded_at;
array[riders] of var 0..horizon: delivered_at;
array[1..cars] of var 0..stops: count;
array[1..cars, 0..stops] of var 1..floors: floor;
array[1..cars, 0..stops] of var min(free)..horizon: open;
array[1..cars, 0..stops] of var min(free)..horizon: leave;

constraint forall (c in 1..cars) (
    floor[c, 0] = start[c] /\ open[c, 0] = free[c] /\ leave[c, 0] = free[c]
    /\ (is_under_way[c] -> count[c] > 0)
    /\ (count[c] > 0 -> floor[c, 1] in first[c]));

% Each stop after the one before it, and nothing after the last one.
constraint forall (c in 1..cars, k in 1..stops) (
    if k <= count[c] then
        floor[c, k] in serves[c]
        /\ open[c, k] = leave[c, k - 1] + travel[floor[c, k - 1], floor[c, k]] + opening[c]
        /\ leave[c, k] = open[c, k] + closing[c]
            + sum (r in riders) (boarding[c] * persons[r] * (car[r] = c /\ board[r] = k))
            + sum (r in riders) (alighting[c] * persons[r] * (car[r] = c /\ alight[r] = k))
        /\ ((k = 1 /\ is_under_way[c])
            \/ exists (r in riders) (car[r] = c /\ (board[r] = k \/ alight[r] = k)))
        /\ (k = 1 \/ floor[c, k] != floor[c, k - 1])
    else
        floor[c, k] = floor[c, k - 1] /\ open[c, k] = open[c, k - 1] /\ leave[c, k] = leave[c, k - 1]
    endif);

% Each rider gets off at a stop of its car; calls board at one, and groups have boarded.
constraint forall (r in riders) (
    car[r] in possible[r] /\ board[r] < alight[r] /\ alight[r] <= count[car[r]]
    /\ floor[car[r], alight[r]] = destination[r] /\ delivered_at[r] = open[car[r], alight[r]]
    /\ if r <= calls then
        board[r] > 0 /\ floor[car[r], board[r]] = origin[r] /\ boarded_at[r] = open[car[r], board[r]]
    else
        board[r] = 0 /\ boarded_at[r] = came[r]
    endif);

% A car with people aboard rides past, or away from, nobody's destination, and they get off where it first
% stops there.
constraint forall (r in riders, c in 1..cars, k in 1..stops) (
    (car[r] = c /\ board[r] < k /\ k <= alight[r]) -> (
        (floor[c, k] > floor[c, k - 1] -> floor[c, k] <= destination[r])
        /\ (floor[c, k] < floor[c, k - 1] -> floor[c, k] >= destination[r])
        /\ (k < alight[r] -> floor[c, k] != destination[r])));

% No more persons aboard than fit.
constraint forall (c in 1..cars, k in 1..stops) (
    sum (r in riders) (persons[r] * (car[r] = c /\ board[r] <= k /\ k < alight[r])) <= capacity[c]);

% In a queue nobody boards a car after a later one did at an earlier stop.
constraint forall (j in 1..calls, i in earlier[j]) (car[i] = car[j] -> board[i] <= board[j]);

% What follows from the rest, said for the search. Nothing is sooner than the straight way.
constraint forall (c in 1..cars, k in 1..stops) (
    k <= count[c] -> open[c, k] >= free[c] + travel[start[c], floor[c, k]] + opening[c]);
constraint forall (j in 1..calls) (
    boarded_at[j] >= [free[c] + travel[start[c], origin[j]] + opening[c] | c in 1..cars][car[j]]
    /\ delivered_at[j] - boarded_at[j] >= travel[origin[j], destination[j]]
        + min (c in possible[j]) (persons[j] * boarding[c] + closing[c] + opening[c]));
% Of two calls from different floors that one car serves, one boards first.
function int: least_between(int: i, int: j) =
    travel[origin[i], origin[j]] + persons[i] * min(boarding) + min(closing) + min(opening);
constraint forall (i, j in 1..calls where i < j /\ origin[i] != origin[j]) (
    car[i] = car[j] -> (boarded_at[j] - boarded_at[i] >= least_between(i, j)
        \/ boarded_at[i] - boarded_at[j] >= least_between(j, i)));
% A car makes no more stops than its riders need.
constraint forall (c in 1..cars) (
    count[c] <= is_under_way[c] + sum (r in riders) (if r <= calls then 2 else 1 endif * (car[r] = c)));

var int: cost = sum (r in riders) (persons[r] * riding_weight * (delivered_at[r] - boarded_at[r]))
    + sum (j in 1..calls) (persons[j] * waiting_weight * (boarded_at[j] - came[j])
        + persons[j] * patience_weight * max(0, boarded_at[j] - came[j] - patience));

solve :: seq_search([
    int_search(car, first_fail, indomain_min),
    int_search(board ++ alight, smallest, indomain_min)
]) minimize cost;

output ["cost \(cost)\n"];
