# Two plants that may be opened, and what they ship to two customers.
param demand{c in 1..2} := 10 * c;
var opened{p in 1..2} binary;
var shipped{p in 1..2, c in 1..2} >= 0;
minimize cost: sum{p in 1..2} (40 + 10 * p) * opened[p] + sum{p in 1..2, c in 1..2} abs(p - c + 0.5) * shipped[p,c];
s.t. served{c in 1..2}: sum{p in 1..2} shipped[p,c] >= demand[c];
s.t. capacity{p in 1..2}: sum{c in 1..2} shipped[p,c] <= 25 * opened[p];
end;
