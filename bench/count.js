// A loop that counts: 1,500,000 turns, an addition in each.
var sum = 0;
for (var i = 0; i < 1500000; i++) {
  sum = sum + i;
}
print(sum);
