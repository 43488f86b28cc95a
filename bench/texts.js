// Texts: 20,000 lines of 90 letters or so, each made by twelve joins, and a letter of each looked at.
var length = 0;
var sum = 0;
for (var i = 0; i < 20000; i++) {
  var line = "line " + i + ":";
  for (var j = 0; j < 10; j++) {
    line = line + "abcdefgh";
  }
  length += line.length;
  sum += line.charCodeAt(i % line.length);
}
print(length, sum);
