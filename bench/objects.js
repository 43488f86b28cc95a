// Objects: 50,000 of them in an array, made by a constructor, each changed by a method in six passes.
function Point(x, y) {
  this.x = x;
  this.y = y;
}
Point.prototype.move = function (by) {
  this.x += by;
  this.y -= by;
  return this.x + this.y;
};
var points = [];
for (var i = 0; i < 50000; i++) {
  points.push(new Point(i, i % 7));
}
var sum = 0;
for (var pass = 0; pass < 6; pass++) {
  for (var k = 0; k < points.length; k++) {
    sum += points[k].move(pass);
  }
}
var names = "";
for (var name in points[1]) {
  names += " " + name;
}
print(sum + names);
