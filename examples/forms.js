// Each form of the grammar, read and run. Nobody is asked and nothing is drawn: the calls that do stand in the other
// examples.

// Statements, some without their semicolon.
;
{}
{ ; }
var a, b = 1, c
a = 2; b
c = a
-
b
print(a, b, c);
(a);
[a];
"text"; 7; null; this; true; false; !a;
a++; ++a; a--; --a;
(function () {})();
new Make;
if (a) ; else ;
if (a) if (b) c = 5; else c = 6
print(c);

// Functions: with no parameter, one and more, and functions within.
function none() {}
function one(x) { return x; }
function more(x, y, z) {
  var sum = twice(x);
  function twice(w) { function add(v) { return w + v; } return add(w) + y + z; }
  return sum
}
function Make(x) { this.x = x; this.of = Make; }
function early(x) {
  if (x) return
  return 3;
}
print(none(), one(4), more(1, 2, 3), early(0), early(1));
print((function (x) { return x + 1; })(5), (function down(n) { return n < 1 ? 0 : n + down(n - 1); })(4));

// Operands.
var empty = {}, list = [], full = [1, 2, 3], closed = [1, 2,], single = [one];
var object = {a: 1, "b c": 2, 'd': 3, 4: 5, 0x10: 6, print: 7, join: 8, f: function (x) { return [x, this.a]; }};
print(list.length, full.length, closed.length, single.length, single[0](6));
print(object.a, object["b c"], object.d, object[4], object[16], object.print, object.join, object.f(9)[0], object.f(9)[1]);
print(0x1F, "a\x41\u0042\"", 'it\'s', (1, 2, 3), ((4)), empty.no);
print();
print(new Make(1).x, new Make(2)["x"], (new Make).x, new (one(Make))(3).x, new new Make(4).of(5).x, new object.f(1).length);

// Operators, from the tightest to the loosest, and their order.
print(7 * 6, 42 / 6, -7 % 3, 7 + 6, 7 - 6, "7" + 6, 100 / 10 / 5, 10 - 4 - 3, 2 + 3 * 4, (2 + 3) * 4);
print(3 << 4, -32 >> 2, -1 >>> 28, 1 << 2 + 1);
print(1 < 2, 2 > 3, 2 <= 2, 3 >= 4, "a" < "b", "a" in object, new Make(1) instanceof Make, !(0 in list));
print(1 == "1", 1 != 2, 1 === "1", 1 !== 1, null == undefined);
print(6 & 3, 6 ^ 3, 6 | 3, 1 | 2 ^ 3 & 4, 0 || 5, 0 && 5, 1 || 0 && 0, a ? 1 : 2, 0 ? 1 : 0 ? 2 : 3);
print(-a, +"12", ~5, !a, - -a, -(-a), void 0, typeof a, typeof "a", typeof none, typeof nothing, typeof null);
var k = 3;
print(k++, k, k--, k, ++k, --k, -k++ * 2, k);

// Assignments, to names and to members.
a = b = 5; a += 3; print(a); a -= 2; print(a); a *= 4; print(a); a /= 3; print(a); a %= 5; print(a);
a <<= 3; print(a); a >>= 1; print(a); a >>>= 1; print(a); a |= 9; print(a); a &= 12; print(a); a ^= 7; print(a);
object.a = object["a"] += 4; object.a++; --object["a"]; print(object.a, (object.n = 1, object.n + 1));

// What is deleted: members of names, of members, of calls and of what is made.
var deep = {a: {b: {c: 1, d: 2}}, me: function (x) { return deep; }, key: "a"};
print(delete deep.a.b.c, delete deep["a"]["b"].d, delete deep.me(1).none, delete deep.me(1).me(2)["none"]);
print(delete (deep).key, delete [1, 2][0], delete new Make(1).x, delete {a: 1}.a, delete deep.me(1)[one("a")].b === 0);
var left = "";
for (var kept in deep) left += " " + kept;
print(left, typeof deep.a, typeof deep.a.b);

// Loops.
var seen = "";
do seen += "d"; while (seen.length < 3)
while (seen.length < 5) { seen += "w"; if (seen.length == 4) continue; seen += "v"; }
for (;;) { seen += "f"; if (seen.length > 6) break }
for (k = 0; k < 2; k++) seen += k;
for (k = 0, a = 1; ; k++) if (k > a) break;
for (; k < 4;) k++;
for (("a" in object); k < 5; k++) ;
for (one(k); k < 6; ) ++k;
for (var first; k < 7; k++) first = k;
for (var second = 2; second < 4; ++second) k += second;
for (var third, fourth = 1; fourth < 3; fourth++) third = fourth;
for (var fifth = ("a" in object), sixth = 2, seventh; sixth; sixth--) seventh = sixth;
print(seen, k, a, first, second, third, fourth, fifth, sixth, seventh);
var where = {}, pair = {x: 1, y: 2}, all = "";
for (var name in pair) all += name;
for (name in pair) all += name;
for (where.name in pair) all += where.name;
for (where["name"] in pair) { if (all.length > 6) break; all += where.name + pair[where.name]; continue }
print(all);

// Choices and errors.
function choose(x) {
  var path = "";
  switch (x) {}
  switch (x) { case 1: path += "a"; case 2: case 3: path += "b"; break; default: path += "c"; case 4: path += "d" }
  switch (x) { default: path += "e"; break; case 1: path += "f" }
  switch (x) { case 1: case 4: { path += "g"; } }
  return path;
}
print(choose(1), choose(2), choose(3), choose(4), choose(5));
function tries(x) {
  var path = "";
  try { path += "a"; if (x) throw x; path += "b"; } catch (e) { path += e; } finally { path += "c"; }
  try { path += "d"; } finally { path += "e" }
  try { throw path; } catch (e) { var e; return e }
}
print(tries(0), tries(1));
if (tries(2) === "a2cde") {
  throw new Error("the end")
}
