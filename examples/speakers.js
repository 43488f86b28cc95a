// A meeting finds its speaker. Four people are invited, in an order that is drawn once. Who says yes names a
// subject. Three members vote, and where votes are equal the one who was invited first speaks.
var members = 3;
var people = ["Ana", "Bo", "Cleo", "Dan"];

var order = once(function () {
  var left = people.slice(0);
  var drawn = [];
  while (left.length > 0) {
    var at = random(left.length);
    drawn.push(left[at]);
    left[at] = left[left.length - 1];
    left.pop();
  }
  return drawn;
});
print("Invited: " + order.join(", "));

function invite(name) {
  fork(function () {
    if (prompt(name + ", will you speak? Answer yes or no.") != "yes") {
      return null;
    }
    return {name: name, subject: prompt(name + ", what is your subject?"), votes: 0};
  });
}

for (var i = 0; i < order.length; i++) {
  invite(order[i]);
}
var answers = join();
var talks = [];
for (var a = 0; a < answers.length; a++) {
  if (answers[a] !== null) {
    talks.push(answers[a]);
  }
}
if (talks.length == 0) {
  throw new Error("nobody speaks");
}

var ballot = "Which talk? Answer its number.";
for (var t = 0; t < talks.length; t++) {
  ballot += " " + (t + 1) + ": " + talks[t].subject + ".";
}
for (var m = 0; m < members; m++) {
  fork(function () {
    return +prompt(ballot);
  });
}
var votes = join();
for (var v = 0; v < votes.length; v++) {
  talks[votes[v] - 1].votes++;
}

var chosen = talks[0];
for (var c = 0; c < talks.length; c++) {
  print(talks[c].name + ", " + talks[c].subject + ": " + talks[c].votes + " of " + members + " votes");
  if (talks[c].votes > chosen.votes) {
    chosen = talks[c];
  }
}
print("Speaker: " + chosen.name);
