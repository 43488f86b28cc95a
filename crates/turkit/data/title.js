// Two people propose a title each, somebody gives points to each title, and the better one is told.
var subject = "a story about a night nurse";
for (var i = 0; i < 2; i++) {
  fork(function () {
    var title = prompt("Propose a title for " + subject);
    var points = prompt("Give points from 0 to 10 to the title: " + title);
    return {title: title, points: +points};
  });
}
var all = join();
var best = all[0];
for (var k = 1; k < all.length; k++) {
  if (all[k].points > best.points) {
    best = all[k];
  }
}
print("Best title: " + best.title + ", with " + best.points + " points");
