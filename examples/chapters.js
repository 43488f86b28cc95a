// A short guide is written by many people at once. One person lists its chapters. Each chapter then has a branch
// of its own: somebody writes it, two readers judge it at the same time, and while one of them wishes a change,
// somebody changes it, twice at most. In the end one person writes the line for the cover.
var subject = "keeping bees in town";
var most_changes = 2;

// What the two readers of a text wish. Both tasks are posted before the first answer is waited for.
function judge(text) {
  var task = "Answer ok, or what should change: " + text;
  var first = post(task);
  var second = post(task);
  var answers = [reply(first), reply(second)];
  var wishes = [];
  for (var a = 0; a < answers.length; a++) {
    if (answers[a] != "ok") {
      wishes.push(answers[a]);
    }
  }
  return wishes;
}

function write_chapter(title) {
  var text = prompt("Write the chapter " + title + " of a guide to " + subject);
  var changes = 0;
  var wishes = judge(text);
  while (wishes.length > 0 && changes < most_changes) {
    text = prompt("Change this text (" + wishes.join("; ") + "): " + text);
    changes++;
    wishes = judge(text);
  }
  return {title: title, text: text, changes: changes, wishes: wishes.length};
}

// The end of a chapter's heading.
function remark(chapter) {
  var text;
  switch (chapter.changes) {
    case 0:
      text = "";
      break;
    case 1:
      text = ", changed once";
      break;
    default:
      text = ", changed " + chapter.changes + " times";
  }
  return chapter.wishes > 0 ? text + ", open wishes: " + chapter.wishes : text;
}

var titles = prompt("List the chapters of a guide to " + subject + ", with semicolons between them").split(";");
for (var i = 0; i < titles.length; i++) {
  (function (title) {
    fork(function () {
      return write_chapter(title);
    });
  })(titles[i]);
}
var chapters = join();
var cover = prompt("Write one line for the cover of a guide to " + subject);

print(cover);
var all = {words: 0, changes: 0};
for (var k = 0; k < chapters.length; k++) {
  var chapter = chapters[k];
  var words = chapter.text.split(" ").length;
  all.words += words;
  all.changes += chapter.changes;
  print((k + 1) + ". " + chapter.title + " (" + words + " words" + remark(chapter) + ")");
  print("   " + chapter.text);
}
for (var what in all) {
  print(what + " in all: " + all[what]);
}
