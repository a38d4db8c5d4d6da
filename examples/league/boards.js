// The boards of a day, for index.html beside this file, in the order in which they are shown. Of each match:
//   state  the file that its board writes: board.json by `--json`, or state.js by `--script`, which a page opened from a folder needs
//   page   where a click leads, as the board's own page; or left out
//   title  what is shown until the file is there; or left out
// `season` is a link to the tables, which season.py writes; or left out.
window.league = {
  title: "The league on Saturday",
  season: "../season.html",
  matches: [
    { title: "Alder v Birch", state: "alder/board.json", page: "http://192.168.1.22:8000/" },
    { title: "Cedar v Elder", state: "cedar/board.json", page: "cedar/" },
  ],
};
