// A sort that takes a list of comparing functions: the next one decides where the first doesn't.
function by(key) {
  return (a, b) => a[key] < b[key] ? -1 : a[key] > b[key] ? 1 : 0;
}

function reversed(compare) {
  return (a, b) => compare(b, a);
}

function sortBy(list, compares) {
  const compare = (a, b) => {
    for (const c of compares) {
      const r = c(a, b);
      if (r !== 0) return r;
    }
    return 0;
  };
  for (let i = 1; i < list.length; i++) {
    for (let j = i; j > 0 && compare(list[j - 1], list[j]) > 0; j--) {
      const t = list[j];
      list[j] = list[j - 1];
      list[j - 1] = t;
    }
  }
  return list;
}

const books = [
  { title: "Emma", year: 1815, pages: 474 },
  { title: "Ulysses", year: 1922, pages: 730 },
  { title: "Dubliners", year: 1914, pages: 152 },
  { title: "Persuasion", year: 1817, pages: 249 },
  { title: "The Trial", year: 1914, pages: 249 },
];
function print(label) {
  console.log(label);
  for (const b of books) console.log("  " + b.year, b.pages, b.title);
}
sortBy(books, [by("year"), by("title")]);
print("by year and title");
sortBy(books, [reversed(by("pages")), by("title")]);
print("by pages, the longest first");
