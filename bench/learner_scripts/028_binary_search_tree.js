// A binary search tree with insertion, search, deletion and height.
const leaf = value => ({ value, left: null, right: null });

function insert(tree, value) {
  if (tree === null) return leaf(value);
  if (value < tree.value) tree.left = insert(tree.left, value);
  else if (value > tree.value) tree.right = insert(tree.right, value);
  return tree;
}

function smallest(tree) {
  while (tree.left !== null) tree = tree.left;
  return tree.value;
}

function remove(tree, value) {
  if (tree === null) return null;
  if (value < tree.value) tree.left = remove(tree.left, value);
  else if (value > tree.value) tree.right = remove(tree.right, value);
  else if (tree.left === null) return tree.right;
  else if (tree.right === null) return tree.left;
  else {
    tree.value = smallest(tree.right);
    tree.right = remove(tree.right, tree.value);
  }
  return tree;
}

const has = (tree, value) => tree !== null &&
  (tree.value === value || has(value < tree.value ? tree.left : tree.right, value));
const height = tree => {
  if (tree === null) return 0;
  const a = height(tree.left), b = height(tree.right);
  return 1 + (a > b ? a : b);
};
const text = tree => tree === null ? "." : "(" + text(tree.left) + tree.value + text(tree.right) + ")";

let root = null;
for (const n of [50, 30, 70, 20, 40, 60, 80, 65, 30]) root = insert(root, n);
console.log(text(root), height(root));
console.log(has(root, 65), has(root, 66), has(null, 1));
for (const n of [20, 70, 50, 99]) {
  root = remove(root, n);
  console.log("without " + n + ": " + text(root));
}
