// Matrices: product, transposed, power, determinant; sizes that don't fit are thrown.
function matrix(rows, columns, f) {
  const m = [];
  for (let i = 0; i < rows; i++) {
    m.push([]);
    for (let j = 0; j < columns; j++) m[i].push(f(i, j));
  }
  return m;
}

const identity = n => matrix(n, n, (i, j) => i === j ? 1 : 0);
const transposed = m => matrix(m[0].length, m.length, (i, j) => m[j][i]);

function product(a, b) {
  if (a[0].length !== b.length) throw RangeError(a[0].length + " columns and " + b.length + " rows");
  return matrix(a.length, b[0].length, (i, j) => {
    let sum = 0;
    for (let k = 0; k < b.length; k++) sum += a[i][k] * b[k][j];
    return sum;
  });
}

function power(m, n) {
  if (n === 0) return identity(m.length);
  const half = power(m, n >> 1), square = product(half, half);
  return n % 2 === 0 ? square : product(square, m);
}

function determinant(m) {
  if (m.length === 0) return 1;
  let sum = 0;
  for (let c = 0; c < m.length; c++) {
    const minor = matrix(m.length - 1, m.length - 1, (i, j) => m[i + 1][j < c ? j : j + 1]);
    sum += (c % 2 === 0 ? 1 : -1) * m[0][c] * determinant(minor);
  }
  return sum;
}

function show(m) {
  const rows = [];
  for (const row of m) rows.push(row.join(" "));
  return "[" + rows.join("; ") + "]";
}

const a = [[1, 2, 3], [4, 5, 6]], b = [[2, 0], [1, -1], [0, 5]];
console.log(show(product(a, b)), show(product(b, a)), show(transposed(a)));
console.log(show(power([[1, 1], [1, 0]], 40)));
console.log(determinant([[2, 0, 1], [1, 3, 2], [1, 1, 4]]), determinant(product(b, a)), determinant(identity(5)));
console.log(show(transposed(transposed(a))) === show(a));
try { product(a, a); } catch (e) { console.log(e.name + ": " + e.message); }
