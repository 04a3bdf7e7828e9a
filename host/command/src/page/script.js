/* Sorts tables, opens a row's plots below it, and saves figures. Without it the tables stay
   unsorted, and a row's link shows its plots below the table. */
'use strict';
document.documentElement.classList.add('script');

/* The sort key of a column; figures that the log does not contain come last in both directions. */
function keys(rows, column) {
  const keyed = rows.map(row => {
    const text = row.cells[column].textContent.replaceAll(',', '');
    return { row, text, number: column > 0 ? parseFloat(text) : NaN, known: text !== '–' };
  });
  const numbers = keyed.every(key => !key.known || !Number.isNaN(key.number));
  const order = (a, b) => numbers ? a.number - b.number : a.text.localeCompare(b.text, 'en', { numeric: true });
  return { keyed, order };
}

function sortBy(table, head) {
  const before = head.getAttribute('aria-sort');
  const falls = before ? before === 'ascending' : head.cellIndex > 0;
  for (const other of head.parentNode.cells) other.removeAttribute('aria-sort');
  head.setAttribute('aria-sort', falls ? 'descending' : 'ascending');
  const body = table.tBodies[0];
  for (const row of body.querySelectorAll('tr.open')) close(row);
  const { keyed, order } = keys([...body.rows], head.cellIndex);
  keyed.sort((a, b) => {
    if (!a.known || !b.known) return b.known - a.known;
    return falls ? order(b, a) : order(a, b);
  });
  body.append(...keyed.map(key => key.row));
}

/* Without a script a section is a part of the page; with one it is text until its row is opened. */
const sectionOf = row => {
  const link = row.querySelector('a[href^="#"]');
  return link && document.querySelector(`noscript[data-of="${link.hash}"]`);
};

function close(row) {
  row.classList.remove('open');
  row.nextElementSibling.remove();
}

function open(row) {
  row.classList.add('open');
  const below = row.parentNode.insertRow(row.sectionRowIndex + 1);
  below.className = 'opened';
  const cell = below.insertCell();
  cell.colSpan = row.cells.length;
  cell.innerHTML = sectionOf(row).textContent;
}

for (const table of document.querySelectorAll('table.sorts')) {
  for (const head of table.tHead.rows[0].cells) {
    const button = document.createElement('button');
    button.append(...head.childNodes);
    button.addEventListener('click', () => sortBy(table, head));
    head.append(button);
  }
  table.tBodies[0].addEventListener('click', event => {
    const row = event.target.closest('tr');
    if (row.classList.contains('opened') || !sectionOf(row)) return;
    event.preventDefault();
    if (row.classList.contains('open')) close(row); else open(row);
  });
}

for (const csv of document.querySelectorAll('pre.csv')) {
  const save = document.createElement('a');
  save.className = 'tools';
  save.textContent = 'Save as CSV';
  save.download = csv.dataset.file;
  save.href = URL.createObjectURL(new Blob([csv.textContent], { type: 'text/csv' }));
  csv.before(save);
}

for (const link of document.querySelectorAll('td a')) {
  if (link.hash === location.hash) open(link.closest('tr'));
}
