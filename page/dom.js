// Elements of the page by identifier, and what it writes into them.
export const $ = (id) => document.getElementById(id);
export const plural = (count, word) => `${count.toLocaleString('en')} ${word}${count === 1 ? '' : 's'}`;
export const visible = (text) => text.replace(/\r/g, '␍').replace(/\n/g, '↵').replace(/\t/g, '⇥');

export function element(name, className, text = '') {
  const it = document.createElement(name);
  it.className = className;
  it.textContent = text;
  return it;
}

// Sets the text of an element that screen readers announce, if the text has changed. An element without text is hidden.
export function tell(id, text) {
  if ($(id).textContent !== text) $(id).textContent = text;
  $(id).hidden = text === '';
}

// Returns the summary of an error that the program prints: its location and its message. The column is that of the marker. A message with a column
// above 500 is one line. The error of an annotation that is not closed has only its offset.
export function summaryOf(printed) {
  const [, what, line, column] = /^([^]*?)(?:\n +-->| at) <anon>:(\d+):(\d+)/.exec(printed) ?? [];
  return line ? `Line ${line}, column ${column}: ${what}` : printed;
}

// Returns an error that the program prints, with its lines cut at `longest` code units.
export const cutLines = (printed, longest) => printed.split('\n').map((line) => line.slice(0, longest)).join('\n');
