export function Table({rows}) {
  const sorted = [];
  for (const row of rows) {
    sorted.push(row);
  }
  const clear = () => {
    rows.length = 0;
  };
  return <ul onClick={clear}>{sorted}</ul>;
}

function other(items) {
  return items.map((item) => item.name);
}
