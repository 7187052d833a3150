function List(props) { // 1
  const [items, setItems] = useState(null); // useState is 2, null 3, the pair 4, items 5, setItems 6
  useEffect(() => setItems(null)); // useEffect is 8, the function 9, the call 10
  const rows = props.rows.map(row => row.name); // props.rows is 11, its map 12, the function 14, the call 15
  return <ul onClick={() => setItems(null)}>{rows}</ul>; // the function is 16, the element 17
}
