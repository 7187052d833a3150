function Card(props) {
  const reset = () => {
    props.count = 0;
  };
  return <button onClick={reset} />;
}
