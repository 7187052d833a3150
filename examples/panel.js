function Panel() {
  let style = {};            // 1, held by 2 (style); 3 is what the assignment gives
  const dark = true;         // 4, held by 5 (dark)
  if (dark) {
    style = {};              // 7, held by 8 (style)
  }
  style.color = 'teal';      // 10 is the style after the branch, one of 2 and 8
  return style;
}
