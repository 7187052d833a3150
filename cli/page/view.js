// The page of `view`, which has all its data.
begin(DATA.title, DATA.source && new SourceView(DATA.source));
offer();
show(DATA.shown);
