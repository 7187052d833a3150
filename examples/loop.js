const object = {}; // 1
while (2) {
  object.a = 3; // gives 4
}
return 2;
