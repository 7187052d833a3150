// 1 is the object, 2 the test, which is also what is written.
const object = {};
const picked = 2 ? {} : object.inner; // the new object is 3, the property 4, and what is picked 5
picked.a = 2; // gives 6
return picked;
