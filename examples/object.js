const object = {}; // the object is 1, the variable 2, what the assignment gives 3
object.a = 4; // gives 5
return object;
