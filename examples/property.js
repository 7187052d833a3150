const object = {}; // 1
const inner = object.inner; // 2
object.length; // 3, a primitive by its type
inner.b = object; // gives 4
return inner; // 5
