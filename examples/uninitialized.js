// A place is read that nothing gives a value: no JavaScript that a compiler's front end takes comes to this.
return missing; // 1 is missing, 2 what is read
