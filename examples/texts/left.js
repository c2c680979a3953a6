print("left says: a, b and c");
print("");
