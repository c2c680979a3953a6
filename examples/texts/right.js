print("right says: 1 + 1 isn't reckoned");
