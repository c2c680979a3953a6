// Two sides hand a ball to and fro. What `later` gets is done in a later turn of the side that gave it.
let rally = [];
desk.ping = left => {
    rally.push("ping " + left);
    if (left > 0) later(() => desk.pong(left - 1));
    else later(() => print(rally.join(", ")));
};

later(() => desk.ping(4));
print("left is ready");
