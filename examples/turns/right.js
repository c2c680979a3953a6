desk.pong = left => {
    print("pong", left);
    if (left > 0) later(() => desk.ping(left - 1));
};

print("right is ready");
