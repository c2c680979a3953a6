let d = Object.getOwnPropertyDescriptor(desk.room, "fahrenheit");
print(typeof d.get, typeof d.set, d.enumerable, "value" in d);
print(d.get.name, d.set.length);

// The getter of the left side's object, for an object of the right side.
print(Reflect.get(desk.room, "fahrenheit", { celsius: 100 }));
print(desk.room.kelvin);
